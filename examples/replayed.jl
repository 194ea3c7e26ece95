price() = 1
bill(n) = n * price()
t = Threads.@spawn bill(10)
price() = 2
println("the task ", fetch(t), ", now ", bill(10))
%%history 1
begin 1000
def 0 14
def 0 15
spawn 0 1 0
key 0 bill Tuple{Int64}
fill 0 15 16
def 0 16
key 1 price Tuple{}
fill 1 14 15
key 2 * Tuple{Int64, Int64}
fill 2 2 14
done 1 3 0
output ""
outcome value 10
fill 1 16 17
done 0 3 10
look 14 1
def 14 1
look 15 2
def 15 2
look 16 3
spawn 1 3
look 16 4
def 16 6
look 17 7
fetch 1 12
output "the task 10, now 20\n"
outcome value nothing
end 14
