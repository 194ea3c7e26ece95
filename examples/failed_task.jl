# What a task prints comes after what the root prints. A task that failed fails the one that fetches it.
function halve(n)
    println("halves ", n)
    n == 0 ? div(n, 0) : div(n, 2)
end
a = Threads.@spawn halve(8)
b = Threads.@spawn halve(0)
println("the half is ", fetch(a))
fetch(b)
println("not reached")
