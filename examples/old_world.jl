# A task runs in the world of the code that started it, whatever is defined later.
price() = 1
bill(n) = n * price()
t = Threads.@spawn bill(10)
price() = 2
println("the task ", fetch(t), ", now ", bill(10))
