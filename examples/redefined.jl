# Tasks call a function over and over, while it is redefined: each sees the one of its own world.
pace(n) = n + 1
steps(n, goal) = n >= goal ? 0 : 1 + steps(pace(n), goal)
slow = Threads.@spawn steps(0, 5000)
pace(n) = n + 10
fast = Threads.@spawn steps(0, 5000)
function hurry()
    @eval pace(n) = n + 100
    own = steps(0, 5000)
    newest = Base.invokelatest(steps, 0, 5000)
    (own, newest)
end
both = Threads.@spawn hurry()
println(fetch(slow), " ", fetch(fast), " ", fetch(both))
println(steps(0, 5000))
