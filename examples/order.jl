# What tasks print is written task by task: first the root, then each task with all that it started, in the order of starting. So
# the output is the same on every schedule.
function work(number, levels)
    println("task ", number)
    if levels == 0
        return number
    end
    left = Threads.@spawn work(2 * number, levels - 1)
    right = Threads.@spawn work(2 * number + 1, levels - 1)
    sum = fetch(left) + fetch(right)
    println("task ", number, " has ", sum)
    sum
end
top = Threads.@spawn work(1, 2)
println("in all ", fetch(top))
