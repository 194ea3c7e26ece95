# A function is redefined while a task calls it.
version() = 1
function watch(n)
    while n > 0
        println(version())
        n -= 1
    end
end
t = Threads.@spawn watch(3)
version() = 2
wait(t)
