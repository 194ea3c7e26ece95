# A plug-in is replaced while tasks call it. A task that calls it as usual keeps the one of its own world up to its end, however
# long it runs. A request that goes through Base.invokelatest gets the newest one.

# the plug-in
price(item) = item * 2

# a batch makes many calls
batch(n) = n == 0 ? 0 : price(n) + batch(n - 1)

# answers a request, once the task before it has ended
function serve(item, before)
    fetch(before)
    Base.invokelatest(price, item)
end

# puts a new plug-in in, once the task before it has ended
function install(before)
    fetch(before)
    @eval price(item) = item * 3
end

ready = Threads.@spawn 0
early = Threads.@spawn batch(1000)
asked = Threads.@spawn serve(10, ready)
installed = Threads.@spawn install(asked)
again = Threads.@spawn serve(10, installed)
println("a request: ", fetch(asked), ", and after the new plug-in: ", fetch(again))
late = Threads.@spawn batch(1000)
println("a batch: ", fetch(early), ", and after the new plug-in: ", fetch(late))
