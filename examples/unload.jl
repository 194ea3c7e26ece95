# A plug-in is unloaded while tasks call it. A task that calls it as usual keeps it up to its own end, however long it runs. A request
# that goes through Base.invokelatest gets what is left once the plug-in is gone.

struct Book end
struct Tea end

# what the shop itself knows
price(item) = 10

# the plug-in: tea has a price of its own
price(item::Tea) = 3

# a batch makes many calls
batch(n) = n == 0 ? 0 : price(Tea()) + price(Book()) + batch(n - 1)

# answers a request, once the task before it has ended
function serve(item, before)
    fetch(before)
    Base.invokelatest(price, item)
end

# takes the plug-in out, once the task before it has ended
function unload(before)
    fetch(before)
    Base.delete_method(which(price, Tuple{Tea}))
end

ready = Threads.@spawn 0
early = Threads.@spawn batch(1000)
asked = Threads.@spawn serve(Tea(), ready)
unloaded = Threads.@spawn unload(asked)
again = Threads.@spawn serve(Tea(), unloaded)
println("a request: ", fetch(asked), ", and without the plug-in: ", fetch(again))
late = Threads.@spawn batch(1000)
println("a batch: ", fetch(early), ", and without the plug-in: ", fetch(late))
