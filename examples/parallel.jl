# Maps a function over a list, with a task for each part.
struct Cell
    head
    tail
end
numbers(n) = n == 0 ? nothing : Cell(n, numbers(n - 1))
square(x) = x * x
spread(l::Nothing) = nothing
function spread(l::Cell)
    t = Threads.@spawn square(l.head)
    Cell(t, spread(l.tail))
end
gather(l::Nothing) = nothing
gather(l::Cell) = Cell(fetch(l.head), gather(l.tail))
total(l::Nothing) = 0
total(l::Cell) = l.head + total(l.tail)
println(gather(spread(numbers(3))))
println(total(gather(spread(numbers(100)))))
