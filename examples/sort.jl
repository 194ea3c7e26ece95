# Sorts a list, with a task for the first half of each part.
struct Cell
    head::Int64
    tail
end
length(l::Nothing) = 0
length(l::Cell) = 1 + length(l.tail)
take(n, l) = n == 0 ? nothing : Cell(l.head, take(n - 1, l.tail))
drop(n, l) = n == 0 ? l : drop(n - 1, l.tail)

merge(a::Nothing, b) = b
merge(a::Cell, b::Nothing) = a
merge(a::Cell, b::Cell) = a.head < b.head ? Cell(a.head, merge(a.tail, b)) : Cell(b.head, merge(a, b.tail))

function sort(l)
    n = length(l)
    if n < 2
        return l
    end
    half = div(n, 2)
    first = Threads.@spawn sort(take(half, l))
    second = sort(drop(half, l))
    merge(fetch(first), second)
end

numbers(n, x) = n == 0 ? nothing : Cell(x, numbers(n - 1, (x * 7 + 3) % 101))
ordered(l::Nothing) = true
ordered(l::Cell) = l.tail isa Nothing || l.head <= l.tail.head && ordered(l.tail)
show(l::Nothing) = println()
function show(l::Cell)
    print(" ", l.head)
    show(l.tail)
end

print("given:")
show(numbers(8, 5))
print("sorted:")
show(sort(numbers(8, 5)))
println(ordered(numbers(500, 5)), " ", ordered(sort(numbers(500, 5))), " ", length(sort(numbers(500, 5))))
