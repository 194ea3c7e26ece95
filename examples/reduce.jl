# A parallel reduction. A range is halved over and over, with a task for each first half, and the halves are combined in their order.
# So the result is that of one task, even where the order counts.
abstract type Combination end
struct Sum <: Combination end
struct Largest <: Combination end
struct Composition <: Combination end

# the function that gives a * x + b
struct Line
    a::Int64
    b::Int64
end

value(c::Sum, n) = n
value(c::Largest, n) = n * 37 % 101
value(c::Composition, n) = Line(2, n)
combine(c::Sum, x, y) = x + y
combine(c::Largest, x, y) = x < y ? y : x
combine(c::Composition, f::Line, g::Line) = Line(g.a * f.a, g.a * f.b + g.b)

# the values from `low` up to `high`, with tasks as long as the range is longer than `most`
function reduce(c, low, high, most)
    if low == high
        return value(c, low)
    end
    middle = low + div(high - low, 2)
    if high - low < most
        return combine(c, reduce(c, low, middle, most), reduce(c, middle + 1, high, most))
    end
    first = Threads.@spawn reduce(c, low, middle, most)
    second = reduce(c, middle + 1, high, most)
    combine(c, fetch(first), second)
end

println(reduce(Sum(), 1, 1000, 50))
println(reduce(Largest(), 1, 100, 10))
println(reduce(Composition(), 1, 10, 1))
println(reduce(Composition(), 1, 60, 5) === reduce(Composition(), 1, 60, 60))
