# A bound may mention a variable that is declared before it: a container, and what goes with its elements.
abstract type Shelf{T} end
struct Bare{T} <: Shelf{T} end
struct Row{T} <: Shelf{T}
    first::T
    rest::Shelf{T}
end
numbers = Row{Int64}(1, Bare{Int64}())
things = Row{Any}(true, Bare{Any}())

# whether a shelf is one for such an element
fits(shelf, x) = false
fits(shelf::S, x::T) where {T, S<:Shelf{T}} = true
println(fits(numbers, 2), " ", fits(numbers, true), " ", fits(things, true), " ", fits(2, numbers))

# two shelves of one type, whatever is on them
alike(a, b) = false
alike(a::S, b::S) where {T, S<:Shelf{T}} = true
println(alike(numbers, Row{Int64}(5, numbers)), " ", alike(numbers, things), " ", alike(1, 1))

# a body may use T, which is an argument of a parameter's type
struct Parcel{A, B}
    item::A
    shelf::B
end
unpack(p::Parcel) = p.shelf
unpack(p::Parcel{T, S}) where {T, S<:Shelf{T}} = Row{T}(p.item, p.shelf)
println(unpack(Parcel(2, numbers)))
println(unpack(Parcel(true, numbers)))

# a shelf of shelves
depth(shelf, x) = 0
depth(shelf::S, x::T) where {T, S<:Shelf{T}} = 1
depth(shelf::R, x::T) where {T, S<:Shelf{T}, R<:Shelf{S}} = 2
println(depth(numbers, 3), " ", depth(Row{Row{Int64}}(numbers, Bare{Row{Int64}}()), 3), " ", depth(numbers, nothing))
