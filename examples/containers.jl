# Types with parameters. Their arguments are invariant, and tuples are covariant.
struct Box{T}
    x::T
end
struct Pair{A, B}
    first::A
    second::B
end
kind(b::Box{Int64}) = 1
kind(b::Box{<:Integer}) = 2
kind(b::Box) = 3
println(kind(Box(1)), " ", kind(Box(true)), " ", kind(Box(nothing)), " ", kind(Box{Integer}(1)))
println(Box{Int64} <: Box{Integer}, " ", Box{Int64} <: Box{<:Integer}, " ", Tuple{Int64} <: Tuple{Integer})
println(Tuple{Union{Int64, Bool}} <: Union{Tuple{Int64}, Tuple{Bool}})

# a variable that is used twice asks for two values of one type
same(x, y) = false
same(x::T, y::T) where T = true
println(same(1, 2), " ", same(1, true))

# a body may use the variables of its signature
swap(p::Pair{A, B}) where {A, B} = Pair{B, A}(p.second, p.first)
println(swap(Pair(1, Box(true))))
holds(b::Box{T}, y) where T = y isa T
println(holds(Box(1), true), " ", holds(Box{Integer}(1), true))
