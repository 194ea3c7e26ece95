# shapes and materials
abstract type Shape end
abstract type Round <: Shape end
struct Square <: Shape
    side::Int64
end
struct Rect <: Shape
    w::Int64
    h::Int64
end
struct Ring <: Round
    outer::Int64
    inner::Int64
end
abstract type Material end
struct Wood <: Material end
struct Iron <: Material end
struct Part{S<:Shape, M<:Material}
    shape::S
    made::M
end
struct Duo{A, B}
    first::A
    second::B
end
struct List{T}
    head::T
    tail::Union{List{T}, Nothing}
end

area(s::Square) = s.side * s.side
area(s::Rect) = s.w * s.h
area(s::Ring) = 3 * (s.outer * s.outer - s.inner * s.inner)
weight(m::Material) = 1
weight(m::Iron) = 8
mass(p::Part) = area(p.shape) * weight(p.made)
mass(p::Part{<:Round}) = area(p.shape) * weight(p.made) + 1
mass(d::Duo) = mass(d.first) + mass(d.second)
mass(x::Nothing) = 0
total(l::Nothing) = 0
total(l::List{T}) where T = mass(l.head) + total(l.tail)
kind(p::Part{S, M}, q::Part{S, M}) where {S, M} = 2
kind(p::Part, q::Part) = 1
function build(n::Int64)
    if n == 0
        return nothing
    end
    List{Any}(Part(Square(n), Iron()), build(n - 1))
end
function spread(n::Int64)
    if n == 0
        return 0
    end
    t = Threads.@spawn total(build(n))
    rest = spread(n - 1)
    fetch(t) + rest
end
function heavier()
    @eval weight(m::Wood) = 2
    nothing
end

println("area ", area(Ring(3, 1)))
println(mass(Part(Rect(2, 5), Wood())))
println(mass(Part(Ring(3, 1), Iron())))
println(mass(Duo(Part(Square(2), Wood()), nothing)))
println(kind(Part(Square(1), Wood()), Part(Square(2), Wood())))
println(kind(Part(Square(1), Wood()), Part(Square(2), Iron())))
println(spread(8))
heavier()
println(mass(Part(Rect(2, 5), Wood())))
println(Part(Square(1), Wood()))
