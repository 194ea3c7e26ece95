# A linked list of one type of values.
abstract type List{T} end
struct Nil{T} <: List{T} end
struct Cons{T} <: List{T}
    head::T
    tail::List{T}
end
Base.length(l::Nil) = 0
Base.length(l::Cons) = 1 + length(l.tail)
push(l::List{T}, x::T) where T = Cons{T}(x, l)
println(length(push(push(Nil{Int}(), 1), 2)))
