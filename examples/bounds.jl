struct Box{T<:Integer}
    x::T
end
unwrap(b::Box{T}) where T = (b.x, T <: Signed)
println(unwrap(Box(1)), " ", unwrap(Box(true)))
wrap(x::T) where T = Box{T}(x)
println(wrap(nothing))
