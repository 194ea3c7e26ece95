struct Box{T}
    x::T
end
f(b::Box{Union{T, Nothing}}) where T = 1
