# Containers with parameters.
struct Stack{T}
    items::Vector{T}
end
Stack{T}() where T = Stack{T}(T[])
push!(s::Stack{T}, x::T) where T = push!(s.items, x)
s = Stack{Int}()
push!(s, 1)
println(typeof(s))
