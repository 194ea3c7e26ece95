struct Node{T}
    value::T
    next::Union{Node{T}, Nothing}
end
last = Node{Int64}(3, nothing)
println(Node{Int64}(2, last).next)
