# No call here is ambiguous; one with two vectors would be.
struct Vector; x::Int64 end
scale(v::Vector, n) = Vector(v.x * n)
scale(n, v::Vector) = Vector(n * v.x)
draw(a, b, c, d) = a
println(scale(2, Vector(3)).x)
