# Areas of shapes, and their sum.
abstract type Shape end
struct Circle <: Shape
    radius::Int
end
struct Rectangle <: Shape
    width::Int
    height::Int
end
area(c::Circle) = 3 * c.radius^2
area(r::Rectangle) = r.width * r.height

shapes = [Circle(1), Rectangle(2, 3)]
for s in shapes
    println("area: $(area(s))")
end
println(sum(area.(shapes)))
