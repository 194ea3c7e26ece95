f(x::3) = x
println(f(3))
