f(x) = x
println(f(1) f(2))
