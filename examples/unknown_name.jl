f(x) = x + y
println(f(1))
