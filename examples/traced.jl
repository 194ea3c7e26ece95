f(x) = x + 1
println(f(2))
