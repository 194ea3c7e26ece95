f(x) = 1
g(x) = f(x)
println(g(0))
f(x::Int64) = 2
println(g(0))
