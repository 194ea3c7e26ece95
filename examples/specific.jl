g(x::Int64) = 1
g(x) = 2
println(g(0))
