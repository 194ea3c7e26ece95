f(x::Int64, y) = 1
f(x, y::Int64) = 2
println(f(1, 2))
