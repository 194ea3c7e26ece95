f(x) = 1
f(x::Int64) = 2
println(f(0))
Base.delete_method(which(f, Tuple{Int64}))
println(f(0))
Base.delete_method(which(f, Tuple{Int64}))
