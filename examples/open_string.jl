f(x) = x
println("abc
