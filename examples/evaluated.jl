function adder(n)
    @eval add(x) = x + n
    Base.invokelatest(add, 1)
end
println(adder(2))
