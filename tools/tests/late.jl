g() = 1
f() = g()
function late()
    @eval g() = 2
    Base.invokelatest(f)
    Threads.@spawn f()
end
println(fetch(late()))
