version() = 1
report() = version()
function reload()
    @eval version() = 2
    println("inside ", report(), ", newest ", Base.invokelatest(report))
end
reload()
println("after ", report())
