# A plug-in that is loaded while the program runs, and takes calls that another method had.
render(x) = 1
render(x::Int64) = 2
load() = @eval render(x::Integer) = 3
load()
println(render(1), " ", render(true), " ", render(nothing))
