# A function that is defined at run time.
function load(name, body)
    eval(:($name(x) = $body))
    Base.invokelatest(getfield(Main, name), 1)
end
println(load(:brandnew, :(x + 1)))
