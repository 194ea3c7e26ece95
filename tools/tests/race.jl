f(x) = 1
count(n) = n == 0 ? 0 : 1 + count(n - 1)
late(n) = begin count(n); (f(1), Base.invokelatest(f, 1)) end
a = Threads.@spawn late(20)
d = count(100)
f(x) = 2
println(fetch(a))
