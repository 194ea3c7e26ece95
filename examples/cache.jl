# The cache of calls in a history: the call of g keeps its row, and the call of f gets a second one after f is defined again.
f() = 1
g() = f()
println(g())
f() = 2
println(g())
