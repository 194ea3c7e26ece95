# Evaluates terms in an environment.
abstract type Term end
struct Num <: Term
    value::Int
end
struct Name <: Term
    name::Int
end
struct Plus <: Term
    left::Term
    right::Term
end
run(t::Num, env) = t.value
run(t::Name, env) = env[t.name]
run(t::Plus, env) = run(t.left, env) + run(t.right, env)
println(run(Plus(Name(1), Num(2)), (40, 0)))
