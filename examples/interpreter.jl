# Evaluates terms of a small language that has functions as values. Each form of term is a struct, and what it means is a method.
abstract type Term end
struct Num <: Term
    value::Int64
end
struct Var <: Term
    name::Int64
end
struct Plus <: Term
    left::Term
    right::Term
end
struct Times <: Term
    left::Term
    right::Term
end
# the first term where the test is 0, else the second one
struct Zero <: Term
    test::Term
    yes::Term
    no::Term
end
struct Fun <: Term
    name::Int64
    body::Term
end
struct Apply <: Term
    callee::Term
    argument::Term
end

# the values of the names that can be seen
struct Bound
    name::Int64
    value
    rest
end
look(name, seen::Bound) = seen.name == name ? seen.value : look(name, seen.rest)

# a function as a value keeps what could be seen where it was written
struct Closure
    name::Int64
    body::Term
    seen
end

run(t::Num, seen) = t.value
run(t::Var, seen) = look(t.name, seen)
run(t::Plus, seen) = run(t.left, seen) + run(t.right, seen)
run(t::Times, seen) = run(t.left, seen) * run(t.right, seen)
run(t::Zero, seen) = run(t.test, seen) == 0 ? run(t.yes, seen) : run(t.no, seen)
run(t::Fun, seen) = Closure(t.name, t.body, seen)
run(t::Apply, seen) = apply(run(t.callee, seen), run(t.argument, seen))
apply(f::Closure, value) = run(f.body, Bound(f.name, value, f.seen))

# names, and a function of two arguments, one after the other
f() = Var(1)
x() = Var(2)
y() = Var(3)
both(a::Var, b::Var, body) = Fun(a.name, Fun(b.name, body))

add = both(x(), y(), Plus(x(), y()))
println(run(Apply(Apply(add, Num(40)), Num(2)), nothing))

twice = both(f(), x(), Apply(f(), Apply(f(), x())))
println(run(Apply(Apply(twice, Apply(add, Num(3))), Num(10)), nothing))

# a function that is given itself calls itself: the product of the numbers up to n
product = both(f(), x(), Zero(x(), Num(1), Times(x(), Apply(Apply(f(), f()), Plus(x(), Num(-1))))))
println(run(Apply(Apply(product, product), Num(10)), nothing))
