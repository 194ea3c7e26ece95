# Simplifies sums and products.
abstract type Expr end
struct Const <: Expr
    value::Int
end
struct Var <: Expr end
struct Add <: Expr
    left::Expr
    right::Expr
end
zero_or(a::Bool, e::Expr) = if a Const(0) else e end
simplify(e::Expr) = e
simplify(e::Add) = plus(simplify(e.left), simplify(e.right))
plus(a::Expr, b::Expr) = Add(a, b)
plus(a::Const, b::Const) = Const(a.value + b.value)
println(simplify(Add(Const(1), Const(2))))
println(zero_or(true, Var()))
