# Simplifies and derives formulas. Each rule is a method, and the types of the parts choose it.
abstract type Form end
abstract type Letter <: Form end
struct X <: Letter end
struct Y <: Letter end
struct Zero <: Form end
struct One <: Form end
struct Num <: Form
    value::Int64
end
struct Sum{L<:Form, R<:Form} <: Form
    left::L
    right::R
end
struct Product{L<:Form, R<:Form} <: Form
    left::L
    right::R
end

# a number, of which 0 and 1 have types of their own, so that rules can ask for them
number(n) = n == 0 ? Zero() : n == 1 ? One() : Num(n)

# sums
add(a::Form, b::Form) = Sum(a, b)
add(a::Num, b::Num) = number(a.value + b.value)
add(a::Zero, b::Form) = b
add(a::Form, b::Zero) = a
add(a::Zero, b::Zero) = a
add(a::T, b::T) where T<:Letter = multiply(Num(2), a)

# products
multiply(a::Form, b::Form) = Product(a, b)
multiply(a::Num, b::Num) = number(a.value * b.value)
multiply(a::Num, b::Product{Num}) = multiply(multiply(a, b.left), b.right)
multiply(a::Zero, b::Form) = a
multiply(a::Form, b::Zero) = b
multiply(a::One, b::Form) = b
multiply(a::Form, b::One) = a
multiply(a::Zero, b::Zero) = a
multiply(a::Zero, b::One) = a
multiply(a::One, b::Zero) = b
multiply(a::One, b::One) = a

simplify(f::Form) = f
simplify(f::Sum) = add(simplify(f.left), simplify(f.right))
simplify(f::Product) = multiply(simplify(f.left), simplify(f.right))

# how a formula changes with a letter
derive(f::Union{Zero, One, Num}, by) = Zero()
derive(f::Letter, by::Letter) = Zero()
derive(f::T, by::T) where T<:Letter = One()
derive(f::Sum, by) = add(derive(f.left, by), derive(f.right, by))
derive(f::Product, by) = add(multiply(derive(f.left, by), f.right), multiply(f.left, derive(f.right, by)))

show(f::X) = print("x")
show(f::Y) = print("y")
show(f::Zero) = print(0)
show(f::One) = print(1)
show(f::Num) = print(f.value)
function between(left, sign, right)
    print("(")
    show(left)
    sign == 0 ? print(" + ") : print(" * ")
    show(right)
    print(")")
end
show(f::Sum) = between(f.left, 0, f.right)
show(f::Product) = between(f.left, 1, f.right)

function line(f, g)
    show(f)
    print(" -> ")
    show(g)
    println()
end

short = Sum(Product(One(), X()), Zero())
line(short, simplify(short))
twice = Product(Sum(Num(2), Num(3)), Sum(Y(), Y()))
line(twice, simplify(twice))
cube = Product(X(), Product(X(), X()))
line(cube, derive(cube, X()))
line(cube, derive(cube, Y()))

# one more rule: numbers go to the front
multiply(a::Letter, b::Product{Num}) = multiply(b.left, multiply(a, b.right))
line(cube, derive(cube, X()))
