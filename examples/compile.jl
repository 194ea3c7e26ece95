# Compiles formulas to the code of a stack machine and runs it. What was compiled is what the formula says.
abstract type Formula end
struct Num <: Formula
    value::Int64
end
struct X <: Formula end
struct Sum <: Formula
    left::Formula
    right::Formula
end
struct Product <: Formula
    left::Formula
    right::Formula
end

# instructions, and the code that is a list of them
struct Push
    value::Int64
end
struct Load end
struct Add end
struct Multiply end
struct Code
    first
    rest
end

# the code of a formula, with this code after it
compile(f::Num, after) = Code(Push(f.value), after)
compile(f::X, after) = Code(Load(), after)
compile(f::Sum, after) = compile(f.left, compile(f.right, Code(Add(), after)))
compile(f::Product, after) = compile(f.left, compile(f.right, Code(Multiply(), after)))

# a stack is nothing, or its top and the rest
struct Stack
    top::Int64
    rest
end
step(i::Push, s, x) = Stack(i.value, s)
step(i::Load, s, x) = Stack(x, s)
step(i::Add, s, x) = Stack(s.rest.top + s.top, s.rest.rest)
step(i::Multiply, s, x) = Stack(s.rest.top * s.top, s.rest.rest)
execute(c::Nothing, s, x) = s.top
execute(c::Code, s, x) = execute(c.rest, step(c.first, s, x), x)

show(i::Push) = print(" push ", i.value)
show(i::Load) = print(" load")
show(i::Add) = print(" add")
show(i::Multiply) = print(" multiply")
list(c::Nothing) = println()
function list(c::Code)
    show(c.first)
    list(c.rest)
end

# what a formula says
value(f::Num, x) = f.value
value(f::X, x) = x
value(f::Sum, x) = value(f.left, x) + value(f.right, x)
value(f::Product, x) = value(f.left, x) * value(f.right, x)

# 2 * x + 1, and its square
line = Sum(Product(Num(2), X()), Num(1))
square = Product(line, line)
print("code:")
list(compile(line, nothing))
println(execute(compile(line, nothing), nothing, 20), " ", execute(compile(square, nothing), nothing, 20))
agrees(f, x, last) = x == last || value(f, x) == execute(compile(f, nothing), nothing, x) && agrees(f, x + 1, last)
println(agrees(square, -100, 100))

# a better compiler, put in while the program runs: what has no x in it is computed before
improve() = @eval begin
    compile(f::Sum, after) = fold(f, f.left, f.right, Add(), after)
    compile(f::Product, after) = fold(f, f.left, f.right, Multiply(), after)
    fold(f, a::Formula, b::Formula, i, after) = compile(a, compile(b, Code(i, after)))
    fold(f, a::Num, b::Num, i, after) = Code(Push(value(f, 0)), after)
end
improve()
print("code:")
list(compile(Product(Sum(Num(2), Num(3)), X()), nothing))
println(agrees(square, -100, 100))
