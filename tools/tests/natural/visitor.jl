# A tree that is visited.
abstract type Node end
struct Leaf <: Node
    value::Int
end
struct Branch <: Node
    left::Node
    right::Node
end
abstract type Visitor end
struct Depth <: Visitor end
struct Printer <: Visitor end

visit(v::Depth, n::Leaf) = 1
visit(v::Depth, n::Branch) = 1 + max(visit(v, n.left), visit(v, n.right))
visit(v::Printer, n::Leaf) = print(n.value, " ")
visit(v::Printer, n::Branch) = (visit(v, n.left); visit(v, n.right))

tree = Branch(Leaf(1), Branch(Leaf(2), Leaf(3)))
visit(Printer(), tree)
println(visit(Depth(), tree))
