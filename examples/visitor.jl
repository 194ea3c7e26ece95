# Visitors of a tree. Both types choose what is done, so that a new visitor needs only methods, and a new kind of node too.
abstract type Node end
struct Leaf <: Node
    value::Int64
end
struct Fork <: Node
    left::Node
    right::Node
end

abstract type Visitor end
struct Show <: Visitor end
struct Total <: Visitor end
struct Depth <: Visitor end

visit(v::Show, n::Leaf) = print(n.value)
function visit(v::Show, n::Fork)
    print("(")
    visit(v, n.left)
    print(" ")
    visit(v, n.right)
    print(")")
end
visit(v::Total, n::Leaf) = n.value
visit(v::Total, n::Fork) = visit(v, n.left) + visit(v, n.right)
larger(a, b) = a < b ? b : a
visit(v::Depth, n::Leaf) = 1
visit(v::Depth, n::Fork) = 1 + larger(visit(v, n.left), visit(v, n.right))

# a visitor with a rule for the leaves makes a new tree
struct Double end
struct Shift
    by::Int64
end
struct Change{R} <: Visitor
    rule::R
end
change(r::Double, value) = 2 * value
change(r::Shift, value) = value + r.by
visit(v::Change, n::Leaf) = Leaf(change(v.rule, n.value))
visit(v::Change, n::Fork) = Fork(visit(v, n.left), visit(v, n.right))

function tell(n)
    visit(Show(), n)
    println(" total ", visit(Total(), n), ", depth ", visit(Depth(), n))
end
tree = Fork(Leaf(1), Fork(Leaf(2), Leaf(3)))
tell(tree)
tell(visit(Change(Double()), tree))
tell(visit(Change(Shift(10)), tree))

# a new kind of node. A visitor that says nothing of it visits what is in it
struct Minus <: Node
    inner::Node
end
visit(v::Visitor, n::Minus) = visit(v, n.inner)
visit(v::Total, n::Minus) = -visit(v, n.inner)
visit(v::Change, n::Minus) = Minus(visit(v, n.inner))
function visit(v::Show, n::Minus)
    print("-")
    visit(v, n.inner)
end
tell(Fork(tree, Minus(Leaf(4))))
tell(visit(Change(Double()), Fork(tree, Minus(Leaf(4)))))
