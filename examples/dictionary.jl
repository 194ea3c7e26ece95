# A search tree as a dictionary. An insertion makes a new tree and leaves the old one as it was, so tasks can share trees.
abstract type Tree end
struct Leaf <: Tree end
struct Node <: Tree
    key::Int64
    value
    left::Tree
    right::Tree
end

insert(t::Leaf, key, value) = Node(key, value, t, t)
function insert(t::Node, key, value)
    if key < t.key
        return Node(t.key, t.value, insert(t.left, key, value), t.right)
    elseif t.key < key
        return Node(t.key, t.value, t.left, insert(t.right, key, value))
    end
    Node(key, value, t.left, t.right)
end

find(t::Leaf, key) = nothing
find(t::Node, key) = key < t.key ? find(t.left, key) : t.key < key ? find(t.right, key) : t.value

size(t::Leaf) = 0
size(t::Node) = size(t.left) + 1 + size(t.right)

# the sum of all values, with tasks for the uppermost levels
total(t::Leaf, levels) = 0
function total(t::Node, levels)
    if levels == 0
        return total(t.left, 0) + t.value + total(t.right, 0)
    end
    left = Threads.@spawn total(t.left, levels - 1)
    right = total(t.right, levels - 1)
    fetch(left) + t.value + right
end

squares(t, n, key) = n == 0 ? t : squares(insert(t, key, key * key), n - 1, (key * 7 + 3) % 101)

old = squares(Leaf(), 8, 5)
new = insert(old, 38, 0)
println(size(old), " ", find(old, 38), " ", find(new, 38), " ", find(old, 39))
sum = Threads.@spawn total(old, 2)
println(total(new, 2), " ", fetch(sum))
println(insert(insert(Leaf(), 2, true), 1, nothing))
