# A parallel search: in how many ways can so many queens stand on a board, so that none attacks another? Each place in the first
# row is a task of its own.
struct Queens
    column::Int64
    rest
end

# whether a queen in this column attacks none of those in the rows before it, the nearest of which is so many rows away
is_safe(column, queens::Nothing, rows) = true
function is_safe(column, queens::Queens, rows)
    apart = column - queens.column
    apart != 0 && apart != rows && apart != -rows && is_safe(column, queens.rest, rows + 1)
end

# the ways to put queens in the rows that are left
ways(queens, left, size) = left == 0 ? 1 : from(queens, left, size, 1)

# the same, with the next queen in this column or a later one
function from(queens, left, size, column)
    if size < column
        return 0
    end
    here = is_safe(column, queens, 1) ? ways(Queens(column, queens), left - 1, size) : 0
    here + from(queens, left, size, column + 1)
end

function spread(size, column)
    if size < column
        return 0
    end
    here = Threads.@spawn ways(Queens(column, nothing), size - 1, size)
    later = spread(size, column + 1)
    fetch(here) + later
end

function table(size, last)
    println(size, " queens: ", spread(size, 1))
    size == last ? nothing : table(size + 1, last)
end
table(1, 7)
