# The sum of a range, in parallel.
function total(lo, hi)
    s = 0
    for i in lo:hi
        s += i
    end
    return s
end
parts = [Threads.@spawn total(1000 * (k - 1) + 1, 1000 * k) for k in 1:10]
println(sum(fetch.(parts)))
