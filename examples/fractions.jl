# Fractions: methods are added to the operators.
struct Ratio
    num::Int64
    den::Int64
end
gcd(a, b) = b == 0 ? a : gcd(b, a % b)
function ratio(a, b)
    d = gcd(a, b)
    Ratio(div(a, d), div(b, d))
end
Base.:+(a::Ratio, b::Ratio) = ratio(a.num * b.den + b.num * a.den, a.den * b.den)
Base.:+(a::Int64, b::Ratio) = Ratio(a, 1) + b
Base.:+(a::Ratio, b::Int64) = b + a
Base.:*(a::Ratio, b::Ratio) = ratio(a.num * b.num, a.den * b.den)
Base.:<(a::Ratio, b::Ratio) = a.num * b.den < b.num * a.den
harmonic(n) = n == 0 ? Ratio(0, 1) : Ratio(1, n) + harmonic(n - 1)
println(Ratio(1, 2) + Ratio(1, 3))
println(1 + Ratio(1, 2) * Ratio(2, 3), " ", Ratio(4, 3) + 1)
println(harmonic(10))
println(Ratio(1, 2) < Ratio(2, 3), " ", 1 + 1)
