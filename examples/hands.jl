# Rock, paper, scissors: both arguments choose the method. Two hands of one kind are one method, for all kinds.
abstract type Hand end
struct Rock <: Hand end
struct Paper <: Hand end
struct Scissors <: Hand end
score(a::Hand, b::Hand) = -score(b, a)
score(a::T, b::T) where T<:Hand = 0
score(a::Paper, b::Rock) = 1
score(a::Scissors, b::Paper) = 1
score(a::Rock, b::Scissors) = 1
row(a) = println(score(a, Rock()), " ", score(a, Paper()), " ", score(a, Scissors()))
row(Rock())
row(Paper())
row(Scissors())

# a new hand needs only the pairs in which something wins
struct Well <: Hand end
score(a::Well, b::Rock) = 1
score(a::Well, b::Scissors) = 1
score(a::Paper, b::Well) = 1
row(Well())
println(score(Well(), Well()))
