# A state machine whose methods are replaced while it runs. A machine that calls them as usual keeps its rules up to its end; one that
# calls them by Base.invokelatest has the new ones from the next event on.
abstract type State end
struct Locked <: State end
struct Paid <: State end
struct Open <: State end
abstract type Event end
struct Coin <: Event end
struct Push <: Event end
struct Repair <: Event end
struct Events
    head::Event
    tail
end

# an event without a rule changes nothing
next(s::State, e::Event) = s
next(s::Locked, e::Coin) = Open()
next(s::Open, e::Push) = Locked()

# a repair puts new rules in: from now on it takes two coins
function next(s::State, e::Repair)
    @eval begin
        next(s::Locked, e::Coin) = Paid()
        next(s::Paid, e::Coin) = Open()
    end
    s
end

show(s::Locked) = print(" locked")
show(s::Paid) = print(" paid")
show(s::Open) = print(" open")
function usual(s, events)
    show(s)
    events === nothing ? println() : usual(next(s, events.head), events.tail)
end
function newest(s, events)
    show(s)
    events === nothing ? println() : newest(Base.invokelatest(next, s, events.head), events.tail)
end

visitors(n) = n == 0 ? nothing : Events(Coin(), Events(Push(), visitors(n - 1)))
repaired = Events(Coin(), Events(Push(), Events(Repair(), visitors(3))))
early = Threads.@spawn usual(Locked(), visitors(3))
changed = Threads.@spawn newest(Locked(), repaired)
fetch(changed)
late = Threads.@spawn usual(Locked(), visitors(3))
fetch(early)
fetch(late)
