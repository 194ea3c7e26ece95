#!/usr/bin/env python3
"""Scripts made by chance that define, delete and call, and their histories judged once more by the rules of docs/HISTORY.md.

    reference/deletions.py                  10,000 scripts from the seed 1, each on 1, 4 and 64 threads
    reference/deletions.py 500 7            500 scripts from the seed 7
    reference/deletions.py --script 7       writes the first script of this seed and runs nothing
    JL=FILE reference/deletions.py ..       with another program than crates/jl_main/out/jl_main

Each run is traced. Its history must be legal for `jl replay` and for the judge below, and its text that of the run. Then the history is
changed at one to three places, and `jl replay` must answer what the judge does. The judge knows the definitions and deletions of the script,
since it made them, and asks each rule as the page has it: which methods a world has by going over all changes, and whether two signatures are
the same by comparing their parts. It runs no task, so where it finds nothing wrong `jl replay` may call the history legal or RunDiffers.
The status is 0 only where there is no difference.
"""

import os
import random
import sys
from concurrent.futures import ThreadPoolExecutor
from typing import NamedTuple

import changed_histories
from changed_histories import PROGRAM, run

import jl_history
import jl_script
import jl_tool
from jl_history import FIRST_WORLD, MOST_WORLDS

THREADS = ("1", "4", "64")
SUPER = {
    "Any": None,
    "Number": "Any",
    "Real": "Number",
    "Integer": "Real",
    "Signed": "Integer",
    "Int64": "Signed",
    "Bool": "Integer",
    "Nothing": "Any",
    "Task": "Any",
    "Shape": "Any",
    "Square": "Shape",
    "Round": "Shape",
}
CONCRETE = ("Int64", "Bool", "Nothing", "Task", "Square", "Round")
VALUES = ("1", "2", "true", "nothing", "Square()", "Round()")
TYPES = "abstract type Shape end\nstruct Square <: Shape end\nstruct Round <: Shape end\n"
PARTS = ("Any", "Number", "Integer", "Signed", "Int64", "Int64", "Bool", "Nothing", "Shape", "Square", "Round")
CALLED = ("f", "g")


def is_below(name, other):
    while name != other and name is not None:
        name = SUPER[name]
    return name is not None


class Sig(NamedTuple):
    """The types of the parameters by name, a `T` for the one variable, and the upper bound of that."""

    parts: tuple
    bound: str = "Any"

    def plain(self):
        """The same with the bound in place of a variable that is there once."""
        if self.parts.count("T") == 1:
            return Sig(tuple(self.bound if part == "T" else part for part in self.parts))
        return self

    def top(self, part):
        return self.bound if part == "T" else part

    def applies(self, types):
        """Whether it takes arguments of these concrete types: the variable stands for one type."""
        found = {name for name, part in zip(types, self.parts) if part == "T"}
        return (
            len(types) == len(self.parts)
            and len(found) <= 1
            and all(self.top(part) == "Any" or name in SUPER and is_below(name, self.top(part)) for name, part in zip(types, self.parts))
        )

    def is_sig_below(self, other):
        """Whether the other takes all that this one takes. A variable of this one is some concrete type, which equals itself alone; one of
        the other is concrete too, and the same wherever it is."""
        pairs = list(zip(self.parts, other.parts))
        met = {mine for mine, theirs in pairs if theirs == "T"}
        return (
            len(self.parts) == len(other.parts)
            and all(is_below(self.top(mine), other.top(theirs)) for mine, theirs in pairs)
            and len(met) <= 1
            and all(mine == "T" or mine in CONCRETE for mine in met)
        )

    def is_same(self, other):
        mine, theirs = self.plain(), other.plain()
        return mine.is_sig_below(theirs) and theirs.is_sig_below(mine)

    def where(self):
        bound = "" if self.bound == "Any" else f"<:{self.bound}"
        return f" where T{bound}" if "T" in self.parts else ""


INTS = Sig(("Int64", "Int64"))
PRELUDE = [(name, INTS) for name in jl_script.PRELUDE]
PRELUDE[5], PRELUDE[12], PRELUDE[13] = ("-", Sig(("Int64",))), ("!", Sig(("Bool",))), ("==", Sig(("Bool", "Bool")))


class Maker:
    """Makes a script, and knows its definitions (each a function and a signature), its deletions and how many spawns it has."""

    def __init__(self, chance):
        self.chance = chance
        self.sites, self.places, self.spawns = list(PRELUDE), [], 0
        self.functions = {name for name, _ in PRELUDE}
        self.named = []  # functions without parameters
        self.wanted = []  # signatures that are defined

    def signature(self):
        count = self.chance.choice((0, 1, 1, 1, 2, 2))
        kind = self.chance.random()
        parts = tuple("T" if kind < 0.25 and self.chance.random() < 0.7 else self.chance.choice(PARTS) for _ in range(count))
        return Sig(parts, self.chance.choice(("Any", "Integer", "Int64", "Shape")) if "T" in parts else "Any")

    def define(self, function, sig, body):
        """A definition; it has its number before those in its body."""
        self.sites.append((function, sig))
        self.functions.add(function)
        params = ", ".join(f"x{i}" if part == "Any" else f"x{i}::{part}" for i, part in enumerate(sig.parts))
        return f"{function}({params}){sig.where()} = {body()}"

    def definition(self):
        self.wanted.append((self.chance.choice(CALLED), self.signature()))
        return self.define(*self.wanted[-1], lambda: str(len(self.sites)))

    def deletion(self):
        function, sig = self.chance.choice(self.wanted) if self.chance.random() < 0.85 else (self.chance.choice(CALLED), self.signature())
        self.places.append((function, sig))
        written = f"Tuple{{{', '.join(sig.parts)}}}"
        return f"Base.delete_method(which({function}, {f'({written}{sig.where()})' if sig.where() else written}))"

    def call(self):
        if self.named and self.chance.random() < 0.4:
            return f"{self.chance.choice(self.named)}()"
        return f"{self.chance.choice(CALLED)}({', '.join(self.chance.choice(VALUES) for _ in range(self.chance.choice((0, 1, 1, 1, 2))))})"

    def spawn(self, depth):
        self.spawns += 1
        return f"Threads.@spawn {self.action(depth - 1)}"

    def action(self, depth):
        """An expression that defines, deletes, looks, spawns or calls."""
        kind = self.chance.randrange(12 if depth > 0 else 6)
        if kind < 2:
            return f"(@eval {self.definition()})"
        if kind < 4:
            return self.deletion()
        if kind == 4:
            return f"Base.invokelatest({self.chance.choice(CALLED)}, {self.chance.choice(VALUES)})"
        if kind == 5:
            return self.call()
        if kind < 9:
            return f"({self.spawn(depth)})"
        if kind == 9:
            return f"(@eval begin {self.action(depth - 1)}; {self.action(depth - 1)} end)"
        return f"begin {'; '.join(self.action(depth - 1) for _ in range(self.chance.randrange(1, 4)))} end"

    def script(self):
        lines = [TYPES.rstrip("\n")]
        for function in CALLED:
            for parts in ((), ("Any",), ("Any", "Any")):
                lines.append(self.define(function, Sig(parts), lambda: "0"))
        for number in range(self.chance.randrange(3, 12)):
            kind = self.chance.random()
            if kind < 0.3:
                lines.append(self.definition())
            elif kind < 0.5 and self.wanted:
                lines.append(self.deletion())
            elif kind < 0.65 and self.wanted:
                lines.append(self.define(f"h{number}", Sig(()), lambda: self.action(2)))
                self.named.append(f"h{number}")
            elif kind < 0.85 and self.wanted:
                lines.append(self.spawn(2))
            else:
                lines.append(f"println({self.call()})")
        return "\n".join(lines) + "\n"


class Judge(jl_history.Checker):
    """All causes that need no run, by the definitions and deletions of a script."""

    def __init__(self, script, events):
        super().__init__(events)
        self.script = script

    def change(self, world, events=None):
        """The change that made a world: whether it deletes, its function and its signature."""
        if world <= FIRST_WORLD:
            return False, *PRELUDE[world - 1]
        made = [event for event in events if event.kind in jl_history.CHANGES]
        event = made[world - FIRST_WORLD - 1]
        deletes = event.kind == "del"
        return deletes, *(self.script.places[event.place] if deletes else self.script.sites[event.site])

    def site(self, world, events):
        made = [event for event in events if event.kind in jl_history.CHANGES]
        return world - 1 if world <= FIRST_WORLD else made[world - FIRST_WORLD - 1].site

    def standing(self, function, world, events):
        """The worlds of the definitions of a function that are there in a world, in order."""
        found = []
        for number in range(1, world + 1):
            deletes, name, sig = self.change(number, events)
            if name == function and deletes:
                found = [other for other in found if not self.change(other, events)[2].is_same(sig)]
            elif name == function:
                found.append(number)
        return found

    def chosen(self, key, world, events):
        """The site of the method that is chosen, or nothing."""
        sig = {number: self.change(number, events)[2].plain() for number in self.standing(key.function, world, events)}
        types = jl_tool.parts_of_tuple(key.types)
        applying = [number for number in sig if sig[number].applies(types)]
        last = [number for number in applying if not any(other > number and sig[number].is_same(sig[other]) for other in applying)]

        def is_most(number):
            return all(
                other == number or sig[number].is_sig_below(sig[other]) and not sig[other].is_sig_below(sig[number]) for other in last
            )

        best = [number for number in last if is_most(number)]
        return self.site(best[0], events) if best else None

    def has_method(self, place, events):
        function, sig = self.script.places[place]
        world = jl_history.worlds_after(events)[-1]
        return any(self.change(number, events)[2].is_same(sig) for number in self.standing(function, world, events))

    def is_key(self, event):
        parts = jl_tool.parts_of_tuple(event.types)
        return event.function in self.script.functions and parts is not None and len(parts) <= 8 and is_tuple(event.types)

    def check_key(self, place, event):
        yield from super().check_key(place, event)
        if not self.is_key(event):
            yield "KeyUnknown", ""

    def check_fill(self, place, event):
        yield from super().check_fill(place, event)
        key, before = self.keys[event.key], self.events[:place]
        types = jl_tool.parts_of_tuple(key.types)
        if event.first > FIRST_WORLD:
            _, function, sig = self.change(event.first, before)
            if function != key.function or not sig.plain().applies(types):
                yield "FillWorld", ""
        if self.chosen(key, event.first, before) != event.site:
            yield "FillChoice", ""

    def check_def(self, place, event):
        yield from self.not_running(event.task)
        if not FIRST_WORLD <= event.site < len(self.script.sites):
            yield "Site", ""
        yield from super().check_def(place, event)

    def check_del(self, place, event):
        yield from self.not_running(event.task)
        if event.place >= len(self.script.places):
            yield "Site", ""
        if not self.has_method(event.place, self.events[:place]):
            yield "NoDefinition", ""
        yield from super().check_del(place, event)

    def check_spawn(self, place, event):
        yield from self.not_running(event.task)
        if event.place >= self.script.spawns:
            yield "Site", ""
        yield from super().check_spawn(place, event)

    def present(self, item):
        if item.number >= len(self.script.places) or self.worlds[item.at] == MOST_WORLDS:
            return "there is no such place, or no room"
        return "there is such a method" if self.has_method(item.number, self.events[: item.at]) else ""


def is_tuple(text):
    """Whether a text is that of a tuple of concrete types, without anything else in it."""
    parts = jl_tool.parts_of_tuple(text)
    if parts is None or f"Tuple{{{', '.join(parts)}}}" != text:
        return False
    return all(part in CONCRETE or is_tuple(part) for part in parts)


def verdict(script, version, history):
    """What the judge says: the answer of `replay`, or nothing where that may be legal or RunDiffers."""
    try:
        events = jl_history.read(history, version)
    except jl_history.BadText as fault:
        return f"illegal: line {fault.line}: BadText"
    broken = Judge(script, events).first()
    return broken and f"illegal: event {broken.event}: {broken.cause}"


def chosen(lines):
    """Where lines about definitions and deletions are."""
    return [at for at, line in enumerate(lines) if line.split(b" ")[0] in (b"fill", b"def", b"del", b"absent")] or range(2, len(lines))


def move_line(chance, lines):
    """Such a line goes to another place, or is there once more."""
    at = chance.choice(chosen(lines))
    rest = lines if chance.random() < 0.5 else [*lines[:at], *lines[at + 1 :]]
    to = min(max(at + chance.randrange(-6, 7), 2), len(rest))
    return [*rest[:to], lines[at], *rest[to:]]


def change_number(chance, lines):
    """A number of some line, mostly of a fill, a definition or a deletion, becomes one that is near, or one of another line."""
    at = chance.choice(chosen(lines) if chance.random() < 0.6 else range(2, len(lines)))
    words = lines[at].split(b" ")
    fields = [field for field, word in enumerate(words) if word.isdigit()]
    if fields:
        others = [word for word in chance.choice(lines).split(b" ") if word.isdigit()]
        near = max(int(words[chance.choice(fields)]) + chance.choice((-1, 1, 2)), 0)
        words[chance.choice(fields)] = chance.choice(others) if others and chance.random() < 0.3 else b"%d" % near
    return [*lines[:at], b" ".join(words), *lines[at + 1 :]]


def changed(chance, history):
    """The history with changes, mostly such that it is still of the form."""
    if chance.random() < 0.3:
        return changed_histories.changed(chance, history)
    lines = history.split(b"\n")[:-1]
    for _ in range(chance.choice((1, 1, 2))):
        lines = chance.choice((change_number, change_number, move_line))(chance, lines)
    return b"\n".join([*changed_histories.renumber(lines), b""])


def is_open(answer):
    return answer.startswith("legal: ") or answer.endswith(": RunDiffers")


def try_script(job):
    """What differs of one script, and how often each answer came for its changed histories."""
    seed, number = job
    chance = random.Random(f"{seed} {number}")
    maker = Maker(chance)
    text = maker.script().encode()
    version = 2 if maker.places else 1
    wrong, answers = [], {}
    for threads in THREADS:
        out, status = run(["trace", "--threads", threads], text)
        if status not in (0, 1):
            return [f"no script: {out!r}\n{text.decode()}"], answers
        before, history = jl_history.part(out)
        answer = run(["replay"], text + history)[0].decode().rstrip("\n")
        said = verdict(maker, version, history)
        events = jl_history.read(history)
        if said or not answer.startswith("legal: ") or jl_history.first_cause(events) or jl_history.run_text(events).encode() != before:
            wrong.append(f"a run on {threads} threads: replay says {answer!r}, the judge {said!r}\n{text.decode()}{out.decode()}")
        other = changed(chance, history)
        if not changed_histories.FIRST_LINE.match(other):
            continue  # its first line is part of the script then
        answer = run(["replay"], text + other)[0].decode().rstrip("\n")
        said = verdict(maker, version, other)
        kind = answer.split(" ")[-1] if answer.startswith("illegal") else "legal"
        answers[kind] = answers.get(kind, 0) + 1
        if answer != said if said else not is_open(answer):
            wrong.append(f"a change: replay says {answer!r}, the judge {said!r}\n{(text + other).decode(errors='replace')}")
    return wrong, answers


def main():
    words = sys.argv[1:]
    if words[:1] == ["--script"]:
        print(Maker(random.Random(f"{words[1] if words[1:] else 1} 0")).script(), end="")
        return True
    if len(words) > 2 or not all(word.isdigit() for word in words):
        sys.exit(__doc__)
    if not os.access(PROGRAM, os.X_OK):
        sys.exit(f"deletions: there is no program {PROGRAM}")
    count, seed = [*map(int, words), *(10_000, 1)[len(words) :]]
    differ, answers = 0, {}
    with ThreadPoolExecutor(os.cpu_count()) as workers:
        for wrong, found in workers.map(try_script, ((seed, number) for number in range(count))):
            differ += len(wrong)
            for text in wrong:
                print(text, flush=True)
            for kind, times in found.items():
                answers[kind] = answers.get(kind, 0) + times
    print("changed histories: " + ", ".join(f"{kind} {times}" for kind, times in sorted(answers.items())))
    print(f"{count} scripts, {count * len(THREADS)} runs, {differ} differences")
    return differ == 0 and count > 0


if __name__ == "__main__":
    sys.exit(0 if main() else 1)
