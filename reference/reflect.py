#!/usr/bin/env python3
"""What `which` and `ambiguous` say of scripts made by chance, beside a plain reading of their histories.

    reference/reflect.py                  2,000 scripts from the seed 1
    reference/reflect.py 100 7            100 scripts from the seed 7
    reference/reflect.py --script 7       writes the first script of this seed and runs nothing
    JL=FILE reference/reflect.py ..       with another program than crates/jl_main/out/jl_main

Each script is traced on one thread, where each run of it has the same history. `which` is asked for each key of the history, for other keys
and for what is no key, and `ambiguous` once. What they write must be what the rules give, read plainly: the choice anew in each world, and all
lists of types for each function. Each `fill` of the history must be in a range whose definition is of its site. The status is 0 only where
there is no difference.
"""

import itertools
import os
import random
import sys
from concurrent.futures import ThreadPoolExecutor

import deletions
from changed_histories import PROGRAM, run
from deletions import CALLED, CONCRETE, PARTS, Judge, Maker, Sig

import jl_history
import jl_tool
from jl_history import FIRST_WORLD

# The types that functions are asked with, in the order of their numbers, where no key has others.
PROBES = ("Int64", "Bool", "Nothing", "Task", "Square", "Round")
MOST_COMPONENTS = 3
# Types that mean no key: not concrete, no tuple, too many, no type, an unknown name, a variable, more behind it.
NO_KEYS = (
    "Tuple{Any}", "Int64", "Tuple{Union{}}", "Tuple{Union{Int64, Bool}}", f"Tuple{{{', '.join(['Int64'] * 9)}}}",
    "", "Tuple{", "Tuple{Cube}", "Tuple{T} where T", "Tuple{} Tuple{}",
)


class LongMaker(Maker):
    """Scripts with up to five parameters, and many definitions, of which calls may be ambiguous."""

    def signature(self):
        count = self.chance.choice((0, 1, 1, 2, 2, 2, 3, 3, 4, 5))
        kind = self.chance.random()
        parts = tuple("T" if kind < 0.2 and self.chance.random() < 0.7 else self.chance.choice(PARTS) for _ in range(count))
        return Sig(parts, self.chance.choice(("Any", "Integer", "Int64", "Shape")) if "T" in parts else "Any")

    def script(self):
        begun = super().script()
        more = [self.definition() for _ in range(self.chance.randrange(8))]
        return begun + "".join(line + "\n" for line in more)


class Reading:
    """The choices of a history, read plainly."""

    def __init__(self, maker, events):
        self.judge, self.events = Judge(maker, events), events
        self.newest = jl_history.worlds_after(events)[-1]
        self.keys = [(event.function, event.types) for event in events if event.kind == "key"]
        self.known = {}

    def sig(self, number):
        return self.judge.change(number, self.events)[2]

    def choice(self, numbers, types):
        """What is chosen among these definitions, as a line says it."""
        applying = tuple(number for number in numbers if self.sig(number).plain().applies(types))
        if applying not in self.known:
            self.known[applying] = self.choice_among(applying)
        return self.known[applying]

    def choice_among(self, applying):
        sig = {number: self.sig(number).plain() for number in applying}
        last = [it for it in applying if not any(other > it and sig[it].is_same(sig[other]) for other in applying)]

        def is_strictly_below(one, other):
            return sig[one].is_sig_below(sig[other]) and not sig[other].is_sig_below(sig[one])

        if not last:
            return "none"
        for number in last:
            if all(other == number or is_strictly_below(number, other) for other in last):
                return f"definition {number}"
        unordered = [pair for pair in itertools.combinations(last, 2) if not (is_strictly_below(*pair) or is_strictly_below(*reversed(pair)))]
        return "ambiguous {} {}".format(*(unordered or [last])[0][:2])

    def spans(self, function, types):
        """The lines of `which`."""
        choices = [
            self.choice(self.judge.standing(function, world, self.events), types) for world in range(FIRST_WORLD, self.newest + 1)
        ]
        ranges, world = [], FIRST_WORLD
        for choice, same in itertools.groupby(choices):
            count = len(list(same))
            ranges.append([world, world + count - 1, choice])
            world += count
        ranges[-1][1] = "-"
        return [f"{first} {last} {choice}" for first, last, choice in ranges]

    def pairs(self, functions):
        """The lines of `ambiguous`."""
        found, left = {}, []
        for function in functions:
            standing = self.judge.standing(function, self.newest, self.events)
            counts = {len(self.sig(number).parts) for number in standing}
            left += [number for number in standing if len(self.sig(number).parts) > MOST_COMPONENTS]
            for count in sorted(counts):
                for types in itertools.product(PROBES, repeat=count) if count <= MOST_COMPONENTS else ():
                    kind, *numbers = self.choice(standing, types).split(" ")
                    if kind == "ambiguous":
                        found.setdefault(tuple(map(int, numbers)), (function, types))
        lines = [
            f"{function} definitions {a} and {b} at Tuple{{{', '.join(types)}}}" for (a, b), (function, types) in sorted(found.items())
        ]
        return lines + [f"definition {number} not examined" for number in sorted(left)] + [f"pairs {len(found)}"]

    def fills(self, function, types):
        """The worlds and sites of the rows that were filled for a key."""
        return [(it.first, it.site) for it in self.events if it.kind == "fill" and self.keys[it.key] == (function, types)]


def definition_at(lines, world):
    """The definition that the lines of `which` have in a world."""
    for line in lines:
        first, last, *choice = line.split(" ")
        if int(first) <= world and (last == "-" or world <= int(last)):
            return int(choice[1]) if choice[0] == "definition" else None
    return None


def questions(chance, maker, events):
    """Names and types to ask for: those of all keys, and others."""
    defined = sorted({function for function, _ in maker.sites[len(deletions.PRELUDE) :]})
    asked = {(event.function, event.types) for event in events if event.kind == "key" and event.function in defined}
    for _ in range(6):
        types = [chance.choice(CONCRETE) for _ in range(chance.choice((0, 1, 1, 2, 2, 3, 4)))]
        asked.add((chance.choice(CALLED), f"Tuple{{{', '.join(types)}}}"))
    return sorted(asked)


def ask(maker, text, reading, name, types, status):
    """What differs of one question."""
    out, ended = run(["which", name, types, "--threads", "1"], text)
    lines = out.decode().splitlines()
    right = reading.spans(name, jl_tool.parts_of_tuple(types))
    if (lines, ended) != (right, status):
        return [f"which {name} {types}: {lines} {ended}, not {right} {status}\n{text.decode()}"]
    for world, site in reading.fills(name, types):
        number = definition_at(lines, world)
        if number is None or reading.judge.site(number, reading.events) != site:
            return [f"which {name} {types}: another choice in world {world} than the history\n{text.decode()}"]
    return []


def try_script(job):
    """What differs of one script, and how many questions were asked."""
    seed, number = job
    chance = random.Random(f"{seed} {number}")
    maker = LongMaker(chance)
    text = maker.script().encode()
    out, status = run(["trace", "--threads", "1"], text)
    if status not in (0, 1):
        return [f"no script: {out!r}\n{text.decode()}"], 0, 0
    events = jl_history.read(jl_history.part(out)[1])
    reading, wrong = Reading(maker, events), []
    asked = questions(chance, maker, events)
    for name, types in asked:
        wrong += ask(maker, text, reading, name, types, status)
    for name, types in (("q", "Tuple{}"), ("div", "Tuple{Int64, Int64}"), ("println", "Tuple{}"), ("f", chance.choice(NO_KEYS))):
        out, ended = run(["which", name, types], text)
        if (out, ended) != (b"ERROR: QueryUnknown\n", 8):
            wrong.append(f"which {name} {types}: {out!r} {ended}\n{text.decode()}")
    out, ended = run(["ambiguous", "--threads", "1"], text)
    right = reading.pairs(sorted({function for function, _ in maker.sites}))
    if (out.decode().splitlines(), ended) != (right, status):
        wrong.append(f"ambiguous: {out.decode()} {ended}, not {right} {status}\n{text.decode()}")
    return wrong, len(asked) + 5, len(right) - 1


def main():
    words = sys.argv[1:]
    if words[:1] == ["--script"]:
        print(LongMaker(random.Random(f"{words[1] if words[1:] else 1} 0")).script(), end="")
        return True
    if len(words) > 2 or not all(word.isdigit() for word in words):
        sys.exit(__doc__)
    if not os.access(PROGRAM, os.X_OK):
        sys.exit(f"reflect: there is no program {PROGRAM}")
    count, seed = [*map(int, words), *(2_000, 1)[len(words) :]]
    differ = asked = found = 0
    with ThreadPoolExecutor(os.cpu_count()) as workers:
        for wrong, questions_asked, lines in workers.map(try_script, ((seed, number) for number in range(count))):
            differ, asked, found = differ + len(wrong), asked + questions_asked, found + lines
            for text in wrong:
                print(text, flush=True)
    print(f"{count} scripts, {asked} questions, {found} pairs and definitions that are not examined, {differ} differences")
    return differ == 0 and count > 0


if __name__ == "__main__":
    sys.exit(0 if main() else 1)
