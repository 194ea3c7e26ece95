#!/usr/bin/env python3
"""Signatures made by chance whose bounds mention variables, as `f(x::S, y::T) where {T, S<:Box{T}}`, with the answers of the plain reference.

    reference/bounds.py stdin          writes the questions that crates/type_cases keeps of these
    reference/bounds.py stdout         writes the answers
    reference/bounds.py check          compares both with the files of crates/type_cases, which have them in one piece
    reference/bounds.py 20000 7        compares 20,000 pairs of signatures and as many calls from the seed 7 with the program type_cases
    CASES=FILE reference/bounds.py ..  with another program than crates/type_cases/out/type_cases

The answers are those of reference/types.py, which guesses the types of variables: all types inside what is asked for and inside their
ancestors, the upper bounds with such guesses put in, and some more. What is asked for is made by chance, with chains of bounds, diagonal
variables with such bounds, unions that are put for variables, and upper bounds that are no normal forms. The status is 0 only where
there is no difference.
"""

import importlib.util
import os
import pathlib
import random
import subprocess
import sys

FOLDER = pathlib.Path(__file__).resolve().parent
CASES = FOLDER.parent / "crates" / "type_cases"
PROGRAM = os.environ.get("CASES", str(CASES / "out" / "type_cases"))


def loaded(name, file):
    """A file whose name is that of a module of Python too."""
    spec = importlib.util.spec_from_file_location(name, file)
    module = importlib.util.module_from_spec(spec)
    spec.loader.exec_module(module)
    return module


types = loaded("plain_types", FOLDER / "types.py")
from_types = ("ANY", "NONE", "NUMBER", "INTEGER", "INT", "BOOL", "NOTHING", "union", "tuple_of", "named", "var", "put", "variables_in")
ANY, NONE, NUMBER, INTEGER, INT, BOOL, NOTHING, union, tuple_of, named, var, put, variables_in = (getattr(types, it) for it in from_types)

# ---------------------------------------------------------------------------------------------------------------- what is made

TABLE = types.Table(
    ("A", False, 1, ANY),
    ("Box", True, 1, ANY),
    ("B", False, 1, named("A", named("Box", var(0)))),
    ("P", True, 1, named("A", var(0))),
    ("K", True, 1, named("B", var(0))),
    ("Pair", True, 2, ANY),
)
ARITY = {"A": 1, "B": 1, "Box": 1, "P": 1, "K": 1, "Pair": 2}
ARGUMENTS = [INT, INT, BOOL, INTEGER, ANY, union(INT, BOOL), NONE, named("Box", INT), named("P", INT), named("A", INT), tuple_of(INT)]
# upper bounds without variables; some are no normal forms
HIGHS = [
    *[ANY] * 4,
    INTEGER,
    NUMBER,
    union(INT, BOOL),
    union(BOOL, INT, INTEGER),
    union(NONE, named("P", INT)),
    union(named("P", INT), NONE, named("Box", BOOL)),
    union(named("A", INT), named("P", INT)),
    named("A", INT),
    named("A", union(INT)),
    named("Box", union(BOOL, INT)),
    tuple_of(union(INT, BOOL)),
    NONE,
]
LOWS = [NONE] * 12 + [INT, named("P", INT), union(INT, NONE)]


class Maker:
    def __init__(self, seed):
        self.chance = random.Random(seed)

    def nominal(self, argument):
        """A nominal type of such arguments."""
        name = self.chance.choice(list(ARITY))
        return named(name, *(argument() for _ in range(ARITY[name])))

    def argument(self, below):
        """A type that may be an argument, over the variables below this number."""
        kind = self.chance.random()
        if below and kind < 0.65:
            return var(self.chance.randrange(below))
        if kind < 0.85:
            return self.chance.choice(ARGUMENTS)
        return self.nominal(lambda: self.argument(below))

    def bound(self, v):
        """The bounds of variable v."""
        if v and self.chance.random() < 0.7:
            for _ in range(9):
                high = self.nominal(lambda: self.argument(v))
                if variables_in(high):
                    return (NONE, high)
        low, high = self.chance.choice(LOWS), self.chance.choice(HIGHS)
        return (low, high) if TABLE.opaque.below(low, high) else (NONE, high)

    def component(self, width, depth=0):
        kind = self.chance.random()
        if width and kind < 0.35:
            return var(self.chance.randrange(width))
        if kind < 0.70:
            return self.nominal(lambda: self.argument(width))
        if kind < 0.80 and depth < 2:
            return tuple_of(*(self.component(width, depth + 1) for _ in range(self.chance.randint(1, 2))))
        if kind < 0.90 and depth < 2:
            return union(self.component(width, depth + 1), self.component(width, depth + 1))
        return self.chance.choice([INT, BOOL, INTEGER, ANY, union(INT, BOOL), NONE, named("P", INT)])

    def signature(self):
        """A signature of one to three variables, each of which has a place, and few rows."""
        while True:
            width = self.chance.choice([1, 2, 2, 2, 3, 3])
            bounds = [self.bound(v) for v in range(width)]
            parts = [self.component(width) for _ in range(self.chance.choice([1, 1, 2, 2, 3]))]
            if sig := fitting(bounds, parts):
                return sig

    def lower(self, high):
        """A type that is often below an upper bound: a nominal type below a nominal one, else one without variables."""
        if high[0] == "Nominal" and self.chance.random() < 0.7:
            fit = {"A": ["P"], "B": ["K"]}.get(high[1], [high[1]])
            if high[1] == "A" and high[2][0][0] == "Nominal" and high[2][0][1] == "Box" and self.chance.random() < 0.5:
                return named("K", *high[2][0][2])
            return named(self.chance.choice(fit), *high[2])
        fit = [t for t in CLOSED if TABLE.opaque.below(t, high)]
        return self.chance.choice(fit) if fit else NONE

    def special(self, sig):
        """A signature that is often below this one: a variable has a lower upper bound, or a type is put for it."""
        at = self.chance.randrange(sig.width)
        low, high = sig.bounds[at]
        t = self.lower(high)
        if self.chance.random() < 0.4:
            bounds = [*sig.bounds[:at], (low if TABLE.opaque.below(low, t) else NONE, t), *sig.bounds[at + 1 :]]
            return fitting(bounds, sig.parts)
        value = lambda v: t if v == at else var(v - (v > at))
        bounds = [(low, put(value, high)) for low, high in sig.bounds]
        return fitting(bounds[:at] + bounds[at + 1 :], [put(value, part) for part in sig.parts])

    def near(self, sig):
        """A signature like this one: a part or a bound is another."""
        bounds, parts = list(sig.bounds), list(sig.parts)
        if self.chance.random() < 0.5:
            at = self.chance.randrange(len(bounds))
            bounds[at] = self.bound(at)
        if self.chance.random() < 0.6:
            parts[self.chance.randrange(len(parts))] = self.component(len(bounds))
        return fitting(bounds, parts)

    def pair(self):
        """Two signatures."""
        while True:
            sig = self.signature()
            kind = self.chance.random()
            other = self.special(sig) if kind < 0.5 else self.near(sig) if kind < 0.8 else self.signature()
            if other:
                return (other, sig) if self.chance.random() < 0.8 else (sig, other)

    def below(self, t):
        """A concrete type below this one without variables, or none."""
        fit = [c for c in CONCRETE if TABLE.opaque.below(c, t)]
        return self.chance.choice(fit) if fit else None

    def call(self, sig):
        """Types of a call: mostly some that are below a row of the signature."""
        if not sig.rows or self.chance.random() < 0.15:
            return [self.chance.choice(CONCRETE) for _ in sig.parts]
        row = self.chance.choice(sig.rows)
        values = []
        for v in range(sig.width):
            high = put(lambda w: values[w], sig.top(row, v))
            fit = [t for t in CLOSED if TABLE.opaque.below(t, high)]
            values.append(self.chance.choice(fit) if fit and self.chance.random() < 0.9 else high)
        found = [self.below(put(lambda k: values[sig.root(k)], part)) for part in row.parts]
        return [t or self.chance.choice(CONCRETE) for t in found]


def fitting(bounds, parts):
    """The signature, where each variable has a place and it has few rows, else none."""
    for v in range(len(bounds)):
        if not any(v in variables_in(t) for t in [*parts, *(t for bound in bounds for t in bound)]):
            return None
    sig = types.Signature(TABLE, bounds, parts)
    return sig if len(sig.rows) <= 12 else None


CONCRETE = [INT, BOOL, NOTHING, tuple_of(INT), tuple_of(BOOL), tuple_of(INT, INT), tuple_of(named("P", INT))]
CONCRETE += [named(name, t) for name in ("Box", "P", "K") for t in ARGUMENTS]
CONCRETE += [named("Box", named("K", t)) for t in (INT, BOOL)] + [named("Box", named("Box", INT)), named("P", named("P", INT)), named("P", named("Box", INT))]
CONCRETE += [named("Pair", t, u) for t in (INT, BOOL, named("P", INT), named("Box", INT)) for u in (INT, named("P", INT), named("Box", INT), INTEGER)]
CLOSED = CONCRETE + ARGUMENTS + [named("B", INT), named("A", named("Box", INT)), union(named("P", INT), named("Box", BOOL)), union(named("K", INT), named("P", named("Box", INT)))]

# ---------------------------------------------------------------------------------------------------------------- questions


def standing(left, right):
    below, above = types.sig_below(left, right), types.sig_below(right, left)
    return "the same" if below and above else "below" if below else "above" if above else "neither"


def pair_question(left, right):
    return f"signatures {types.sig_text(left)} | {types.sig_text(right)}", lambda: standing(left, right)


def call_question(sig, call):
    def answer():
        found = types.bindings(sig, call)
        return "none" if found is None else types.list_text(found)

    return f"apply {types.sig_text(sig)} | {types.list_text(call)}", answer


def questions(count, seed):
    """So many pairs of signatures and as many calls."""
    maker = Maker(seed)
    for _ in range(count):
        left, right = maker.pair()
        yield pair_question(left, right)
        yield call_question(right, maker.call(right))


def heading(text):
    return [(f"# {text}", None), ("table", None)] + [(types.declaration_text(*row), lambda row=row: TABLE.number[row[0]]) for row in TABLE.declared]


def compare(count, seed):
    """Compares the program with the reference, and says how many differ."""
    asked = [*heading("Signatures made by chance"), *questions(count, seed)]
    ran = subprocess.run([PROGRAM], input="".join(f"{question}\n" for question, _ in asked), capture_output=True, text=True, check=True)
    found = ran.stdout.splitlines()
    if len(found) != len(asked):
        sys.exit(f"{len(found)} answers to {len(asked)} questions")
    differ, answers = 0, {}
    for (question, answer), line in zip(asked, found):
        wanted = f"{question} => {answer()}" if answer else question
        answers[wanted.partition(" => ")[2]] = answers.get(wanted.partition(" => ")[2], 0) + 1
        if wanted != line:
            differ += 1
            print(f"wanted {wanted}\nfound  {line}")
    many = ", ".join(f"{answers.get(word, 0)} {word}" for word in ("below", "above", "the same", "neither", "none"))
    print(f"{len(asked)} questions, {differ} differences; {many}")
    return 1 if differ else 0


# ---------------------------------------------------------------------------------------------------------------- what is kept

KEPT, SEED = 300, 53
HEADING = "Signatures made by chance whose bounds mention variables, and calls of them"


def lines(are_wanted):
    """The lines that crates/type_cases keeps: the questions, and with their answers."""
    for question, answer in [*heading(HEADING), *questions(KEPT, SEED)]:
        yield f"{question} => {answer()}" if are_wanted and answer else question


def check():
    """Compares them with the stored files, and says which of these differs."""
    for name, are_wanted in ("stdin", False), ("stdout", True):
        if "\n" + types.text(lines(are_wanted)) not in (CASES / name).read_text():
            sys.exit(f"{name} differs")
    return 0


def main(words):
    if words in (["stdin"], ["stdout"]):
        print(types.text(lines(words == ["stdout"])), end="")
        return 0
    if words == ["check"]:
        return check()
    if len(words) == 2 and all(word.isdigit() for word in words):
        return compare(int(words[0]), int(words[1]))
    sys.exit("usage: reference/bounds.py stdin|stdout|check|COUNT SEED")


if __name__ == "__main__":
    sys.exit(main(sys.argv[1:]))
