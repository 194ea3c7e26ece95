#!/usr/bin/env python3
"""A plain reference for the order of types and signatures, from which the mass cases of crates/type_cases come.

    reference/types.py stdin     writes the questions
    reference/types.py stdout    writes the answers, in a minute or two
    reference/types.py check     compares both with the files of crates/type_cases, which end with them

The answers are computed as they are defined: every alternative, every row, and every guess for the types of variables. Nothing is
kept in a better form and nothing is done to be fast beyond keeping answers that were computed before (Julia manual, Types and
Methods; Zappa Nardelli et al., OOPSLA 2018).
"""
import itertools
import pathlib
import sys
from functools import lru_cache

# ---------------------------------------------------------------------------------------------------------------- types

ANY = ("Any",)


def union(*members):
    return ("Union", members)


def tuple_of(*parts):
    return ("Tuple", parts)


def named(name, *arguments):
    return ("Nominal", name, arguments)


def var(number):
    return ("Var", number)


NONE = union()
NUMBER, REAL, INTEGER, SIGNED = (named(n) for n in ("Number", "Real", "Integer", "Signed"))
INT, BOOL, NOTHING, TASK = (named(n) for n in ("Int64", "Bool", "Nothing", "Task"))


def parts_of(t):
    """The types that stand directly in a type."""
    return {"Any": (), "Var": ()}.get(t[0], t[-1])


def variables_in(t):
    """The numbers of all variables in a type, with repetitions."""
    if t[0] == "Var":
        return [t[1]]
    return [v for part in parts_of(t) for v in variables_in(part)]


def put(values, t):
    """A type with values(v) put for each variable v."""
    if t[0] == "Var":
        return values(t[1])
    if t[0] == "Any":
        return t
    return t[:-1] + (tuple(put(values, part) for part in t[-1]),)


def forms(at, t):
    """The forms of a type without unions at its top, where at(v) is what stands at a covariant place of a variable."""
    if t[0] == "Union":
        return [form for member in t[1] for form in forms(at, member)]
    if t[0] == "Tuple":
        return [tuple_of(*row) for row in itertools.product(*(forms(at, part) for part in t[1]))]
    if t[0] == "Var":
        return at(t[1])
    return [t]


@lru_cache(maxsize=None)
def alternatives(t):
    return tuple(forms(lambda v: [var(v)], t))


# ---------------------------------------------------------------------------------------------------------------- table


class Table:
    """The built-in types and declared ones. A declaration is a name, whether it is a struct, how many parameters it has, and its
    parent, in which variable i is parameter i."""

    BUILT_IN = [
        ("Number", False, 0, ANY),
        ("Real", False, 0, NUMBER),
        ("Integer", False, 0, REAL),
        ("Signed", False, 0, INTEGER),
        ("Int64", True, 0, SIGNED),
        ("Bool", True, 0, INTEGER),
        ("Nothing", True, 0, ANY),
        ("Task", True, 0, ANY),
    ]

    def __init__(self, *declared):
        self.declared = list(declared)
        rows = self.BUILT_IN + self.declared
        self.number = {row[0]: i for i, row in enumerate(rows)}
        self.is_struct = {row[0]: row[1] for row in rows}
        self.parent = {row[0]: row[3] for row in rows}
        self.opaque = Fixed(self)

    def line(self, t):
        """A nominal type and its ancestors."""
        line = []
        while t[0] == "Nominal":
            line.append(t)
            arguments = t[2]
            t = put(lambda v: arguments[v], self.parent[t[1]])
        return line

    def lifted(self, t, name):
        """The arguments of a nominal type, or of its ancestor of this name."""
        for ancestor in self.line(t):
            if ancestor[1] == name:
                return ancestor[2]
        return None

    def equal(self, t, u):
        """Two types are below one another, where nothing is known of variables."""
        return self.opaque.below(t, u) and self.opaque.below(u, t)

    def spelled(self, t):
        """What the order of terms compares: the form of a type, its number, how many parts it has, and the parts."""
        if t == NONE:
            return [0]
        if t[0] == "Any":
            return [1]
        if t[0] == "Var":
            return [5, t[1]]
        head = {"Nominal": [2], "Tuple": [3], "Union": [4]}[t[0]]
        if t[0] == "Nominal":
            head.append(self.number[t[1]])
        return head + [len(t[-1])] + [n for part in t[-1] for n in self.spelled(part)]

    def normal(self, t):
        """The one normal form of all types that are equal to this one."""

        def settled(u):
            if u[0] == "Nominal":
                return u[:-1] + (tuple(self.normal(argument) for argument in u[-1]),)
            if u[0] in ("Union", "Tuple"):
                return u[:-1] + (tuple(settled(part) for part in u[-1]),)
            return u

        members = set(alternatives(settled(t)))
        most = [a for a in members if not any(a != b and self.opaque.below(a, b) for b in members)]
        most.sort(key=self.spelled)
        return most[0] if len(most) == 1 else union(*most)


class Fixed:
    """What is known of variables that are held fixed: their bounds, the variable of an atom, and whether they count as concrete."""

    def __init__(self, table, low=None, high=None, root=None, sure=None):
        self.table = table
        self.low = low or (lambda v: NONE)
        self.high = high or (lambda v: ANY)
        self.root = root or (lambda v: v)
        self.sure = sure or (lambda v: False)
        self.known = {}

    def below(self, t, u):
        """Each alternative of the one is below some alternative of the other."""
        if (t, u) not in self.known:
            self.known[t, u] = self.covered(alternatives(t), alternatives(u))
        return self.known[t, u]

    def covered(self, lowers, uppers):
        return all(self.found(lower, uppers) for lower in lowers)

    def found(self, a, uppers):
        if any(self.part(a, upper) for upper in uppers):
            return True
        # a variable is below what its upper bound is below
        return a[0] == "Var" and self.covered(alternatives(self.high(a[1])), uppers)

    def part(self, a, b):
        if b[0] == "Any":
            return True
        if b[0] == "Var":
            if a[0] == "Var" and (a == b or self.root(a[1]) == b[1]):
                return True
            return self.below(a, self.low(b[1]))
        if a[0] == b[0] == "Tuple":
            return len(a[1]) == len(b[1]) and all(map(self.below, a[1], b[1]))
        if a[0] == b[0] == "Nominal":
            arguments = self.table.lifted(a, b[1])
            return arguments is not None and all(map(self.table.equal, arguments, b[2]))
        return False

    def is_concrete(self, t):
        if t[0] == "Tuple":
            return all(map(self.is_concrete, t[1]))
        if t[0] == "Var":
            return self.sure(t[1])
        return t[0] == "Nominal" and self.table.is_struct[t[1]]


# ----------------------------------------------------------------------------------------------------------- signatures


def places(v, t):
    """How many covariant and how many invariant places a variable has: all below a nominal type are invariant."""
    if t == var(v):
        return 1, 0
    inside = [places(v, part) for part in parts_of(t)]
    covariant, invariant = sum(p[0] for p in inside), sum(p[1] for p in inside)
    return (0, covariant + invariant) if t[0] == "Nominal" else (covariant, invariant)


def is_in_union(v, t, inside=False):
    """The variable stands in a union in a type."""
    if t == var(v):
        return inside
    return any(is_in_union(v, part, inside or t[0] == "Union") for part in parts_of(t))


def first_standing(v, part, t):
    """What stands at the first covariant place of a variable: an argument, or a part of a tuple."""
    if part == var(v):
        return t
    if part[0] == t[0] == "Tuple":
        for inner, u in zip(part[1], t[1]):
            found = first_standing(v, inner, u)
            if found is not None:
                return found
    return None


class Row:
    """The parts of a row, and the alternative of its upper bound that each diagonal variable takes."""

    def __init__(self, sig, parts, chosen):
        self.parts = parts
        self.chosen = chosen
        self.occurring = sig.occurring(parts)


class Signature:
    """The bounds of variables, low and high, and a type for each parameter. An upper bound may mention variables before its own."""

    def __init__(self, table, bounds, parts):
        self.table = table
        self.bounds = bounds
        self.parts = parts
        self.width = len(bounds)
        self.kinds = [self.kind(v) for v in range(self.width)]
        self.rows = self.all_rows()

    def root(self, v):
        """The variable of an atom: the atom of a variable v and alternative i of its upper bound is v + width * (i + 1)."""
        return v % self.width

    def kind(self, v):
        covariant, invariant = places(v, tuple_of(*self.parts))
        # a place in a bound is an invariant one
        if invariant > 0 or any(v in variables_in(t) for t in self.bound_types()):
            return "bound"
        return ["unused", "once"][covariant] if covariant < 2 else "diagonal"

    def occurring(self, parts):
        """The variables that stand in the parts of a row, or in the bound of a variable of the row."""
        found, more = set(), {self.root(v) for part in parts for v in variables_in(part)}
        while more > found:
            found, more = more, more | {w for v in more for w in variables_in(self.bounds[v][1])}
        return found

    def stands_for(self, v):
        """What stands at a covariant place of a variable, by its kind."""
        high = alternatives(self.bounds[v][1])
        if self.kinds[v] == "once":
            return list(high)
        if self.kinds[v] == "diagonal":
            return [var(v)]
        return [var(v + self.width * (i + 1)) for i in range(len(high))]

    def all_rows(self):
        rows = []
        for parts in itertools.product(*(forms(self.stands_for, part) for part in self.parts)):
            occurring = Row(self, parts, ()).occurring
            picks = []
            for v, (low, high) in enumerate(self.bounds):
                is_open = self.kinds[v] == "diagonal" and v in occurring
                picks.append([u for u in alternatives(high) if self.table.opaque.below(low, u)] if is_open else [ANY])
            rows += [Row(self, parts, chosen) for chosen in itertools.product(*picks)]
        return rows

    def top(self, row, v):
        """The upper bound of a variable in a row."""
        return row.chosen[v] if self.kinds[v] == "diagonal" else self.bounds[v][1]

    def fixed(self, row):
        """What is known of the variables of a row where they are held fixed."""

        def high(k):
            if k < self.width:
                return self.top(row, k)
            return alternatives(self.bounds[self.root(k)][1])[k // self.width - 1]

        return Fixed(
            self.table,
            lambda k: self.bounds[k][0] if k < self.width else NONE,
            high,
            self.root if self.width else None,
            lambda k: self.kinds[k] == "diagonal" if k < self.width else False,
        )

    def serving(self, fixed, row, values, guesses):
        """Those guesses that may be put for the next variable of a row, where those before it have these types; `Any` alone where it
        is no variable of the row."""
        v = len(values)
        if v not in row.occurring:
            return [ANY]
        low, high = (put(lambda w: values[w], t) for t in (self.bounds[v][0], self.top(row, v)))
        return [
            t
            for t in dict.fromkeys([*guesses, high])
            if fixed.below(low, t)
            and fixed.below(t, high)
            and (self.kinds[v] != "diagonal" or fixed.is_concrete(t))
        ]

    def substitutions(self, fixed, row, guesses, values=()):
        if len(values) == self.width:
            yield values
            return
        for t in self.serving(fixed, row, values, guesses):
            yield from self.substitutions(fixed, row, guesses, (*values, t))

    def bound_types(self):
        return [t for bound in self.bounds for t in bound]


def inside(t):
    """A type and all types inside it."""
    yield t
    for part in parts_of(t):
        yield from inside(part)


def guesses_from(table, types):
    """All types inside these and inside their ancestors, each once."""
    found = {}
    for t in types:
        for u in inside(t):
            found[u] = None
            for ancestor in table.line(u):
                for w in inside(ancestor):
                    found[w] = None
    return list(found)


# types that are guessed besides those inside what is asked for
MORE = [ANY, INTEGER, INT, BOOL, NONE]


def application(sig, types):
    """Types for the variables of a signature under which these types are below one of its rows, or None."""
    if len(types) != len(sig.parts):
        return None
    table = sig.table
    guesses = [t for t in guesses_from(table, list(types) + sig.bound_types() + MORE) if not variables_in(t)]
    for row in sig.rows:
        for values in sig.substitutions(table.opaque, row, guesses):
            wanted = (put(lambda v: values[sig.root(v)], part) for part in row.parts)
            if all(map(table.opaque.below, types, wanted)):
                return values
    return None


def binding(sig, types, values, v):
    """What a body gets for a variable: of one that stands in a union `Any`, of one at an invariant place what is put for it, of
    another one what stands at its first place. One that a bound needs, and that has no invariant place in a component, is `Any`."""
    whole = tuple_of(*sig.parts)
    if is_in_union(v, whole):
        return ANY
    if sig.kinds[v] == "bound":
        return values[v] if places(v, whole)[1] else ANY
    return first_standing(v, whole, tuple_of(*types))


def bindings(sig, types):
    values = application(sig, types)
    if values is None:
        return None
    return [sig.table.normal(binding(sig, types, values, v)) for v in range(sig.width)]


class Meeting:
    """A left row with its variables held fixed, and types for the variables of a right signature."""

    def __init__(self, fixed, right, values):
        self.fixed = fixed
        self.table = fixed.table
        self.right = right
        self.values = values

    def meets(self, t, u):
        """A part of the left row is below a part of a right row."""
        if u[0] == "Any":
            return True
        if u[0] == "Var":
            value = self.values[self.right.root(u[1])]
            if u[1] < self.right.width:
                return self.right.kinds[u[1]] == "diagonal" and self.table.equal(t, value)
            return self.fixed.below(t, value)
        if t[0] == "Var":
            # a fixed variable is below what its upper bound is below
            return self.meets(self.fixed.high(t[1]), u)
        if t[0] == u[0] == "Tuple":
            return self.meet(t[1], u[1])
        if t[0] == u[0] == "Nominal":
            arguments = self.table.lifted(t, u[1])
            wanted = (put(lambda v: self.values[self.right.root(v)], x) for x in u[2])
            return arguments is not None and all(map(self.table.equal, arguments, wanted))
        return False

    def meet(self, lefts, rights):
        return len(lefts) == len(rights) and all(map(self.meets, lefts, rights))


def row_below(left, row, fixed, right, upper):
    """The row of the left signature is below this row of the right one."""
    types = list(row.parts) + [var(v) for v in range(left.width)] + left.bound_types() + right.bound_types() + MORE
    guesses = [
        t
        for t in guesses_from(fixed.table, types)
        if all(v < left.width and v in row.occurring for v in variables_in(t))
    ]
    return any(
        Meeting(fixed, right, values).meet(row.parts, upper.parts)
        for values in right.substitutions(fixed, upper, guesses)
    )


def sig_below(left, right):
    """Each row of the one is below some row of the other."""
    for row in left.rows:
        fixed = left.fixed(row)
        if not any(row_below(left, row, fixed, right, upper) for upper in right.rows):
            return False
    return True


# ----------------------------------------------------------------------------------------------------------------- text

NAMES = ["T", "S", "R"]


def type_text(t, names=()):
    if t[0] == "Any":
        return "Any"
    if t[0] == "Var":
        return names[t[1]] if t[1] < len(names) else f"#{t[1]}"
    name = t[1] if t[0] == "Nominal" else t[0]
    if t[0] == "Nominal" and not t[2]:
        return name
    return name + "{" + ", ".join(type_text(part, names) for part in t[-1]) + "}"


def list_text(types, names=()):
    return "(" + ", ".join(type_text(t, names) for t in types) + ")"


def bound_text(name, low, high, names=()):
    if low == NONE:
        return name if high == ANY else f"{name}<:{type_text(high, names)}"
    if high == ANY:
        return f"{name}>:{type_text(low)}"
    return f"{type_text(low)}<:{name}<:{type_text(high, names)}"


def sig_text(sig):
    names = NAMES[: sig.width]
    text = list_text(sig.parts, names)
    bounds = [bound_text(name, *bound, names) for name, bound in zip(names, sig.bounds)]
    if not bounds:
        return text
    return text + " where " + (bounds[0] if len(bounds) == 1 else "{" + ", ".join(bounds) + "}")


def declaration_text(name, is_struct, width, parent):
    names = NAMES[:width]
    word = "struct" if is_struct else "abstract"
    params = "{" + ", ".join(names) + "}" if names else ""
    above = "" if parent == ANY else " <: " + type_text(parent, names)
    return f"{word} {name}{params}{above}"


# ---------------------------------------------------------------------------------------------------------------- cases


class Cases:
    """Questions with their answers, which are computed where they are wanted."""

    def __init__(self, are_wanted):
        self.are_wanted = are_wanted
        self.questions = []
        self.answers = []

    def head(self, line):
        self.questions.append(line)
        self.answers.append(line)

    def ask(self, question, answer):
        self.questions.append(question)
        if self.are_wanted:
            self.answers.append(f"{question} => {answer()}")

    def ask_all(self, question, lines):
        self.questions.append(question)
        if self.are_wanted:
            self.answers.append(f"{question} =>")
            self.answers += lines()

    def begin(self, heading, table):
        self.head(f"# {heading}")
        self.head("table")
        for row in table.declared:
            self.ask(declaration_text(*row), lambda: table.number[row[0]])


def all_types(cases):
    """All that can be made of a few atoms in one step, and some that are made of those."""
    table = Table(
        ("A", False, 1, ANY),
        ("D", False, 1, named("A", named("A", var(0)))),
        ("C", True, 1, named("D", var(0))),
        ("P", True, 2, named("A", var(1))),
    )

    def of_one(x):
        return [tuple_of(x), named("A", x), named("D", x), named("C", x)]

    def of_two(x, y):
        return [tuple_of(x, y), union(x, y), named("P", x, y)]

    def made_of(atoms):
        types = []
        for x in atoms:
            types += of_one(x)
            for y in atoms:
                types += of_two(x, y)
        return types

    few = [INT, BOOL]
    atoms = few + [ANY, NONE, INTEGER, var(0)]
    seconds = made_of(few)
    types = [NUMBER, SIGNED, NOTHING, tuple_of()] + made_of(atoms)
    types += [t for x in seconds for t in of_one(x)]
    types += [union(x, y) for i, x in enumerate(seconds) for y in seconds[i:]]
    types += atoms
    cases.begin("All pairs of types, with their normal forms", table)
    for t in types:
        cases.ask(f"type {type_text(t)}", lambda: type_text(table.normal(t)))
    below = table.opaque.below

    def line(t):
        assert table.equal(t, table.normal(t))
        return "".join("." if not below(t, u) else "=" if below(u, t) else "<" for u in types)

    cases.ask_all("all types", lambda: map(line, types))


BOX_INT = named("Box", INT)
EITHER = union(INT, BOOL)
BOUNDS = [
    (NONE, ANY),
    (NONE, INTEGER),
    (INT, ANY),
    (INT, EITHER),
    (NONE, union(INTEGER, BOX_INT)),
]
FEW_BOUNDS = [BOUNDS[0], BOUNDS[3], BOUNDS[4]]


def sig_table():
    return Table(
        ("A", False, 1, ANY),
        ("Box", True, 1, ANY),
        ("P", True, 1, named("A", var(0))),
        ("Q", True, 2, named("A", named("Box", var(1)))),
    )


def open_parts(v):
    """Components over one variable: at covariant and at invariant places, in unions and in tuples."""
    it, boxed = var(v), named("Box", var(v))
    return [
        it,
        union(it, BOOL),
        union(boxed, INT),
        tuple_of(it, it),
        tuple_of(it, boxed),
        tuple_of(it),
        named("A", it),
        named("A", boxed),
        named("P", it),
        boxed,
    ]


def few_open_parts(v):
    it, boxed = var(v), named("Box", var(v))
    return [it, union(it, boxed), named("A", it), boxed]


def sigs_of_one(table):
    """The signatures of one component."""
    closed = [
        ANY,
        INTEGER,
        INT,
        BOOL,
        union(INT, BOX_INT),
        tuple_of(INT, EITHER),
        tuple_of(INTEGER, ANY),
        named("A", BOX_INT),
        named("Box", EITHER),
        BOX_INT,
        NONE,
    ]
    first, second, boxed = var(0), var(1), named("Box", var(1))
    mixed = [named("Q", first, second), tuple_of(first, boxed), tuple_of(first, second), union(first, boxed)]
    sigs = [((), (part,)) for part in closed]
    sigs += [((bound,), (part,)) for bound in BOUNDS for part in open_parts(0)]
    sigs += [((b, c), (part,)) for b in BOUNDS for c in BOUNDS for part in mixed]
    return [Signature(table, *sig) for sig in sigs]


def sigs_of_two(table):
    """The signatures of two components."""
    closed = [ANY, INTEGER, INT, BOX_INT]
    left, right = few_open_parts(0), few_open_parts(1)
    sigs = [((), pair) for pair in itertools.product(closed, closed)]
    for bound in BOUNDS:
        sigs += [((bound,), pair) for pair in itertools.product(left, left)]
        sigs += [((bound,), pair) for pair in itertools.product(closed, left)]
    for b, c in itertools.product(FEW_BOUNDS, FEW_BOUNDS):
        sigs += [((b, c), pair) for pair in itertools.product(left, right)]
    return [Signature(table, *sig) for sig in sigs]


def calls_of_one():
    types = [
        INT,
        BOOL,
        named("Box", INTEGER),
        named("Box", EITHER),
        named("Box", BOX_INT),
        named("P", INT),
        named("P", BOX_INT),
        named("Q", BOOL, INT),
        tuple_of(INT, INT),
        tuple_of(INT, BOOL),
        tuple_of(INT, BOX_INT),
        tuple_of(BOOL, BOX_INT),
        BOX_INT,
    ]
    return [(t,) for t in types]


def calls_of_two():
    types = [BOOL, named("Box", INTEGER), BOX_INT, named("P", INT), named("Q", INT, INT), INT]
    return list(itertools.product(types, types))


def all_signatures(cases, heading, table, sigs, calls):
    cases.begin(heading, table)
    for sig in sigs:
        cases.ask(f"signature {sig_text(sig)}", lambda: len(sig.rows))
    for call in calls:
        cases.ask(f"call {list_text(call)}", lambda: len(call))

    def call_line(sig):
        found = [bindings(sig, call) for call in calls]
        return "".join("." if types is None else list_text(types) for types in found)

    def sig_line(left):
        return "".join("<" if sig_below(left, right) else "." for right in sigs)

    cases.ask_all("all calls", lambda: map(call_line, sigs))
    cases.ask_all("all signatures", lambda: map(sig_line, sigs))


def many_declarations(cases):
    """A type has at most 64 ancestors, and a table at most 1,024 declared types."""
    count = len(Table.BUILT_IN)
    cases.begin("A type with 64 ancestors, and one with 65", Table())
    for i in range(66):
        above = f" <: C{i - 1}" if i else ""
        cases.ask(f"abstract C{i}{above}", lambda: count + i if i <= 64 else "TooMany")
    cases.begin("1,024 declared types, and one more", Table())
    for i in range(1025):
        cases.ask(f"abstract D{i}", lambda: count + i if i < 1024 else "TooMany")


def all_cases(are_wanted):
    cases = Cases(are_wanted)
    many_declarations(cases)
    all_types(cases)
    table = sig_table()
    all_signatures(cases, "All pairs of signatures of one component", table, sigs_of_one(table), calls_of_one())
    all_signatures(cases, "All pairs of signatures of two components", table, sigs_of_two(table), calls_of_two())
    return cases


def text(lines):
    return "\n".join(lines) + "\n"


def check():
    """Compares what the stored files end with, and says which of them differs."""
    cases = all_cases(True)
    folder = pathlib.Path(__file__).resolve().parent.parent / "crates" / "type_cases"
    for name, lines in ("stdin", cases.questions), ("stdout", cases.answers):
        if not (folder / name).read_text().endswith("\n" + text(lines)):
            sys.exit(f"{name} differs")


def main(words):
    if words == ["stdin"]:
        print(text(all_cases(False).questions), end="")
    elif words == ["stdout"]:
        print(text(all_cases(True).answers), end="")
    elif words == ["check"]:
        check()
    else:
        sys.exit("usage: reference/types.py stdin|stdout|check")


if __name__ == "__main__":
    main(sys.argv[1:])
