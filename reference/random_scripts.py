"""Scripts made by chance: bytes, words of the language in any order, scripts that mostly run, and scripts with changes."""

import glob
import os

HERE = os.path.dirname(os.path.abspath(__file__))
WORDS = (
    "abstract type struct function end if elseif else begin quote return where true false nothing isa for while let do const global "
    "Any Union Tuple Number Real Integer Signed Int64 Int Bool Nothing Task Base Threads eval fetch println print invokelatest delete_method which div rem "
    "f g h x y n T S P A Box é 0 1 2 9223372036854775807 9223372036854775808 1_0 @eval @spawn @x === !== :: <: >: == != <= >= && || = < > "
    "+ - * ÷ % ! ? : . , ; ( ) [ ] { } # #= =# \" \\ $ \"a\" \"\\n\" -1 -9223372036854775808 \n \t \r \0"
).split(" ") + ["\n", "\n", ";", " "]
# Parts of scripts, so that a good part of what is made is one.
PHRASES = (
    "f(x)", "f(x, y)", "f(x::T) where T", "f(x::Int64)", "f(x::Box{T}) where T<:Integer", "Threads.@spawn f(1)", "fetch(t)", "t", "x", "@eval f(x) = 1",
    "Base.invokelatest(f, 1)", "println(x)", 'println("a", 1)', "(1, 2)", "(1,)", "()", "x.a", "x[1]", "Box{Int64}(1)", "Box(1)", "1 isa Int64",
    "Int64 <: Integer", "if x; 1 else 2 end", "begin 1; 2 end", "struct Box{T}; a::T end", "abstract type A{T} end", "function f(x) return x end",
    "eval(quote 1 end)", "x = 1", "1 + 2", "x === y", "!true", "-x", "x ? 1 : 2", "x && y", "Base.:+(x::Bool, y::Bool) = 1", "where {T, S<:T}",
    "Base.delete_method(which(f, Tuple{Any}))", "Base.delete_method(", "which(f, Tuple{Int64})", "Base.delete_method(which(f, (Tuple{T} where T)))",
)


def corpus():
    """The scripts of the examples and of the cases of check_cases."""
    scripts = []
    for name in sorted(glob.glob(f"{HERE}/../examples/*.jl")):
        with open(name, "rb") as file:
            scripts.append(file.read())
    lines = []
    with open(f"{HERE}/../crates/check_cases/stdin", "rb") as file:
        for line in file.read().split(b"\n"):
            if line.startswith(b"$"):
                scripts.append(b"\n".join(lines))
                lines = []
            elif line.startswith(b"| "):
                lines.append(line[2:])
    return [script for script in dict.fromkeys(scripts) if script]


def random_bytes(chance):
    return bytes(chance.randrange(256) for _ in range(chance.randrange(120)))


def random_words(chance):
    words = [chance.choice(WORDS if chance.random() < 0.7 else PHRASES) for _ in range(chance.randrange(1, 60))]
    return "".join(word + chance.choice(("", " ", " ", " ", "\n")) for word in words).encode()


class Maker:
    """Makes a script that is a program, mostly, and that comes to an end, mostly. What is made is within the fuel or ends by it."""

    def __init__(self, chance):
        self.chance = chance
        self.structs, self.abstracts, self.functions, self.count = [], [], ["f", "g", "h"], 0
        self.defined = []  # functions with the types of their parameters and their `where`

    def pick(self, *choices):
        return self.chance.choice(choices)

    def new(self, letter):
        self.count += 1
        return f"{letter}{self.count}"

    def type(self, depth, variables=()):
        """A written type."""
        plain = ["Int64", "Bool", "Any", "Integer", "Nothing", "Number", "Task", *self.abstracts, *variables]
        if depth == 0 or self.chance.random() < 0.5:
            return self.chance.choice(plain)
        inner = [self.type(depth - 1, variables) for _ in range(self.chance.randrange(1, 4))]
        name, count = self.chance.choice([*self.structs, ("Tuple", 1), ("Union", 1)])[:2]
        if name in ("Tuple", "Union"):
            return f"{name}{{{', '.join(inner)}}}"
        if count == 0 or self.chance.random() < 0.2:
            return name
        if self.chance.random() < 0.2:
            return f"{name}{{<:{inner[0]}}}"
        return f"{name}{{{', '.join((inner * count)[:count])}}}"

    def declaration(self):
        """A type that is declared."""
        count, name = self.chance.randrange(3), self.new("P")
        variables = [f"T{i}" for i in range(count)]
        bounds = [v + self.pick("", "", "<:Integer", "<:Any") for v in variables]
        params = f"{{{', '.join(bounds)}}}" if count else ""
        above = ""
        if self.abstracts and self.chance.random() < 0.5:
            above = f" <: {self.chance.choice(self.abstracts)}"
        if self.chance.random() < 0.3:
            if not count:
                self.abstracts.append(name)
            return f"abstract type {name}{params}{above} end"
        fields = [self.pick("", f"::{self.chance.choice(variables) if variables else 'Any'}", f"::{self.type(1, variables)}") for _ in range(self.chance.randrange(4))]
        text = "; ".join(f"a{i}{field}" for i, field in enumerate(fields))
        self.structs.append((name, count, len(fields)))
        return f"struct {name}{params}{above}; {text} end"

    def call(self, depth, names, arguments=None):
        name = self.chance.choice(self.functions)
        arguments = arguments or [self.expr(depth - 1, names) for _ in range(self.chance.randrange(1, 3))]
        return f"{name}({', '.join(arguments)})"

    def made(self, depth, names):
        """A call of a constructor."""
        if not self.structs:
            return "(1, true)"
        name, count, fields = self.chance.choice(self.structs)
        written = f"{{{', '.join(self.type(1) for _ in range(count))}}}" if count and self.chance.random() < 0.4 else ""
        arguments = [self.expr(depth - 1, names) for _ in range(fields if self.chance.random() < 0.9 else 1)]
        return f"{name}{written}({', '.join(arguments)})"

    def expr(self, depth, names):
        """An expression over these names."""
        leaf = ["0", "1", "2", "-3", "true", "false", "nothing", "()", *names, *names]
        if depth <= 0 or self.chance.random() < 0.15:
            return self.chance.choice(leaf)

        def more():
            return self.expr(depth - 1, names)

        forms = [
            lambda: f"({more()} {self.pick('+', '-', '*', '÷', '%')} {more()})",
            lambda: f"({more()} {self.pick('==', '!=', '<', '<=', '===', '!==')} {more()})",
            lambda: f"({more()} {self.pick('&&', '||')} {more()})",
            lambda: f"({more()} isa {self.type(2)})",
            lambda: f"({self.type(2)} <: {self.type(2)})",
            lambda: f"({more()} ? {more()} : {more()})",
            lambda: f"({more()}, {more()})",
            lambda: f"{more()}.a0",
            lambda: f"{more()}[{self.chance.randrange(1, 3)}]",
            lambda: f"if {more()}; {more()} else {more()} end",
            lambda: f"begin {self.pick('print', 'println')}({more()}); {more()} end",
            lambda: f"{self.pick('-', '!')}{more()}",
            lambda: f"fetch({more()})",
            lambda: f"fetch(Threads.@spawn {more()})",
            lambda: f"(Threads.@spawn {more()})",
            lambda: f"Base.invokelatest({self.chance.choice(self.functions)}, {more()})",
            lambda: f"(@eval {self.call(depth, ())})",
            lambda: f"(@eval begin {self.method(1)}; {self.expr(1, ())} end)",
            lambda: self.call(depth, names),
            lambda: self.call(depth, names),
            lambda: self.made(depth, names),
            self.deletion,
        ]
        return self.chance.choice(forms)()

    def method(self, depth):
        """A method."""
        count = self.chance.randrange(3)
        variables = [f"V{i}" for i in range(count)]
        names = [f"x{i}" for i in range(self.chance.randrange(1, 3))]
        types = [self.type(2, variables) if self.chance.random() < 0.6 else "Any" for _ in names] + variables
        params = [name + (f"::{ty}" if ty != "Any" else "") for name, ty in zip(names + [""] * count, types)]
        bounds = [v + self.pick("", "<:Integer", "<:Number") for v in variables]
        where = f" where {{{', '.join(bounds)}}}" if count else ""
        function = self.chance.choice(self.functions)
        self.defined.append((function, types, where))
        return f"{function}({', '.join(params)}){where} = {self.expr(depth, names)}"

    def deletion(self):
        """A deletion, mostly of something that is defined."""
        function, types, where = self.chance.choice(self.defined)
        if self.chance.random() < 0.2:
            types = [self.type(1, types[len(types) - where.count("V") :] if where else ()) for _ in types]
        tuple_type = f"Tuple{{{', '.join(types)}}}"
        return f"Base.delete_method(which({function}, {f'({tuple_type}{where})' if where else tuple_type}))"

    def script(self):
        items, names = [], []
        for _ in range(self.chance.randrange(4)):
            items.append(self.declaration())
        items += [f"{name}(x, y) = x" for name in self.functions]
        self.defined += [(name, ["Any", "Any"], "") for name in self.functions]
        for _ in range(self.chance.randrange(1, 10)):
            kind = self.chance.random()
            if kind < 0.3:
                items.append(self.method(self.chance.randrange(4)))
            elif kind < 0.5:
                name = self.new("v")
                items.append(f"{name} = {self.expr(3, names)}")
                names.append(name)
            elif kind < 0.6:
                items.append(f"println({self.expr(2, names)}, {self.expr(1, names)})")
            else:
                items.append(f"println({self.expr(self.chance.randrange(5), names)})")
        return "\n".join(items).encode()


def random_script(chance):
    return Maker(chance).script()


def random_input(chance):
    """Bytes, words or a script."""
    return chance.choice((random_bytes, random_words, random_words, random_script, random_script, random_script))(chance)


NUMBERS = (b"0", b"1", b"-1", b"2", b"8", b"9", b"64", b"65", b"500", b"1999", b"2000", b"65535", b"9223372036854775807", b"9223372036854775808")


def change(chance, text, scripts):
    """A text with one change."""
    at = chance.randrange(len(text) + 1)
    to = min(len(text), at + chance.randrange(1, 12))
    kind = chance.randrange(13)
    if kind == 0:
        return text[:at] + text[to:]
    if kind == 1:
        return text[:at] + bytes([chance.randrange(256)]) + text[at + 1 :]
    if kind == 2:
        return text[:at] + text[at:to] * chance.randrange(2, 6) + text[to:]
    if kind == 3:
        return text[:at] + chance.choice(WORDS).encode() + text[at:]
    if kind == 4:
        other = chance.choice(scripts)
        start = chance.randrange(len(other) + 1)
        return text[:at] + other[start : start + chance.randrange(1, 80)] + text[at:]
    lines = text.split(b"\n")
    first, second = chance.randrange(len(lines)), chance.randrange(len(lines))
    if kind == 5:
        lines[first], lines[second] = lines[second], lines[first]
        return b"\n".join(lines)
    if kind in (6, 7):
        return b"\n".join(lines[:first] + [lines[second]] + lines[first:])
    if kind == 8:
        return b"\n".join(lines[:first] + lines[first + 1 :])
    if kind == 9:
        return b"\n".join(lines + [lines[first]] + chance.choice(scripts).split(b"\n")[-2:])
    words = lines[first].split(b" ")
    word = chance.randrange(len(words))
    words[word] = chance.choice(NUMBERS) if kind < 12 else chance.choice(WORDS).encode()
    lines[first] = b" ".join(words)
    return b"\n".join(lines)


def changed_input(chance, scripts):
    """A script of the corpus with one to four changes, mostly one."""
    text = chance.choice(scripts)
    for _ in range(chance.choice((1, 1, 1, 2, 4))):
        text = change(chance, text, scripts)
    return text
