#!/usr/bin/env python3
"""Random sessions, answered plainly once more.

    reference/sessions.py                  holds 5,000 sessions
    reference/sessions.py 100 7            holds 100, by chance 7
    JL_SESSION=FILE reference/sessions.py  with another program than crates/jl_session/out/jl_session

A session has functions of one argument that add a number, answer a number or call another function, in versions for any argument and for
`Int64`. The reference keeps a list of these definitions for the text; it knows which definitions and calls mean something, and what a call
answers. It has no parser of the language: each request is made together with what it means. The last line counts the sessions, the
requests and the differences; the status is 0 only where there is no difference."""

import os
import random
import subprocess
import sys
from concurrent.futures import ThreadPoolExecutor

HERE = os.path.dirname(os.path.abspath(__file__))
PROGRAM = os.environ.get("JL_SESSION") or os.path.join(HERE, "..", "crates", "jl_session", "out", "jl_session")
NAMES = ("f", "g", "h", "step", "_k", "é", "n1")
BAD = "ERROR: BadRequest\n"


def wrap(number):
    """A number of 64 bits with a sign."""
    return (number + 2**63) % 2**64 - 2**63


class Text:
    """The text of a session, and the definitions in it: a method of a function by whether it takes `Int64` alone."""

    def __init__(self):
        self.lines, self.methods, self.printed = 0, {}, ""

    def knows(self, name):
        return any(it == name for it, _ in self.methods)

    def fault(self, column, name):
        return f"ERROR: line {self.lines + 1}, column {column}: {name}\n"

    def value(self, name, number):
        """What a call answers: the definition for `Int64` is the narrower one."""
        kind, other = self.methods.get((name, True)) or self.methods[name, False]
        if kind == "add":
            return wrap(number + other)
        if kind == "is":
            return other
        return wrap(self.value(other, number) + 1)


def definition(chance, text):
    """A definition, and what it means: its name, whether it takes `Int64` alone, and its body; or the place and the name of its fault.

    A function calls only those that come before it in the list of names, so no call goes on for ever."""
    place = chance.randrange(len(NAMES))
    name, narrow = NAMES[place], chance.random() < 0.4
    head = f"{name}(x{'::Int64' if narrow else ''}) = "
    column = len(head) + 1
    kind = chance.choice(("add", "is", "call", "unknown", "missing", "syntax", "type"))
    if kind == "add":
        number = chance.randrange(100)
        return f"{head}x + {number}", (name, narrow, ("add", number))
    if kind == "is":
        number = chance.randrange(100)
        return f"{head}{number}", (name, narrow, ("is", number))
    if kind == "call":
        lower = [it for it in NAMES[:place] if text.knows(it)]
        if lower:
            other = chance.choice(lower)
            return f"{head}{other}(x) + 1", (name, narrow, ("call", other))
        kind = "missing"
    if kind == "unknown":
        return f"{head}nowhere", (column, "UnknownName")
    if kind == "missing":
        return f"{head}absent(x)", (column, "UnknownFunction")
    if kind == "syntax":
        return f"{head})", (column, "Syntax")
    return f"{name}(x::Absent) = 1", (len(name) + 5, "UnknownType")


def number_text(chance):
    """A text that is a number, most often."""
    kind = chance.random()
    if kind < 0.85:
        value = chance.randrange(-1000, 1000)
    elif kind < 0.9:
        value = chance.choice((2**63 - 1, -(2**63), 2**63, -(2**63) - 1, 0, 10**19))
    elif kind < 0.97:
        value = chance.randrange(100)
        return f"{chance.choice(('0', '000', '-0', '-', '00000000000000000000'))}{value}"
    else:
        return chance.choice(("", "+1", "x", "1x", "0x1", "1.5", "--1", "-", "1 ", "９"))
    return str(value)


def number_of(text):
    """The number that a text is, by the rule: digits after a `-` or not, of 64 bits, in at most 20 characters."""
    digits = text[1:] if text.startswith("-") else text
    if not (1 <= len(text) <= 20 and digits.isascii() and digits.isdigit()):
        return None
    value = int(text)
    return value if -(2**63) <= value < 2**63 else None


def call(chance, text):
    """A `call`, and its reply."""
    known = [it for it in NAMES if text.knows(it)]
    name = chance.choice(known if known and chance.random() < 0.85 else NAMES + ("absent", "2x", "", "a-b"))
    method = "0" if chance.random() < 0.85 else chance.choice(("0", "00", "1", "01", "000", "-0", "+0", "", "x", "99"))
    first, second = number_text(chance), number_text(chance)
    line = f"call {name} {method} {first} {second}"
    if chance.random() < 0.03:
        line = chance.choice((line.replace("call", "Call"), line.replace(" ", "  ", 1), f"{line} ", f" {line}", line.replace(" ", "\t", 1)))
        return line, BAD
    a, b = number_of(first), number_of(second)
    if name in ("2x", "", "a-b") or method not in ("0", "00") or a is None or b is None:
        return line, BAD
    answer = min(a, b)
    if not text.knows(name):
        return line, text.fault(len("println(") + 1, "UnknownFunction")
    told = f"{text.printed}{text.value(name, answer)}\n"
    return line, f"reply {len(told.encode())}\n{told}"


def request(chance, text):
    """A request, and its reply. An addition that is accepted changes the text."""
    kind = chance.random()
    if kind < 0.35:
        line, meaning = definition(chance, text)
        if len(meaning) == 2:
            return f"add {line}", text.fault(*meaning)
        text.methods[meaning[:2]] = meaning[2]
        text.lines += 1
        return f"add {line}", "added\n"
    if kind < 0.4:
        number = chance.randrange(100)
        text.printed += f"{number}\n"
        text.lines += 1
        return f"add println({number})", "added\n"
    if kind < 0.43:
        text.lines += 1
        return "add ", "added\n"
    if kind < 0.48:
        return chance.choice(("", "add", "stop", "call", "%%session", "adds f(x) = 1", "f(x) = 1", "callf 0 1 1")), BAD
    return call(chance, text)


def session(chance):
    """The source of a session, and what is written."""
    text, lines, replies = Text(), [], []
    for _ in range(chance.randrange(4)):
        line, meaning = definition(chance, text)
        if len(meaning) == 3:
            text.methods[meaning[:2]] = meaning[2]
            text.lines += 1
            lines.append(line)
    lines.append("%%session")
    for _ in range(chance.randrange(12)):
        line, reply = request(chance, text)
        lines.append(line)
        replies.append(reply)
    source = "\n".join(lines)
    # After the last newline an empty line is none.
    return source + ("\n" if lines[-1] == "" or chance.random() < 0.7 else ""), "".join(replies), len(replies)


def differs(number):
    """Whether a session is answered otherwise than by the reference, and how many requests it has."""
    source, due, count = session(random.Random(number))
    ran = subprocess.run([PROGRAM], input=source.encode(), capture_output=True, check=False)
    if (ran.returncode, ran.stdout) == (0, due.encode()):
        return 0, count
    print(f"session {number}: status {ran.returncode}\n{source}\n---- due\n{due}---- written\n{ran.stdout.decode(errors='replace')}", flush=True)
    return 1, count


def main():
    count = int(sys.argv[1]) if len(sys.argv) > 1 else 5000
    first = int(sys.argv[2]) if len(sys.argv) > 2 else 1
    with ThreadPoolExecutor(os.cpu_count()) as pool:
        found = list(pool.map(differs, range(first, first + count)))
    wrong = sum(it for it, _ in found)
    print(f"{count} sessions, {sum(it for _, it in found)} requests, {wrong} differences")
    return 1 if wrong else 0


if __name__ == "__main__":
    sys.exit(main())
