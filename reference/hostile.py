#!/usr/bin/env python3
"""Attacks the built program from outside: with deep texts, deep values, inputs made by chance and devices that fail.

    reference/hostile.py                        all parts, with 100,000 inputs each of the last two, which takes long
    reference/hostile.py open deep rows devices these parts
    reference/hostile.py random 5000 7          5,000 inputs made by chance, from the seed 7
    reference/hostile.py changed 5000 7         5,000 scripts with changes
    reference/hostile.py replay histories 5000  histories for `replay`: known ones, and those of runs with changes
    SECONDS=600 reference/hostile.py random     as many as there is time for
    COMMANDS=replay reference/hostile.py random changed    inputs that are made for these commands alone
    JL=FILE reference/hostile.py                with another program than crates/jl_main/out/jl_main

A run must end by itself, with a status that its command has and a text of the form that README.md and docs/LANGUAGE.md specify, and it
must write nothing to standard error. Where the right answer is known beforehand, it is compared. Inputs made by chance, and scripts with
changes, must besides take less than a second of a processor and 500 MB of memory. `check` and `run` must agree on what is a program, and
what no UTF-8 is must be answered at the byte that Python's own decoder names. The last line of each part counts runs and differences; the
status is 0 only where there is no difference.
"""

import multiprocessing
import os
import random
import re
import resource
import signal
import sys
import tempfile
import time

import explains
import random_scripts

HERE = os.path.dirname(os.path.abspath(__file__))
PROGRAM = os.environ.get("JL") or os.path.join(HERE, "..", "crates", "jl_main", "out", "jl_main")
# The commands that take the inputs which are made by chance.
COMMANDS = os.environ.get("COMMANDS", "check run trace replay").split()
MOST_BYTES = 1_048_576
# The first line of a history.
FIRST_LINE = re.compile(rb"^%%history [12]$", re.M)
# A run of a script that is made by chance.
MOST_SECONDS, MOST_MEGABYTES = 1.0, 500
# The seconds after which a run is killed.
LONGEST = 120
FAULTS = (
    "BadUtf8 BadCharacter NumberTooLarge OpenString OpenComment Syntax BadType TooDeep UnknownName UnknownFunction UnknownType Rebound "
    "DuplicateType WrongParameterCount SuperNotAbstract VariablePlace TypeLimit BoundsCrossed BoundBroken TooMany DuplicateField "
    "UnusedVariable TooManyParameters TooManySites StaticParameterUse NameClash TooManyArguments"
).split(" ")
# The texts of the outcomes that a run can end with. A name is any text without a blank, and a type any text.
OUTCOMES = re.compile(
    r"ERROR: (MethodError: no method matching \S+\(.*\) in world \d+|MethodError: \S+\(.*\) is ambiguous between definitions \d+ and \d+"
    r"|MethodError: no method matching \S.*\(.*\)|DivideError: integer division error|TypeError: field \S+ of .+ got .+"
    r"|TypeError: .+ breaks a declared bound|FieldError: .+ has no field \S+|BoundsError: .+ has no part \d+"
    r"|TypeError: non-boolean \(.+\) used in boolean context|NotTask: .+|TaskFailedException: task \d+|FuelSpent: \d+ calls"
    r"|NoSuchMethod: \S+|StackOverflowError: 100000 open calls|WorldLimit: 65535 worlds|TaskLimit: 4096 tasks|TypeLimit|ValueLimit)"
)


class Ran:
    """What a run wrote, its status (less than 0: the signal that ended it), its processor seconds and its megabytes."""

    def __init__(self, out, err, status, used):
        self.out, self.err, self.status = out, err, os.waitstatus_to_exitcode(status)
        self.seconds, self.megabytes = used.ru_utime + used.ru_stime, used.ru_maxrss // 1024


def ask(words, text, stack=None):
    """Runs the program with these words over this text, on a stack of so many bytes."""
    files = [os.memfd_create(name) for name in ("in", "out", "err")]
    os.write(files[0], text)
    os.lseek(files[0], 0, os.SEEK_SET)
    ran = ask_over(words, *files, stack)
    for file in files:
        os.close(file)
    return ran


def ask_over(words, given, out, err, stack=None):
    """Runs the program over these files, which may be None where a file is closed."""
    actions = []
    for number, file in enumerate((given, out, err)):
        actions.append((os.POSIX_SPAWN_CLOSE, number) if file is None else (os.POSIX_SPAWN_DUP2, file, number))
    before = resource.getrlimit(resource.RLIMIT_STACK)
    if stack:
        resource.setrlimit(resource.RLIMIT_STACK, (stack, before[1]))
    child = os.posix_spawn(PROGRAM, [PROGRAM, *words], os.environ, file_actions=actions, setsigdef=[signal.SIGPIPE])
    resource.setrlimit(resource.RLIMIT_STACK, before)
    signal.signal(signal.SIGALRM, lambda *_: os.kill(child, signal.SIGKILL))
    signal.alarm(LONGEST)
    _, status, used = os.wait4(child, 0)
    signal.alarm(0)
    return Ran(content(out), content(err), status, used)


def content(file):
    """The content of a file from its beginning; nothing of what is none."""
    try:
        return os.pread(file, os.fstat(file).st_size, 0)
    except (OSError, TypeError):
        return b""


def fault_in(line, text):
    """What is wrong with a fault line for this text."""
    if line == b"ERROR: SourceTooLong\n":
        return None if len(text) > MOST_BYTES else "a short source is too long"
    if len(text) > MOST_BYTES:
        return "a source that is too long is read"
    parts = re.fullmatch(rb"ERROR: line (\d+), column (\d+): (\w+)\n", line)
    if not parts or parts[3].decode() not in FAULTS:
        return "no fault line"
    at = (int(parts[1]), int(parts[2]))
    try:
        lines = text.decode().split("\n")
    except UnicodeDecodeError as wrong:
        before = text[: wrong.start].decode().split("\n")
        due = (len(before), len(before[-1]) + 1)
        return None if parts[3] == b"BadUtf8" and at == due else f"BadUtf8 at {due} is due"
    if parts[3] == b"BadUtf8":
        return "good text is called BadUtf8"
    if not (1 <= at[0] <= len(lines) and 1 <= at[1] <= len(lines[at[0] - 1]) + 1):
        return "a place outside the text"
    return None


def script_before(text):
    """What is in front of the first line that begins a history: the script that `replay` reads."""
    found = FIRST_LINE.search(text)
    return text[: found.start()] if found else text


def wrong_with(words, text, ran):
    """What is wrong with an answer, or None."""
    if ran.status < 0:
        return f"signal {-ran.status}"
    if ran.err:
        return "it wrote to standard error"
    command, lines = words[0], ran.out.count(b"\n")
    if ran.status == 3:
        if command == "replay" and ran.out in (b"ERROR: NoHistory\n", b"ERROR: SourceTooLong\n"):
            return None
        return fault_in(ran.out, script_before(text) if command == "replay" else text)
    if command == "check":
        good = ran.status == 0 and re.fullmatch(rb"ok: \d+ types, \d+ definitions\n", ran.out)
        return None if good else "no answer of check"
    if command == "replay":
        forms = {0: rb"legal: \d+ events\n", 7: rb"illegal: (line \d+: BadText|event \d+: [A-Za-z]+)\n"}
        return None if ran.status in forms and re.fullmatch(forms[ran.status], ran.out) else "no verdict"
    if command == "trace":
        return wrong_with_trace(ran)
    if ran.status == 0:
        return None
    if ran.status != 1:
        return f"status {ran.status}"
    last = ran.out.rstrip(b"\n").rpartition(b"\n")[2].decode(errors="replace")
    return None if lines and OUTCOMES.fullmatch(last[last.rfind("ERROR: ") :]) else "no outcome"


def wrong_with_trace(ran):
    """What is wrong with the history of a run: an event or an item of a record that is not true."""
    if ran.status not in (0, 1):
        return f"status {ran.status}"
    try:
        history = explains.History(explains.parted(ran.out)[1].decode().split("\n")[:-1])
        for number, task in history.tasks.items():
            explains.test_items(history, number, task)
        failed = history.tasks[0].outcome.startswith("error ")
        explains.ask(failed == (ran.status == 1), "the status is not that of the root")
    except (explains.Fault, ValueError, KeyError, IndexError, AttributeError) as fault:
        return f"history: {fault!r}"
    return None


class Part:
    """Counts the runs and the differences of a part."""

    def __init__(self, name):
        self.name, self.runs, self.differ, self.slowest, self.largest = name, 0, 0, 0.0, 0

    def count(self, case, wrong, ran=None):
        self.runs += 1
        if ran:
            self.slowest, self.largest = max(self.slowest, ran.seconds), max(self.largest, ran.megabytes)
        if wrong:
            self.differ += 1
            print(f"{self.name}: {case}: {wrong}", flush=True)

    def end(self, more=""):
        print(
            f"{self.name}: {self.runs} runs, {self.differ} differences; the slowest took {self.slowest:.2f} seconds of a processor, "
            f"the largest {self.largest} MB{more}",
            flush=True,
        )
        return self.differ


def compare(part, case, words, text, due, stack=None):
    """Compares an answer with the one that is due: a text and a status."""
    ran = ask(words, text, stack)
    wrong = None
    if ran.err:
        wrong = f"it wrote to standard error: {ran.err[:300]!r}"
    elif (ran.out.decode(errors="replace"), ran.status) != due:
        wrong = f"status {ran.status} and {ran.out[:100]!r}, and {due[1]} and {due[0][:100]!r} is due"
    part.count(case, wrong, ran)


def fault(line, column, name):
    return f"ERROR: line {line}, column {column}: {name}\n", 3


def filling(form, first="", last="", most=1_000_000):
    """A source that is full of a form, which comes at most so often, and how often it does."""
    room = MOST_BYTES - len((first + last).encode())
    count = min(most, room // len(form.encode()))
    return first + form * count + last, count


# Forms that are opened and never closed: the fault is at the end of the text.
OPEN = {
    "parentheses": ("(", "", "Syntax"),
    "not": ("!", "", "Syntax"),
    "minus": ("-", "", "Syntax"),
    "minus and blank": ("- ", "", "Syntax"),
    "calls": ("f(", "", "Syntax"),
    "tuples": ("(1,", "", "Syntax"),
    "braces of types": ("A{", "1 isa ", "BadType"),
    "braces of tuple types": ("Tuple{", "1 isa ", "BadType"),
    "parentheses of types": ("(", "1 isa ", "BadType"),
    "braces of constructors": ("A{", "", "BadType"),
    "begin": ("begin ", "", "Syntax"),
    "begin and newline": ("begin\n", "", "Syntax"),
    "if": ("if ", "", "Syntax"),
    "if with a branch": ("if x;", "", "Syntax"),
    "conditionals": ("x ? ", "", "Syntax"),
    "second branches": ("x ? y : ", "", "Syntax"),
    "evaluated functions": ("@eval function f()\n", "", "Syntax"),
    "evaluated blocks": ("@eval begin ", "", "Syntax"),
    "quoted blocks": ("eval(quote ", "", "Syntax"),
    "evaluated expressions": ("@eval ", "", "Syntax"),
    "spawns": ("Threads.@spawn ", "", "Syntax"),
    "fetches": ("fetch(", "", "Syntax"),
    "prints": ("println(", "", "Syntax"),
    "latest": ("Base.invokelatest(f, ", "", "Syntax"),
    "braces of deletions": ("Tuple{", "Base.delete_method(which(f, ", "BadType"),
    "sums": ("1 + ", "", "Syntax"),
    "both": ("x && ", "", "Syntax"),
    "either": ("x || ", "", "Syntax"),
    "bounds": ("A{<:", "f(x) where T<:", "BadType"),
}
# Texts whose fault is elsewhere, or that have none: the form, what comes before and after, and the answer by how often it comes.
FULL = {
    "comments": ("#=", "", "", lambda n: fault(1, 1, "OpenComment")),
    "comments that end": ("#==#", "", "", lambda n: ("ok: 0 types, 0 definitions\n", 0)),
    "braces of signatures": ("A{", "f(x::", "", lambda n: fault(1, 4, "Syntax")),
    "functions": ("function f() ", "", "", lambda n: fault(1, 14, "Syntax")),
    "strings": ('"', "println(", "", lambda n: fault(1, 11, "Syntax")),
    "one string": ("a", 'println("', "", lambda n: fault(1, 9, "OpenString")),
    "braces": ("{", "1 isa ", "", lambda n: fault(1, 7, "BadType")),
    "braces of a name": ("{", "A", "", lambda n: fault(1, 3, "BadType")),
    "closed parentheses": (")", "", "", lambda n: fault(1, 1, "Syntax")),
    "closed braces": ("}", "", "", lambda n: fault(1, 1, "Syntax")),
    "ends": ("end ", "", "", lambda n: fault(1, 1, "Syntax")),
    "brackets": ("[", "x", "", lambda n: fault(1, 3, "Syntax")),
    "not true": ("!", "", "true", lambda n: fault(1, 1, "TooDeep")),
    "minus one": ("-", "", "1", lambda n: fault(1, 1, "TooDeep")),
    "minus a name": ("- ", "", "x", lambda n: fault(1, 1, "TooDeep")),
    "a long sum": ("1 + ", "", "1", lambda n: fault(1, 1, "TooDeep")),
    "a long chain of both": ("true && ", "", "true", lambda n: fault(1, 1, "TooDeep")),
    "a long chain of either": ("true || ", "", "true", lambda n: fault(1, 1, "TooDeep")),
    "fields of fields": (".a", "x", "", lambda n: fault(1, 1, "TooDeep")),
    "parts of parts": ("[1]", "x", "", lambda n: fault(1, 1, "TooDeep")),
    "second branches that end": ("x ? y : ", "", "1", lambda n: fault(1, 1, "TooDeep")),
    "elseif": ("elseif x;", "if x;", " end", lambda n: fault(1, 1, "TooDeep")),
    "bindings": ("x = ", "", "", lambda n: fault(1, 7, "Syntax")),
    "separators": (";", "", "", lambda n: ("ok: 0 types, 0 definitions\n", 0)),
    "where": ("where {T} ", "f(x) ", "= 1", lambda n: fault(1, 16, "Syntax")),
}


def closed(before, inner, behind, count):
    return before * count + inner + behind * count


# Forms that are opened and closed, as often as the source has room: an item that is too deep.
CLOSED = {
    "parentheses": ("(", "1", ")"),
    "tuples": ("(1,", "1", ")"),
    "calls": ("f(", "1", ")"),
    "begin": ("begin ", "1", " end"),
    "if": ("if true; ", "1", " end"),
    "conditions": ("if ", "true", "; 1 end"),
    "tuple types": ("1 isa Tuple{", "Int64", "}"),
    "parentheses of types": ("(", "Int64", ")"),
    "evaluated blocks": ("@eval begin ", "1", " end"),
    "spawns": ("(Threads.@spawn ", "1", ")"),
}


def end_of(text):
    """The place of the end of a text."""
    lines = text.split("\n")
    return len(lines), len(lines[-1]) + 1


def test_open(part):
    """Forms that are open, as many as a source has room for, at most 1,000,000 of each kind."""
    for name, (form, first, kind) in OPEN.items():
        text, _ = filling(form, first)
        for command in ("check", "run"):
            compare(part, f"{command}, open {name}", [command], text.encode(), fault(*end_of(text), kind))
    for name, (form, first, last, due) in FULL.items():
        text, count = filling(form, first, last)
        compare(part, f"full of {name}", ["check"], text.encode(), due(count))
    for name, (before, inner, behind) in CLOSED.items():
        first = "1 isa " if "types" in name else ""
        before = before.removeprefix(first)
        text = first + closed(before, inner, behind, (MOST_BYTES - 20) // len(before + behind))
        compare(part, f"closed {name}", ["check"], text.encode(), fault(1, 1, "TooDeep"))


# A value of this depth is built, and one that is one deeper is refused.
DEPTH = 2_000
DEEP = (
    "struct P; a end\nstruct Q; a; b end\nstruct R{T}; a::T end\n"
    "d(n, x) = n == 0 ? x : d(n - 1, P(x))\n"
    "e(n, x) = n == 0 ? x : e(n - 1, Q(x, n))\n"
    "c(n, x) = n == 0 ? x : c(n - 1, Q(n, x))\n"
)


def shown(depth):
    return "P(" * (depth - 1) + "1" + ")" * (depth - 1)


def right(depth):
    """Structs to the right."""
    return "".join(f"Q({n}, " for n in range(1, depth)) + "0" + ")" * (depth - 1)


# What is done with a value that is as deep as may be, and what is written.
DEEP_CASES = {
    "built and dropped": ("d({n}, 1)\n", ""),
    "kept": ("x = d({n}, 1)\n", ""),
    "printed": ("println(d({n}, 1))\n", shown(DEPTH) + "\n"),
    "printed, to the right": ("println(c({n}, 0))\n", right(DEPTH) + "\n"),
    "compared": ("x = d({n}, 1)\nprintln(x === d({n}, 1))\nprintln(x === d({n}, 2))\nprintln(x !== x)\n", "true\nfalse\nfalse\n"),
    "compared, to the left": ("println(e({n}, 1) === e({n}, 1))\n", "true\n"),
    "given to a method": ("f(x::P) = x\nx = f(d({n}, 1))\nprintln(f(x).a === d({n} - 1, 1))\n", "true\n"),
    "asked for its type": ("println(d({n}, 1) isa P, d({n}, 1) isa Q)\n", "truefalse\n"),
    "one too deep": ("d({n} + 1, 1)\n", "ERROR: ValueLimit\n"),
    "one too deep, in a tuple": ("(d({n}, 1),)\n", "ERROR: ValueLimit\n"),
    "in a failing call": ("f(x::Int64) = x\nf(d({n}, 1))\n", "ERROR: MethodError: no method matching f(::P) in world 18\n"),
}


def test_deep(part):
    """Values that are as deep as may be, and texts that are, by the root and by a task, on stacks of 8 MB and of 1 MB."""
    for stack in (8 << 20, 1 << 20):
        for name, (body, due) in DEEP_CASES.items():
            body = body.replace("{n}", str(DEPTH - 1))
            status = 1 if due.startswith("ERROR") else 0
            case = f"{name}, a stack of {stack >> 10} KB"
            compare(part, case, ["run"], (DEEP + body).encode(), (due, status), stack)
            # The same by a task, whose text has no error line.
            lines = "".join(f"    {line}\n" for line in body.splitlines() if not line.startswith("f(x"))
            methods = "".join(f"{line}\n" for line in body.splitlines() if line.startswith("f(x"))
            task = f"{methods}function work()\n{lines}    0\nend\nt = Threads.@spawn work()\n"
            if not status:
                task += "println(fetch(t))\n"
                compare(part, case + ", in a task", ["run", "--threads", "8"], (DEEP + task).encode(), ("0\n" + due, 0), stack)
            else:
                task += "fetch(t)\n"
                compare(part, case + ", in a task", ["run", "--threads", "8"], (DEEP + task).encode(), ("ERROR: TaskFailedException: task 1\n", 1), stack)
    text = DEEP + f"x = d({DEPTH - 1}, 1)\n" + "".join(f"t{i} = Threads.@spawn d({DEPTH - 1}, x.a)\n" for i in range(8))
    compare(part, "given to tasks", ["run", "--threads", "8"], text.encode(), ("", 0), 1 << 20)
    text = DEEP + f"t = Threads.@spawn d({DEPTH - 1}, 1)\nprintln(fetch(t) === d({DEPTH - 1}, 1))\n"
    compare(part, "handed out by a task", ["run"], text.encode(), ("true\n", 0), 1 << 20)
    text = DEEP + "g(n, x) = n == 0 ? x : g(n - 1, Q(x, x))\nx = g(18, 1)\ny = g(18, 1)\nprintln(x === y)\nprintln(x)\n"
    big = "1"
    for _ in range(18):
        big = f"Q({big}, {big})"
    compare(part, "524,287 nodes", ["run"], text.encode(), (f"true\n{big}\n", 0))
    text = "f(x) = f(x) + 1\nt = Threads.@spawn f(1)\nfetch(t)\n"
    compare(part, "100,000 open calls in a task", ["run"], text.encode(), ("ERROR: TaskFailedException: task 1\n", 1), 1 << 20)


FIRST = "f(x) = x + 1\nprintln(f(2))\n"
HISTORY = (
    '%%history 1\nbegin 10000000\ndef 0 14\nkey 0 f Tuple{Int64}\nfill 0 14 15\nkey 1 + Tuple{Int64, Int64}\nfill 1 0 14\ndone 0 2 3\n'
    'look 14 1\ndef 14 1\nlook 15 2\noutput "3\\n"\noutcome value nothing\nend 7\n'
)
ROWS = [
    ("check", " " * MOST_BYTES, ("ok: 0 types, 0 definitions\n", 0)),
    ("check", " " * (MOST_BYTES + 1), ("ERROR: SourceTooLong\n", 3)),
    ("check", "(" * MOST_BYTES, fault(1, 1_048_577, "Syntax")),
    ("check", closed("(", "1", ")", 499), ("ok: 0 types, 0 definitions\n", 0)),
    ("check", closed("(", "1", ")", 500), fault(1, 1, "TooDeep")),
    ("check", "!" * 1_000_000 + "true", fault(1, 1, "TooDeep")),
    ("check", "#= #= =#", fault(1, 1, "OpenComment")),
    ("check", "f() = 1\n" * 4_096, ("ok: 0 types, 4096 definitions\n", 0)),
    ("check", "f() = 1\n" * 4_097, fault(4_097, 1, "TooManySites")),
]


def bad(line):
    """A history whose first line that is not of the form is this one."""
    return f"illegal: line {line}: BadText\n", 7


def illegal(event, cause):
    return f"illegal: event {event}: {cause}\n", 7


# Histories of the first script, for `replay`.
REPLAY_ROWS = [
    ("", "", ("legal: 7 events\n", 0)),
    ("fill 0 14 15", "fill 0 14 14", illegal(3, "FillChoice")),
    ('output "3\\n"', 'output "4\\n"', illegal(6, "RunDiffers")),
    ("end 7", "end 8", bad(14)),
    ("key 0 f Tuple{Int64}", "key 0 q Tuple{Int64}", illegal(2, "KeyUnknown")),
    ("fill 0 14 15", "fill 0 14 16", illegal(3, "FillWorld")),
    ("def 0 14", "def 1 14", illegal(1, "NotRunning")),
    ("look 14 1", "look 15 1", illegal(6, "ItemFalse")),
    ("done 0 2 3", "done 0 3 3", illegal(6, "RunDiffers")),
    ("done 0 2 3", "done 0 2 18446744073709551615", bad(12)),
    ("done 0 2 3", "done 0 2 18446744073709551616", bad(8)),
    ("done 0 2 3", "done 0 4294967295 3", illegal(6, "RunDiffers")),
    ("done 0 2 3", "done 0 4294967296 3", bad(8)),
    ("def 0 14", "def 0 014", bad(3)),
    ("def 0 14", "def +0 14", bad(3)),
    ("def 0 14", "def  0 14", bad(3)),
    ("def 0 14", "def 0 14 ", bad(3)),
    ("def 0 14", "def 0 14\r", bad(3)),
    ("def 0 14", "def 0 15", illegal(1, "Site")),
    ("def 0 14", "def 0 3", illegal(1, "Site")),
    ("def 0 14", "def 4294967295 14", illegal(1, "NotRunning")),
    ("begin 10000000", "begin 2", ("legal: 7 events\n", 0)),
    ("begin 10000000", "begin 1", illegal(6, "RunDiffers")),
    ("begin 10000000", "begin 1000000001", bad(2)),
    ("key 0 f Tuple{Int64}", "key 0 f ", bad(4)),
    ("key 0 f Tuple{Int64}", "key 0 f", bad(4)),
    ("key 0 f Tuple{Int64}", "key 0 f Tuple{Int}", illegal(2, "KeyUnknown")),
    ("key 0 f Tuple{Int64}", "key 0 f Tuple{Int64} ", illegal(2, "KeyUnknown")),
    ("key 0 f Tuple{Int64}", "key 0 f Tuple{Int64}\r", illegal(2, "KeyUnknown")),
    ("key 0 f", "key 1 f", illegal(2, "KeyOrder")),
    ("key 1 + Tuple{Int64, Int64}", "key 1 f Tuple{Int64}", illegal(4, "KeyOrder")),
    ("fill 0 14 15", "fill 7 14 15", illegal(3, "FillKey")),
    ("fill 0 14 15", "fill 0 14 0", illegal(3, "FillWorld")),
    ("fill 0 14 15", "fill 0 14 4294967295", illegal(3, "FillWorld")),
    ("fill 0 14 15", "fill 0 4294967295 15", illegal(3, "FillChoice")),
    ("look 15 2", "look 15 6", ("legal: 7 events\n", 0)),
    ("look 15 2", "look 15 7", illegal(6, "ItemFalse")),
    ("look 15 2", "look 14 1", illegal(6, "ItemFalse")),
    ("def 14 1\n", "", bad(11)),
    ('output "3\\n"', 'output "3\r"', bad(12)),
    ('output "3\\n"', 'output "3\\r"', illegal(6, "RunDiffers")),
    ('output "3\\n"', 'output "3\\t"', bad(12)),
    ('output "3\\n"', 'output "3\\n', bad(12)),
    ('output "3\\n"', 'output "3\\n\0"', illegal(6, "RunDiffers")),
    ("outcome value nothing", "outcome value ", bad(13)),
    ("outcome value nothing", "outcome error nothing", illegal(6, "RunDiffers")),
    ("end 7", "end 7\nend 7", bad(15)),
    ("end 7\n", "end 7", bad(14)),
    ("end 7", "end 4294967303", bad(14)),
]


# A script that deletes, and histories of it.
DELETES = "f() = 1\nBase.delete_method(which(f, Tuple{}))\nBase.delete_method(which(f, Tuple{}))\n"
DELETE_HISTORY = (
    '%%history 2\nbegin 10000000\ndef 0 14\ndel 0 0\ndone 0 0 6\nlook 14 1\ndef 14 1\nlook 15 2\ndel 0 2\nlook 16 3\nabsent 1 3\n'
    'output ""\noutcome error NoSuchMethod: f\nend 4\n'
)
DELETE_ROWS = [
    ("", "", ("legal: 4 events\n", 0)),
    ("%%history 2", "%%history 1", bad(1)),
    ("del 0 0", "del 1 0", illegal(2, "NotRunning")),
    ("del 0 0", "del 0 2", illegal(2, "Site")),
    ("del 0 0", "del 0 1", illegal(3, "ItemFalse")),
    ("def 0 14\ndel 0 0", "del 0 0\ndef 0 14", illegal(1, "NoDefinition")),
    ("del 0 0", "del 0 0\ndel 0 0", bad(15)),
    ("del 0 0", "del 0 4294967295", illegal(2, "Site")),
    ("del 0 0", "del 0 4294967296", bad(4)),
    ("del 0 0", "del 0", bad(4)),
    ("del 0 2", "del 0 1", illegal(3, "ItemFalse")),
    ("del 0 2", "del 0 02", bad(9)),
    ("absent 1 3", "absent 0 3", illegal(3, "RunDiffers")),
    ("absent 1 3", "absent 2 3", illegal(3, "ItemFalse")),
    ("absent 1 3", "absent 1 4", illegal(3, "ItemFalse")),
    ("look 16 3\nabsent 1 3", "look 15 2\nabsent 1 3", illegal(3, "ItemFalse")),
    ("absent 1 3", "worldfull 3", illegal(3, "ItemFalse")),
    ("absent 1 3", "absent 1", bad(11)),
    ("NoSuchMethod: f", "NoSuchMethod: g", illegal(3, "RunDiffers")),
]


def test_rows(part):
    """Sources at the limits and one past them, whose answers are known."""
    for command, text, due in ROWS:
        compare(part, f"{command} {text[:20]!r}", [command], text.encode(), due)
    compare(part, "trace of the first script", ["trace"], FIRST.encode(), ("3\n" + HISTORY, 0))
    compare(part, "trace of a script that deletes", ["trace"], DELETES.encode(), ("ERROR: NoSuchMethod: f\n" + DELETE_HISTORY, 1))


def test_replay(part):
    """Histories that are not legal, and all cuts of one that is."""
    for old, new, due in REPLAY_ROWS:
        compare(part, f"replay with {new!r}", ["replay"], (FIRST + HISTORY.replace(old, new, 1) if old else FIRST + HISTORY).encode(), due)
    for old, new, due in DELETE_ROWS:
        compare(part, f"replay with {new!r}", ["replay"], (DELETES + DELETE_HISTORY.replace(old, new, 1) if old else DELETES + DELETE_HISTORY).encode(), due)
    compare(part, "replay of the other version", ["replay"], (FIRST + HISTORY.replace("%%history 1", "%%history 2")).encode(), bad(1))
    for first in ("", "%%history 1\r\n", "%%history 3\n", " %%history 2\n"):
        compare(part, f"replay without a history, with {first!r}", ["replay"], (FIRST + first).encode(), ("ERROR: NoHistory\n", 3))
    compare(part, "replay of a history of another script", ["replay"], HISTORY.encode(), illegal(1, "Site"))
    compare(part, "replay of two histories", ["replay"], (FIRST + "%%history 1\n" + HISTORY).encode(), bad(2))
    for length in range(len("%%history 1"), len(HISTORY)):
        # The line that is cut, or that is missing after a newline.
        line = HISTORY[:length].count("\n") + 1
        compare(part, f"replay of the first {length} bytes", ["replay"], (FIRST + HISTORY[:length]).encode(), bad(line))


def test_devices(part):
    """Streams of the system that fail: closed ones, a folder, a full device, a pipe that nobody reads."""
    text = b"println(34)\n"
    with tempfile.TemporaryFile() as given, tempfile.TemporaryFile() as out, tempfile.TemporaryFile() as err:
        given.write(text)

        def over(case, words, source, sink, due):
            given.seek(0)
            for file in (out, err):
                file.seek(0)
                file.truncate()
            ran = ask_over(words, source, sink, err.fileno())
            wrong = None if (ran.status, content(out.fileno())) == due and not ran.err else f"status {ran.status}, {ran.out!r}, {ran.err!r}"
            part.count(case, wrong, ran)

        folder = os.open("/", os.O_RDONLY)
        full = os.open("/dev/full", os.O_WRONLY)
        zero = os.open("/dev/zero", os.O_RDONLY)
        for words in (["run"], ["trace"], ["check"]):
            over(f"{words[0]}, closed input", words, None, out.fileno(), (4, b""))
            over(f"{words[0]}, a folder as input", words, folder, out.fileno(), (4, b""))
            over(f"{words[0]}, an input without an end", words, zero, out.fileno(), (3, b"ERROR: SourceTooLong\n"))
            over(f"{words[0]}, closed output", words, given.fileno(), None, (5, b""))
            over(f"{words[0]}, a full output", words, given.fileno(), full, (5, b""))
            reading, writing = os.pipe()
            os.close(reading)
            over(f"{words[0]}, a pipe that nobody reads", words, given.fileno(), writing, (5, b""))
            os.close(writing)
        over("run of nothing, closed output", ["run"], os.open("/dev/null", os.O_RDONLY), None, (0, b""))
        over("the usage line, a full output", [], given.fileno(), full, (5, b""))
        over("gen, closed input", ["gen", "0"], None, full, (5, b""))
        # Of a pipe each read may give a part.
        reading, writing = os.pipe()
        if os.fork() == 0:
            os.close(reading)
            for byte in text:
                os.write(writing, bytes([byte]))
                os.sched_yield()
            os._exit(0)
        os.close(writing)
        over("a pipe that gives a byte at a time", ["run"], reading, out.fileno(), (0, b"34\n"))
        os.wait()


def too_much(words, text, ran):
    """Whether a run took too much. What took too long is run again: a machine that pauses charges that to whoever runs."""
    if ran.seconds > MOST_SECONDS:
        ran.seconds = min(ran.seconds, ask(words, text).seconds)
    if ran.seconds > MOST_SECONDS or ran.megabytes > MOST_MEGABYTES:
        return f"{ran.seconds:.2f} seconds and {ran.megabytes} MB"
    return None


def asked_of(text, number):
    """The commands that a text is given to, each with what it reads. `replay` reads it without a history, before that of another script,
    or as the history of the first script."""
    limits = ["--fuel", "300", "--threads", ("1", "2", "4", "8", "64")[number % 5]]
    heads = ((FIRST, "%%history 1\n"), (DELETES, "%%history 2\n"))
    judged = (text, text + b"\n" + HISTORY.encode(), "".join(heads[number % 2]).encode() + text)[number % 3]
    asked = [(["check"], text), (["run", *limits], text), (["replay"], judged)]
    if number % 4 == 0:
        asked.append((["trace", *limits], text))
    return [(words, given) for words, given in asked if words[0] in COMMANDS]


def ask_all(text, number):
    """What is wrong with the answers to a text of some commands, and how long and how large they were."""
    answers, found = {}, []
    for command, given in asked_of(text, number):
        ran = answers[command[0]] = ask(command, given)
        wrong = wrong_with(command, given, ran) or too_much(command, given, ran)
        found.append((command, wrong, ran))
    check, run = answers.get("check"), answers.get("run")
    if check and run and ((check.status == 3) != (run.status == 3) or (check.status == 3 and check.out != run.out)):
        found.append((["check", "and", "run"], "they do not agree", run))
    return text, found


def ask_history(chance, text, number):
    """The answer of `replay` to a script with the history of its run, changed but for every fourth one, which must be legal."""
    script = text if text.endswith(b"\n") else text + b"\n"
    trace = ask(["trace", "--fuel", "300", "--threads", ("1", "2", "4", "8", "64")[number % 5]], script)
    found = trace.status in (0, 1)
    first, _, history = explains.parted(trace.out)[1].partition(b"\n") if found else (b"", b"", b"")
    if found and number % 4:
        for _ in range(chance.randrange(1, 4)):
            history = random_scripts.change(chance, history, [history])
    given = script + first + b"\n" + history if found else script
    ran = ask(["replay"], given)
    wrong = wrong_with(["replay"], given, ran)
    # A line of the script itself may be the first of a history.
    parted = FIRST_LINE.search(script)
    if not wrong and not parted and (ran.status == 3) == found:
        wrong = f"status {ran.status}"
    if found and not parted and number % 4 == 0 and ran.out != b"legal: " + history.rstrip(b"\n").rpartition(b"end ")[2] + b" events\n":
        wrong = "a history that was written by the program is not legal"
    return given, [(["replay"], wrong or too_much(["replay"], given, ran), ran)]


def work(job):
    """A piece of the inputs of a part, from a seed of its own."""
    name, seed, first, count = job
    chance = random.Random(f"{name} {seed} {first}")
    scripts = random_scripts.corpus()
    wrongs, statuses, slowest, largest, runs = [], {}, 0.0, 0, 0
    for number in range(first, first + count):
        if name == "histories":
            made = chance.choice((chance.choice(scripts), random_scripts.random_script(chance)))
            text, found = ask_history(chance, made, number)
        else:
            made = random_scripts.random_input(chance) if name == "random" else random_scripts.changed_input(chance, scripts)
            text, found = ask_all(made, number)
        for words, wrong, ran in found:
            runs, slowest, largest = runs + 1, max(slowest, ran.seconds), max(largest, ran.megabytes)
            statuses[words[0], ran.status] = statuses.get((words[0], ran.status), 0) + 1
            if wrong:
                wrongs.append((words, text, wrong))
    return wrongs, statuses, slowest, largest, runs


def test_many(part, name, count, seed):
    """Inputs that are made by chance, in pieces, by as many workers as there are processors."""
    pieces = [(name, seed, first, min(250, count - first)) for first in range(0, count, 250)]
    all_statuses, done, end = {}, 0, time.monotonic() + float(os.environ.get("SECONDS", "inf"))
    with multiprocessing.Pool(int(os.environ.get("JOBS", os.cpu_count()))) as pool:
        for piece, (wrongs, statuses, slowest, largest, runs) in zip(pieces, pool.imap(work, pieces)):
            part.runs, part.differ = part.runs + runs, part.differ + len(wrongs)
            part.slowest, part.largest = max(part.slowest, slowest), max(part.largest, largest)
            for words, text, wrong in wrongs:
                print(f"{name}: {' '.join(words)} over {text!r}: {wrong}", flush=True)
            for key, number in statuses.items():
                all_statuses[key] = all_statuses.get(key, 0) + number
            done += piece[3]
            if time.monotonic() > end:
                break
    by_status = ", ".join(f"{command} {status}: {number}" for (command, status), number in sorted(all_statuses.items()))
    return f"; {done} inputs from the seed {seed}; runs by command and status: {by_status}"


PARTS = {"open": test_open, "deep": test_deep, "rows": test_rows, "devices": test_devices, "replay": test_replay}


def main(words):
    numbers = [int(word) for word in words if word.isdigit()]
    count, seed = [*numbers, *(100_000, 1)[len(numbers) :]][:2]
    names = [word for word in words if not word.isdigit()] or ["open", "deep", "rows", "devices", "random", "changed"]
    unknown = [name for name in names if name not in (*PARTS, "random", "changed", "histories")]
    if unknown:
        sys.exit(f"hostile: there is no part '{unknown[0]}'")
    if not os.path.exists(PROGRAM):
        sys.exit(f"hostile: there is no {PROGRAM}: run ./build first")
    differ = 0
    for name in names:
        part = Part(name)
        more = PARTS[name](part) if name in PARTS else test_many(part, name, count, seed)
        differ += part.end(more or "")
    sys.exit(1 if differ else 0)


if __name__ == "__main__":
    main(sys.argv[1:])
