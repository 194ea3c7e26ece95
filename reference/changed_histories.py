#!/usr/bin/env python3
"""Compares tools/jl_history.py, which has only the rules of docs/HISTORY.md, with what `jl replay` and the runs themselves say.

    reference/changed_histories.py changed 3000 7    3,000 histories with changes, from the seed 7
    reference/changed_histories.py worlds 300 7      300 scripts whose tasks tell the worlds that they run in
    reference/changed_histories.py places 300 7      the places of known scripts, and of 300 more
    JL=FILE reference/changed_histories.py ..        with another program than crates/jl_main/out/jl_main
    JL_SITES=FILE reference/changed_histories.py ..  with another program than crates/jl_sites/out/jl_sites

changed: histories of the examples and of small scripts are changed at one to three places. The reader must answer BadText exactly where
`replay` does, with the same line; and of all others the first cause that the text alone tells must be the one that `replay` names, or none
where it names none or one that takes the script.
worlds: each task of such a script ends in an error that names its world. It must be among those that the reader says, with and without
the script, and the reader with the script must not say more worlds than without.
places: the definitions and spawns that tools/jl_script.py finds in scripts must be those that the program jl_sites finds, which has the
parser of `jl`: the scripts of the examples and of check_cases, and such as those of the part before.
The status is 0 only where there is no difference.
"""

import glob
import os
import random
import re
import subprocess
import sys

HERE = os.path.dirname(os.path.abspath(__file__))
sys.path.insert(0, os.path.join(HERE, "..", "tools"))

import jl_history  # noqa: E402
import jl_script  # noqa: E402
import random_scripts  # noqa: E402

SITES = os.environ.get("JL_SITES") or os.path.join(HERE, "..", "crates", "jl_sites", "out", "jl_sites")
PROGRAM = os.environ.get("JL") or os.path.join(HERE, "..", "crates", "jl_main", "out", "jl_main")
MOST_BYTES = 4000  # a longer history takes long to judge
SCRIPTS = (
    b'println("a\\"b\\\\c\\nd", (1,), (true, nothing))\n',
    b"f(x) = 1\nt = Threads.@spawn f(2)\nu = Threads.@spawn begin @eval f(x) = 3; Base.invokelatest(f, 1) end\nprintln(fetch(t), fetch(u))\ndiv(1, 0)\n",
    b"struct Box{T}; x::T end\ng(b::Box{T}, c) where T = 1\nprintln(g(Box((1, true)), Box(Box(1))))\n@eval g(b::Box, c::Int64) = 2\nprintln(g(Box(1), 2))\n",
    "é(x) = x\nprintln(é(1))\n".encode(),
    b"\n",
    b"f(x) = 1\nf(x::Int64) = 2\nprintln(f(0))\nBase.delete_method(which(f, Tuple{Int64}))\nprintln(f(0))\nBase.delete_method(which(f, Tuple{Int64}))\n",
    b"f() = 1\nt = Threads.@spawn Base.delete_method(which(f, Tuple{}))\nprintln(fetch(t))\nu = Threads.@spawn Base.delete_method(which(f, Tuple{}))\nfetch(u)\n",
    b"f() = 1\nif false; Base.delete_method(which(f, Tuple{})) end\n",
)
# The causes that the text alone tells; of the others a part is told as well, or none.
TOLD = ("KeyOrder", "FillKey", "NotRunning", "ChildOrder", "Limit", "Unfinished", "ItemFalse", "EventMissing")
ORDER = (
    "KeyOrder KeyUnknown FillKey FillWorld FillChoice NotRunning Site NoDefinition ChildOrder Limit Unfinished ItemFalse EventMissing RunDiffers"
).split()
NUMBERS = (
    b"0",
    b"1",
    b"2",
    b"14",
    b"65535",
    b"4294967295",
    b"4294967296",
    b"18446744073709551615",
    b"18446744073709551616",
    b"007",
    b"+1",
    b"-1",
    b"1_0",
    b"",
)
BYTES = b'0123456789 \n\r\t"\\nabcdefgkpstwl%{},:\x00\x7f\x80\xa9\xc3\xed\xff'


def run(words, data):
    ran = subprocess.run([PROGRAM, *words], input=data, stdout=subprocess.PIPE, check=False)
    return ran.stdout, ran.returncode


def whole_line(script):
    return script if not script or script.endswith(b"\n") else script + b"\n"


def histories():
    """Scripts, each with histories of it that are not long."""
    scripts = list(SCRIPTS)
    for name in sorted(glob.glob(os.path.join(HERE, "..", "examples", "*.jl"))):
        with open(name, "rb") as file:
            scripts.append(file.read())
    for script in scripts:
        for threads in ("1", "8"):
            out, status = run(["trace", "--threads", threads], script)
            if status in (0, 1) and not FIRST_LINE.search(script):
                history = jl_history.part(out)[1]
                if len(history) <= MOST_BYTES:
                    yield whole_line(script), history


# ---- changes


def change_byte(chance, lines):
    text = b"\n".join(lines)
    place = chance.randrange(len(text) + 1)
    new = bytes([chance.choice(BYTES)]) if chance.random() < 0.8 else b""
    return (text[:place] + new + text[place + chance.randrange(2) :]).split(b"\n")


def change_field(chance, lines):
    at = chance.randrange(len(lines))
    words = lines[at].split(b" ")
    field = chance.randrange(len(words))
    near = str(int(words[field]) + chance.choice((-1, 1, 2))).encode() if words[field].isdigit() else chance.choice(NUMBERS)
    kind = chance.random()
    if kind < 0.5:
        words[field] = near
    elif kind < 0.7:
        words[field] = chance.choice(NUMBERS)
    elif kind < 0.8:
        del words[field]
    elif kind < 0.9:
        words.insert(field, chance.choice(NUMBERS))
    else:
        words[field] = chance.choice(chance.choice(lines).split(b" "))
    return lines[:at] + [b" ".join(words)] + lines[at + 1 :]


def change_lines(chance, lines):
    at, other = chance.randrange(len(lines)), chance.randrange(len(lines))
    kind = chance.randrange(5)
    if kind == 0:
        return lines[:at] + lines[at + 1 :]
    if kind == 1:
        return lines[:at] + [lines[other]] + lines[at:]
    if kind == 2:
        return lines[:at] + [lines[other]] + lines[at + 1 :]
    if kind == 3:
        lines[at], lines[other] = lines[other], lines[at]
        return lines
    return lines[: at + 1]


def renumber(lines):
    """The same with the number of events in the last line that it should have, so that more than this line is judged."""
    try:
        jl_history.read(b"\n".join(lines))
    except jl_history.BadText as fault:
        found = re.search(r"there are (\d+) events", str(fault))
        if found:
            lines[fault.line - 1] = b"end " + found[1].encode()
    return lines


def changed(chance, history):
    """The history with changes, in one of 50 cases of its first line, which may then be part of the script."""
    header, *lines = history.split(b"\n")
    for _ in range(chance.choice((1, 1, 1, 2, 3))):
        lines = chance.choice((change_byte, change_field, change_field, change_lines))(chance, lines)
    if chance.random() < 0.02:
        return b"\n".join(change_byte(chance, [header]) + lines)
    return b"\n".join(renumber([header] + lines) if chance.random() < 0.7 else [header] + lines)


# ---- what the reader says, and what replay says

FIRST_LINE = re.compile(rb"^%%history [12]$", re.MULTILINE)


def told(text):
    """What the reader says of the input of `replay`, where the history begins with the first line that is one of the two headers: the fault,
    the cause, and at which events a task says that it found nothing to delete, which the script alone can judge."""
    found = FIRST_LINE.search(text)
    if not found:
        return "no history", None, ()
    try:
        version = 2 if b"delete_method(which(" in text[: found.start()] else 1
        events = jl_history.read(text[found.start() :], version)
    except jl_history.BadText as fault:
        return f"illegal: line {fault.line}: BadText", None, ()
    finds_nothing = [place for place, event in enumerate(events) if event.kind == "done" and any(item.kind == "absent" for item in event.trace)]
    return None, jl_history.first_cause(events), finds_nothing


def is_same(answer, fault, cause, finds_nothing):
    if fault == "no history":
        return answer.startswith("ERROR: ")
    if fault:
        return answer == fault
    found = re.fullmatch(r"illegal: event (\d+): (\w+)", answer)
    if not found or found[2] == "RunDiffers":
        return cause is None and (found or answer.startswith("legal: ")) is not None
    event, name = int(found[1]), found[2]
    is_told = name in TOLD and not (name == "ItemFalse" and event in finds_nothing)
    if cause is None:
        return not is_told
    if is_told:
        return (cause.event, cause.cause) == (event, name)
    return (event, ORDER.index(name)) <= (cause.event, ORDER.index(cause.cause))


def compare_changed(count, seed):
    chance = random.Random(seed)
    known = list(histories())
    differ, kinds = 0, {}
    for _ in range(count):
        script, history = chance.choice(known)
        text = script + changed(chance, history)
        answer = run(["replay"], text)[0].decode().rstrip("\n")
        kind = "BadText" if answer.endswith("BadText") else answer.split(" ")[-1] if answer.startswith("illegal") else answer.split(" ")[0]
        kinds[kind] = kinds.get(kind, 0) + 1
        fault, cause, finds_nothing = told(text)
        if not is_same(answer, fault, cause, finds_nothing):
            differ += 1
            print(f"differs: replay says {answer!r}, the reader {fault!r} {cause}:\n{text!r}", file=sys.stderr)
    print("answers: " + ", ".join(f"{kind} {number}" for kind, number in sorted(kinds.items())))
    print(f"changed: {count} histories, {differ} differences")
    return differ == 0 and count > 0


# ---- worlds


class Maker:
    """Makes a script whose tasks all end in an error that names their world: of a call of `tell`, which has no method for a number."""

    def __init__(self, chance):
        self.chance, self.functions = chance, []

    def action(self, depth):
        """An expression that may look, define, spawn or call."""
        kind = self.chance.randrange(8 if depth else 3)
        if kind == 0:
            return "1 + 1"
        if kind == 1 and self.functions:
            return f"{self.chance.choice(self.functions)}()"
        if kind in (2, 3):
            return f"Threads.@spawn {self.block(depth - 1, 'tell(1)') if depth else 'tell(1)'}"
        if kind == 4 and self.functions:
            return f"Base.invokelatest({self.chance.choice(self.functions)})"
        if kind == 5:
            return f"@eval other(x) = {self.chance.randrange(9)}"
        if kind == 6:
            return f"@eval {self.action(depth - 1)}"
        return self.block(depth - 1)

    def block(self, depth, last=None):
        lines = [self.action(max(depth, 0)) for _ in range(self.chance.randrange(3))]
        return "begin " + "; ".join(lines + [last or "nothing"]) + " end"

    def script(self):
        lines = ["tell(x::Nothing) = 1", "other(x) = 0"]
        for number in range(self.chance.randrange(2, 9)):
            if self.chance.random() < 0.4:
                line = f"f{number}() = {self.block(2)}"
                lines.append(line)
                self.functions.append(f"f{number}")
            else:
                lines.append(f"t{number} = {self.action(2)}" if self.chance.random() < 0.5 else self.action(2))
        if self.chance.random() < 0.1:
            lines.append("div(1, 0)")
        return "\n".join(lines) + "\n"


def told_worlds(events):
    """The world that each task names in its error."""
    worlds = {}
    for event in events:
        if event.kind == "done" and event.task and event.outcome == "error":
            found = re.fullmatch(r"MethodError: no method matching tell\(::Int64\) in world (\d+)", event.text)
            if found:
                worlds[event.task] = int(found[1])
    return worlds


def compare_worlds(count, seed):
    chance = random.Random(seed)
    differ = tasks = sure = sure_by_text = 0
    for _ in range(count):
        script = Maker(chance).script()
        out, status = run(["trace", "--threads", "4"], script.encode())
        if status not in (0, 1):
            print(f"differs: no script: {out!r}\n{script}", file=sys.stderr)
            differ += 1
            continue
        events = jl_history.read(jl_history.part(out)[1])
        known = jl_script.Script(script.encode())
        try:
            known.must_fit(events)
        except jl_history.Trouble as trouble:
            print(f"differs: {trouble}\n{script}\n{out.decode()}", file=sys.stderr)
            differ += 1
            continue
        by_text, by_script = jl_history.Worlds(events), jl_history.Worlds(events, known)
        for task, world in told_worlds(events).items():
            tasks += 1
            sure += len(by_script.of[task]) == 1
            sure_by_text += len(by_text.of[task]) == 1
            if world not in by_script.of[task] or not set(by_script.of[task]) <= set(by_text.of[task]):
                differ += 1
                print(
                    f"differs: task {task} runs in {world}, by script {by_script.of[task]}, by text {by_text.of[task]}\n{script}\n{out.decode()}",
                    file=sys.stderr,
                )
    print(
        f"worlds: {count} scripts, {tasks} tasks, of {sure} the world is told with the script, of {sure_by_text} by the text alone; {differ} differences"
    )
    return differ == 0 and tasks > 0


# ---- places


def places_by_tokens(script):
    known = jl_script.Script(script)
    first = jl_history.FIRST_WORLD
    return {first + i: known.site(first + i) for i in range(len(known.sites))}, {i: known.spawn(i) for i in range(len(known.spawns))}


def compare_places(count, seed):
    chance = random.Random(seed)
    scripts = random_scripts.corpus() + [Maker(chance).script().encode() for _ in range(count)]
    compared = differ = 0
    for script in scripts:
        ran = subprocess.run([SITES], input=script, stdout=subprocess.PIPE, check=False)
        if ran.returncode == 0 and not ran.stdout.startswith(b"ERROR: "):
            table = jl_script.Table(ran.stdout.decode())
            compared += 1
            if places_by_tokens(script) != (table.sites, table.spawns):
                differ += 1
                print(f"differs: {places_by_tokens(script)}, and by the parser:\n{ran.stdout.decode()}{script!r}", file=sys.stderr)
    print(f"places: {compared} scripts, {differ} differences")
    return differ == 0 and compared > 0


def main():
    words = sys.argv[1:]
    parts = {"changed": (compare_changed, 3000), "worlds": (compare_worlds, 300), "places": (compare_places, 300)}
    needed = SITES if words[:1] == ["places"] else PROGRAM
    if not os.access(needed, os.X_OK):
        sys.exit(f"changed_histories: there is no program {needed}")
    if not words:
        return all([compare(count, 7) for compare, count in parts.values()])
    if words[0] not in parts or not all(word.isdigit() for word in words[1:]) or len(words) > 3:
        sys.exit(__doc__)
    compare, count = parts[words[0]]
    return compare(int(words[1]) if len(words) > 1 else count, int(words[2]) if len(words) > 2 else 7)


if __name__ == "__main__":
    sys.exit(0 if main() else 1)
