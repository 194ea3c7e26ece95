#!/usr/bin/env python3
"""Refuses the built program what it asks of the system: each allocation, each new thread, each read and each write, one at a time.

    reference/refuse.py                   all parts
    reference/refuse.py memory devices    these parts
    reference/refuse.py memory 7          every 7th allocation alone
    JL=FILE reference/refuse.py           with another program than crates/jl_main/out/jl_main
    BOOK=FILE reference/refuse.py book    with another test program than the one that `rt test` leaves in crates/store_tests/out

It needs a C compiler, for refuse.c, which is loaded before the C library. Where memory is refused the run must end with status 6 and a
first part of its text, or as it does with ample memory. Where a thread is refused it must end as it does with all of them. Where a read
fails the status is 4 and nothing is written; where a write fails it is 5, and what was written before it stays. In the part of the book a
test compares all that can be asked before and after a call that was refused, and takes it once more: it must pass whichever allocation was
refused. In each run the threads
that were started are joined, none may end by a signal or write to standard error, and none may take longer than 20 seconds. The last line
of each part counts the runs and the differences; the status is 0 only where there is no difference.
"""

import mmap
import os
import struct
import subprocess
import sys
import tempfile

HERE = os.path.dirname(os.path.abspath(__file__))
PROGRAM = os.path.abspath(os.environ.get("JL") or os.path.join(HERE, "..", "crates", "jl_main", "out", "jl_main"))
BOOK = os.path.abspath(os.environ.get("BOOK") or os.path.join(HERE, "..", "crates", "store_tests", "out", "store_tests_tests"))
# The numbers of `struct Plan` of refuse.c, in its order.
KINDS = ("alloc", "thread", "read", "write")
PLAN = struct.Struct("12Q")
LONGEST = 20
FIRST = b"f(x) = x + 1\nprintln(f(2))\n"[:-1]
# Eight tasks define and call, so that the cache changes under them.
REDEFINED = b"""f(x::Int64) = 1
function define(n::Int64)
    if n == 0
        return 0
    end
    @eval f(x::Int64) = 2
    Base.invokelatest(f, n) + define(n - 1)
end
function call(n::Int64)
    n == 0 ? 0 : Base.invokelatest(f, n) * 0 + call(n - 1)
end
a = Threads.@spawn define(20)
b = Threads.@spawn call(20)
c = Threads.@spawn define(20)
d = Threads.@spawn call(20)
e = Threads.@spawn println((1, (2, true)))
println(fetch(a) + fetch(b) + fetch(c) + fetch(d))
"""


def example(name, end="jl"):
    with open(os.path.join(HERE, "..", "examples", f"{name}.{end}"), "rb") as file:
        return file.read()


class Shim:
    """A program under refuse.c."""

    def __init__(self, folder, program=PROGRAM):
        self.library, self.plan, self.program = f"{folder}/refuse.so", f"{folder}/plan", program
        subprocess.run(["cc", "-O2", "-shared", "-fPIC", "-o", self.library, f"{HERE}/refuse.c", "-ldl"], check=True)
        with open(self.plan, "wb") as file:
            file.write(bytes(PLAN.size))

    def ask(self, words, text, refused=None, number=0, keeps_on=False, piece=0):
        """Runs the program. Returns its status, what it wrote, what it wrote to standard error, and the calls of each kind with the
        threads that were started and joined."""
        numbers = [number if kind == refused else 0 for kind in KINDS]
        with open(self.plan, "r+b") as file:
            file.write(PLAN.pack(*numbers, 0, 0, 0, 0, int(keeps_on), piece, 0, 0))
        there = {**os.environ, "LD_PRELOAD": self.library, "REFUSE": self.plan}
        try:
            run = subprocess.run([self.program, *words], input=text, capture_output=True, env=there, timeout=LONGEST, check=False)
        except subprocess.TimeoutExpired:
            return "no end", b"", b"", {}
        with open(self.plan, "rb") as file, mmap.mmap(file.fileno(), 0, access=mmap.ACCESS_READ) as plan:
            counts = PLAN.unpack(plan[: PLAN.size])
        return run.returncode, run.stdout, run.stderr, dict(zip((*KINDS, "from", "piece", "started", "joined"), counts[4:]))


class Part:
    """Counts the runs of a part by their statuses, and the differences."""

    def __init__(self, name):
        self.name, self.statuses, self.differ = name, {}, 0

    def count(self, case, answer, good):
        status, out, err, counts = answer
        self.statuses[status] = self.statuses.get(status, 0) + 1
        if not good or err or status == "no end" or counts["started"] != counts["joined"]:
            self.differ += 1
            print(f"{self.name}: {case}: status {status}, {out[:100]!r}, {err[:300]!r}, {counts}", flush=True)

    def end(self):
        by_status = ", ".join(f"status {status}: {number}" for status, number in sorted(self.statuses.items(), key=str))
        print(f"{self.name}: {sum(self.statuses.values())} runs ({by_status}), {self.differ} differences", flush=True)
        return self.differ


def refuse_memory(shim, part, name, words, text, step, keeps_on):
    """Refuses each allocation in turn, and with `keeps_on` all after it too, until the program makes no more."""
    due, written, _, counts = shim.ask(words, text)
    most = counts["alloc"]
    for number in range(1, most + most // 10 + 20, step):
        answer = shim.ask(words, text, "alloc", number, keeps_on)
        status, out = answer[:2]
        is_short = status == 6 and written.startswith(out)
        part.count(f"{name}, allocation {number}", answer, is_short or (status == due and out == written))
    print(f"{part.name}: {name}: some {most} allocations with ample memory", flush=True)


def test_memory(shim, part, step):
    shapes = example("shapes")
    refuse_memory(shim, part, "the first script", ["run"], FIRST, step, False)
    refuse_memory(shim, part, "shapes, 4 threads", ["run", "--threads", "4"], shapes, step, False)
    refuse_memory(shim, part, "shapes, 1 thread", ["run", "--threads", "1"], shapes, step, False)
    refuse_memory(shim, part, "shapes, 4 threads, and all after it", ["run", "--threads", "4"], shapes, step, True)
    refuse_memory(shim, part, "redefined, 4 threads", ["run", "--threads", "4"], REDEFINED, step, False)
    refuse_memory(shim, part, "redefined, 64 threads, and all after it", ["run", "--threads", "64"], REDEFINED, step, True)
    deleted, history = example("deleted"), example("deleted", "out")
    refuse_memory(shim, part, "a deletion", ["trace"], deleted, step, False)
    refuse_memory(shim, part, "a deletion, judged", ["replay"], deleted + history[history.index(b"%%history") :], step, False)
    refuse_memory(shim, part, "unload, 4 threads", ["run", "--threads", "4"], example("unload"), step, False)
    refuse_memory(shim, part, "trace of the first script", ["trace"], FIRST, step, False)
    refuse_memory(shim, part, "check of shapes", ["check"], shapes, step, False)
    refuse_memory(shim, part, "a fault", ["run"], b"f(x) =", step, False)
    refuse_memory(shim, part, "no command", ["run", "--fuel"], b"", step, False)
    refuse_memory(shim, part, "gen 5000", ["gen", "5000"], b"", step, False)


def test_threads(shim, part, _):
    """Refuses each thread in turn, and all from one on: the text is that of a run with all of them."""
    for name, text in (("shapes", example("shapes")), ("redefined", REDEFINED)):
        for threads in (1, 2, 4, 8, 64):
            words = ["run", "--threads", str(threads)]
            due, written = shim.ask(words, text)[:2]
            for number in range(1, threads + 2):
                for keeps_on in (False, True):
                    answer = shim.ask(words, text, "thread", number, keeps_on)
                    part.count(f"{name}, {threads} threads, thread {number}", answer, answer[:2] == (due, written))


def test_devices(shim, part, _):
    """Fails each read of the first script, and each write of shapes, one byte at a time."""
    first, shapes = FIRST, example("shapes")
    for number in range(1, len(first) + 3):
        answer = shim.ask(["run"], first, "read", number, piece=1)
        due = (4, b"") if number <= len(first) + 1 else (0, b"3\n")
        part.count(f"read {number}", answer, answer[:2] == due)
    written = shim.ask(["run"], shapes)[1]
    for number in range(1, len(written) + 2):
        answer = shim.ask(["run", "--threads", "4"], shapes, "write", number, piece=1)
        due = (5, written[: number - 1]) if number <= len(written) else (0, written)
        part.count(f"write {number}", answer, answer[:2] == due)
    for piece in (1, 2, 3, 7):
        answer = shim.ask(["run"], shapes, piece=piece)
        part.count(f"pieces of {piece}", answer, answer[:2] == (0, written))


def test_book(shim, part, step):
    """Refuses each allocation in turn of the tests on the book that define and delete, and of one on its index."""
    for name in (
        "a_definition_ends_the_row_that_has_no_end",
        "a_deletion_ends_the_row_that_has_no_end",
        "what_touches_a_key_grows_with_each_definition",
    ):
        words = [f"book_tests::{name}"]
        due, written, err, counts = shim.ask(words, b"")
        part.count(f"{name}, ample memory", (due, written, err, counts), due == 0)
        for number in range(1, counts["alloc"] + 20, step):
            answer = shim.ask(words, b"", "alloc", number)
            part.count(f"{name}, allocation {number}", answer, answer[:2] == (due, written))
        print(f"{part.name}: {name}: {counts['alloc']} allocations with ample memory", flush=True)


PARTS = {"memory": test_memory, "threads": test_threads, "devices": test_devices, "book": test_book}


def main(words):
    step = next((int(word) for word in words if word.isdigit()), 1)
    names = [word for word in words if not word.isdigit()] or list(PARTS)
    unknown = [name for name in names if name not in PARTS]
    if unknown:
        sys.exit(f"refuse: there is no part '{unknown[0]}'")
    differ = 0
    with tempfile.TemporaryDirectory() as folder:
        for name in names:
            program = BOOK if name == "book" else PROGRAM
            if not os.path.exists(program):
                sys.exit(f"refuse: there is no {program}: run ./build first, or `rt test` in crates/store_tests")
            part, shim = Part(name), Shim(folder, program)
            # What refuses nothing and does nothing would differ nowhere.
            if name != "book" and shim.ask(["run"], FIRST)[:2] != (0, b"3\n"):
                sys.exit(f"refuse: {program} does not run the first script")
            PARTS[name](shim, part, step)
            differ += part.end()
    sys.exit(1 if differ else 0)


main(sys.argv[1:])
