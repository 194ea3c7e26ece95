#!/usr/bin/env python3
"""Scripts with tasks, each run over and over on 1, 2, 4, 8 and 64 threads, and what they write compared.

    reference/schedules.py               each script 100 times on each number of threads
    reference/schedules.py 10            so often each
    reference/schedules.py 10 late make  these scripts alone
    JL=FILE reference/schedules.py       with another program than crates/jl_main/out/jl_main

What a script is to write and its status are given beside it. They follow from the rules of the language (docs/LANGUAGE.md), and not from a
run; the two scripts whose text depends on the schedule are judged by their histories. The last line counts the runs and the differences; the
status is 0 only where there is no difference.
"""

import os
import re
import subprocess
import sys

HERE = os.path.dirname(os.path.abspath(__file__))
PROGRAM = os.environ.get("JL") or os.path.join(HERE, "..", "crates", "jl_main", "out", "jl_main")
THREADS = (1, 2, 4, 8, 64)
# A run that takes longer than this many seconds is a difference.
LONGEST = 60


def example(name):
    """The script and the text of an example."""
    folder = os.path.join(HERE, "..", "examples")
    with open(f"{folder}/{name}.jl", encoding="utf-8") as script, open(f"{folder}/{name}.out", encoding="utf-8") as text:
        return script.read(), text.read(), 0


def lines(*all_lines):
    return "".join(f"{line}\n" for line in all_lines)


# Two tasks define one method, and the root calls it after both.
RACE = lines(
    "f() = 0",
    "function one()", "@eval f() = 1", "0", "end",
    "function two()", "@eval f() = 2", "0", "end",
    "a = Threads.@spawn one()", "b = Threads.@spawn two()", "fetch(a)", "fetch(b)", "println(f())",
)
# The sites of the two definitions of f, after the 14 built-in ones, f itself, and the function that has the first of them.
RACE_SITES = {"1": 16, "2": 18}

# Two tasks delete one method, which only one of them finds, and the root fetches both.
DELETE = "Base.delete_method(which(f, Tuple{}))"
DELETE_RACE = lines("f() = 0", f"a = Threads.@spawn {DELETE}", f"b = Threads.@spawn {DELETE}", "println(f())", "fetch(a)", "fetch(b)")


def lines_of(history):
    """The lines of the events, each with the lines that come after its `done`."""
    rest = iter(history.splitlines())
    for line in rest:
        count = int(line.split(" ")[3]) + 2 if line.startswith("done ") else 0
        yield line, [next(rest) for _ in range(count)]


def later_one(history):
    """What the race writes by its history: the text of the definition that comes later."""
    defined = [int(line.split(" ")[2]) for line, _ in lines_of(history) if line.startswith("def ")]
    last = [site for site in defined if site in RACE_SITES.values()][-1]
    return next(value for value, site in RACE_SITES.items() if site == last) + "\n"


def failed_one(history):
    """What the race of deletions writes by its history: the root looks before the deletion or after it, and one task finds nothing."""
    done = {int(line.split(" ")[1]): record for line, record in lines_of(history) if line.startswith("done ")}
    failed = [task for task in (1, 2) if any(line.startswith("absent ") for line in done[task])]
    looks = [line.split(" ") for line in done[0] if line.startswith("look ")]
    world = int(looks[3][1])  # that of the fourth statement; 15 is before the deletion
    if world > 15:
        return f"ERROR: MethodError: no method matching f() in world {world}\n"
    return f"0\nERROR: TaskFailedException: task {failed[0]}\n" if len(failed) == 1 else "no one of the tasks"


# Each script: its text, what it writes or a function that tells it by the history, and its status.
SCRIPTS = {
    "first": (lines("f(x) = x + 1", "println(f(2))"), "3\n", 0),
    "late": (
        lines("f() = 1", "late() = f()", "t = Threads.@spawn late()", "f() = 2", "println(fetch(t))", "println(f())"),
        "1\n2\n", 0,
    ),
    "make": (
        lines("function make()", "@eval g() = 7", "0", "end", "t = Threads.@spawn make()", "fetch(t)", "println(g())"),
        "7\n", 0,
    ),
    "all worlds": (
        lines("function more(n::Int64)", "@eval g() = 1", "n == 1 ? 0 : more(n - 1)", "end", "println(more(65520))", "println(more(1))"),
        "0\nERROR: WorldLimit: 65535 worlds\n", 1,
    ),
    "all tasks": (
        lines("function many(n::Int64)", "t = Threads.@spawn 0", "n == 1 ? 0 : many(n - 1)", "end", "println(many(4095))", "println(many(1))"),
        "0\nERROR: TaskLimit: 4096 tasks\n", 1,
    ),
    "all tasks work": (
        lines(
            "g(n::Int64) = n == 0 ? 1 : g(n - 1)",
            "function many(n::Int64)", "if n == 0", "return 0", "end",
            "t = Threads.@spawn g(20)", "rest = many(n - 1)", "fetch(t) + rest", "end",
            "println(many(4095))",
        ),
        "4095\n", 0,
    ),
    "shapes": example("shapes"),
    "fetched fault": (lines("t = Threads.@spawn div(1, 0)", "fetch(t)"), "ERROR: TaskFailedException: task 1\n", 1),
    "lost fault": (lines("t = Threads.@spawn div(1, 0)"), "", 0),
    "fault of a fault": (
        lines("t = Threads.@spawn div(1, 0)", "u = Threads.@spawn fetch(t)", "v = Threads.@spawn (println(1), fetch(u))", "println(2)", "fetch(v)"),
        "2\n1\nERROR: TaskFailedException: task 3\n", 1,
    ),
    "pair": (
        lines("f(x) = x", "a = Threads.@spawn f(1)", "b = Threads.@spawn f(2)", "println(fetch(a) + fetch(b))"),
        "3\n", 0,
    ),
    "depth of 500": (
        lines("function deep(n::Int64)", "if n == 0", "return 0", "end", "t = Threads.@spawn deep(n - 1)", "fetch(t) + 1", "end", "println(deep(500))"),
        "500\n", 0,
    ),
    "64 wait for one": (
        lines(
            "work(n::Int64) = n == 0 ? 1 : work(n - 1)",
            "function wait_for(n::Int64, t)", "if n == 0", "return 0", "end",
            "a = Threads.@spawn fetch(t)", "rest = wait_for(n - 1, t)", "fetch(a) + rest", "end",
            "t = Threads.@spawn work(10000)", "println(wait_for(64, t))",
        ),
        "64\n", 0,
    ),
    "outputs": (
        lines(
            "function say(n::Int64)", "println(n)", "n == 0 ? 0 : fetch(Threads.@spawn say(n - 1))", "end",
            "a = Threads.@spawn say(2)", "b = Threads.@spawn say(1)", "println(9)", "fetch(b)",
        ),
        "9\n2\n1\n0\n1\n0\n", 0,
    ),
    "fuel of a task": (
        lines("f(n) = n == 0 ? 0 : f(n - 1)", "t = Threads.@spawn f(3)", "u = Threads.@spawn f(1000000000)", "println(fetch(t))", "fetch(u)"),
        "0\nERROR: TaskFailedException: task 2\n", 1,
    ),
    "late deletion": (
        lines("f() = 1", "late() = f()", "t = Threads.@spawn late()", DELETE, "println(fetch(t))", "println(f())"),
        "1\nERROR: MethodError: no method matching f() in world 17\n", 1,
    ),
    "all worlds, deleted": (
        lines("function more(n::Int64)", "@eval f() = 1", "n == 1 ? 0 : more(n - 1)", "end", "println(more(65519))", DELETE, "println(1)", DELETE),
        "0\n1\nERROR: WorldLimit: 65535 worlds\n", 1,
    ),
    "unload": example("unload"),
    "race": (RACE, later_one, 0),
    "race of deletions": (DELETE_RACE, failed_one, 1),
}


def test_once(name, threads):
    """Runs a script, and returns what is wrong."""
    script, due, status = SCRIPTS[name]
    command = "trace" if callable(due) else "run"
    try:
        run = subprocess.run(
            [PROGRAM, command, "--threads", str(threads)],
            input=script.encode(), stdout=subprocess.PIPE, stderr=subprocess.PIPE, check=False, timeout=LONGEST,
        )
    except subprocess.TimeoutExpired:
        return f"no end in {LONGEST} seconds"
    out = run.stdout.decode()
    if callable(due):
        out, _, history = re.split(r"^(%%history [12]\n)", out, maxsplit=1, flags=re.MULTILINE)
        due = due(history)
    if run.returncode != status:
        return f"status {run.returncode}, and {status} is due"
    if run.stderr:
        return "it wrote to standard error"
    return None if out == due else f"it wrote {out[:200]!r}"


def main():
    words = sys.argv[1:]
    times = int(words.pop(0)) if words and words[0].isdigit() else 100
    unknown = [name for name in words if name not in SCRIPTS]
    if unknown:
        sys.exit(f"schedules: there is no script '{unknown[0]}'. They are: {', '.join(SCRIPTS)}")
    runs = differ = 0
    for name in words or SCRIPTS:
        for threads in THREADS:
            for _ in range(times):
                runs += 1
                wrong = test_once(name, threads)
                if wrong:
                    differ += 1
                    print(f"{name}, {threads} threads: {wrong}", flush=True)
    print(f"{runs} runs, {differ} differences")
    sys.exit(1 if differ else 0)


main()
