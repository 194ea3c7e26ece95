#!/usr/bin/env python3
"""Explains each line that racing tasks print by the history of the run.

    reference/explains.py                  runs the script below on 1, 2, 4, 8 and 64 threads, 20 times each
    reference/explains.py 100              so often each
    reference/explains.py --script         writes the script and runs nothing
    JL=FILE reference/explains.py          with another program than crates/jl_main/out/jl_main

Two tasks define one signature over and over, each time from another place of the text, a third one defines it and starts a task each time
that deletes it, where it is still there, while six tasks call it, 10,002 times by `Base.invokelatest` and as often plainly and in
an evaluated statement. Each call gives the number of the definition that answered it, or that of a more general one where it is deleted, so
each printed line says which one that was. From the history that `trace` writes, and from it alone, it is worked out again which definition
was the newest one in the world of that call: the world that the task saw when it looked, or, of a plain call, the world that the task was
started in. What is true of a history is tested by the way: that each look saw the world of the events before it, that definitions,
deletions, tasks and fetches are the events that they say, that a task found nothing to delete exactly where nothing was there, that a row
of the cache begins where a definition or deletion touched its key and holds the method of that world, and that the text is that of the
tasks in their order.

The last line counts runs, lines, tasks that found nothing and differences, and says how often a line of a task has another definition than
its last line of that kind, which shows how much the tasks ran side by side. The status is 0 only where there is no difference.
"""

import os
import re
import subprocess
import sys
from concurrent.futures import ThreadPoolExecutor

HERE = os.path.dirname(os.path.abspath(__file__))
PROGRAM = os.environ.get("JL") or os.path.join(HERE, "..", "crates", "jl_main", "out", "jl_main")
THREADS = (1, 2, 4, 8, 64)
# The worlds of the built-in methods come first.
FIRST_WORLD = 14
# How many callers and how often each calls, and how many places of each definer and how often it goes through them.
CALLERS, CALLS = 6, 1_667
PLACES, ROUNDS = 20, 150
# How often the one that has it deleted goes through its places.
DELETED_ROUNDS = 75
DELETION = "Threads.@spawn Base.delete_method(which(f, Tuple{Int64}))"
# How many calls of another function come between, so that the tasks last long enough to run side by side.
SPIN = 60


def definer(name, first):
    """A function that defines `f` from all its places, so often."""
    places = "".join(f"    @eval f(x::Int64) = {first + place}\n    spin({SPIN})\n" for place in range(PLACES))
    return f"function {name}(n::Int64)\n    if n == 0\n        return 0\n    end\n{places}    {name}(n - 1)\nend\n"


def deleter():
    """A function that defines `f` from all its places, so often, and each time starts a task that deletes it."""
    places = "".join(f"    @eval f(x::Int64) = {3_000 + place}\n    spin({SPIN})\n    {DELETION}\n    spin({SPIN})\n" for place in range(PLACES))
    return f"function delete(n::Int64)\n    if n == 0\n        return 0\n    end\n{places}    delete(n - 1)\nend\n"


def script():
    """The script, and the number that each definition of `f` gives by its site."""
    text = "f(x) = 0\nf(x::Int64) = 1\nspin(n::Int64) = n == 0 ? 0 : spin(n - 1)\n"
    text += definer("define_a", 1_000) + definer("define_b", 2_000) + deleter()
    text += "function call(n::Int64)\n    if n == 0\n        return 0\n    end\n"
    text += '    println("latest ", Base.invokelatest(f, n))\n    println("own ", f(n))\n'
    text += f'    @eval println("evaluated ", f(1))\n    spin({SPIN})\n    call(n - 1)\nend\n'
    tasks = ["define_a({r})", "call({c})", "call({c})", "call({c})", "define_b({r})", "call({c})", "call({c})", "call({c})", f"delete({DELETED_ROUNDS})"]
    for number, task in enumerate(tasks, 1):
        text += f"t{number} = Threads.@spawn {task.format(r=ROUNDS, c=CALLS)}\n"
    text += "".join(f"println(\"fetched \", fetch(t{number}))\n" for number in range(1, len(tasks) + 1))
    text += 'println("latest ", f(1))\n'
    return text


def values_of(text):
    """What a call of `f` gives by each site of the script: sites are numbered by the text, after the 14 built-in ones."""
    values, site = {}, FIRST_WORLD
    for line in text.splitlines():
        made = re.match(r"\s*(?:@eval |function )?(\w+)\(.*?\)(?: = (\d+))?$", line)
        is_site = made and (line.startswith("function ") or " = " in line) and "spawn" not in line
        if is_site:
            if made[1] == "f":
                values[site] = made[2]
            site += 1
    return values


class Fault(Exception):
    """What is wrong with a history, or with a line of the text."""


def ask(holds, message):
    if not holds:
        raise Fault(message)


def unquoted(text):
    """The output that is in quotes."""
    ask(len(text) >= 2 and text[0] == text[-1] == '"', "an output is not in quotes")
    plain = {"n": "\n", "r": "\r", '"': '"', "\\": "\\"}
    return re.sub(r"\\(.)", lambda it: plain[it[1]], text[1:-1])


class Task:
    """A task with its record, and the event that started it."""

    def __init__(self, parent, started):
        self.parent, self.started = parent, started
        self.items, self.output, self.outcome, self.done = [], "", "", None
        self.children = []


class History:
    """The events of a history of either version, with the records of its tasks."""

    def __init__(self, lines):
        self.lines, self.at = lines, 0
        # By the number of events: the world of so many first ones.
        self.worlds = [FIRST_WORLD]
        # The changes are the sites of definitions, and none for a deletion.
        self.events, self.changes, self.tasks = [], [], {0: Task(None, 0)}
        self.read()

    def line(self):
        self.at += 1
        ask(self.at <= len(self.lines), "the history ends too early")
        return self.lines[self.at - 1]

    def read(self):
        ask(self.line() in ("%%history 1", "%%history 2"), "no first line")
        ask(self.line().startswith("begin "), "no begin")
        self.add(("begin",))
        while True:
            words = self.line().split(" ")
            if words[0] == "end":
                ask(int(words[1]) == len(self.events), "the number of events is wrong")
                ask(self.at == len(self.lines), "there is more after the end")
                return
            getattr(self, words[0])(*words[1:])

    def add(self, event):
        self.events.append(event)
        self.worlds.append(self.worlds[-1] + (event[0] in ("def", "del")))

    def key(self, number, function, *types):
        self.add(("key", int(number), function, " ".join(types)))

    def fill(self, key, site, first):
        self.add(("fill", int(key), int(site), int(first)))

    def spawn(self, task, child, place):
        ask(int(child) == len(self.tasks), "a task's number is wrong")
        self.tasks[int(child)] = Task(int(task), len(self.events))
        self.tasks[int(task)].children.append(int(child))
        self.add(("spawn", int(task), int(child)))

    def done(self, task, calls, items):
        ended = self.tasks[int(task)]
        ask(ended.done is None, "a task ends twice")
        ended.done = len(self.events)
        ended.items = [self.line().split(" ") for _ in range(int(items))]
        name, _, rest = self.line().partition(" ")
        ask(name == "output", "no output")
        ended.output = unquoted(rest)
        name, _, ended.outcome = self.line().partition(" ")
        ask(name == "outcome", "no outcome")
        self.add(("done", int(task)))

    def define(self, task, site):
        self.changes.append(int(site))
        self.add(("def", int(task), int(site)))

    def delete(self, task, place):
        self.changes.append(None)
        self.add(("del", int(task), int(place)))


# `def` and `del` are words of Python.
setattr(History, "def", History.define)
setattr(History, "del", History.delete)


def is_true(history, number, item):
    """Whether an item of a task's record is true of the events."""
    name, *numbers = item
    numbers = [int(it) for it in numbers]
    at = numbers[-1]
    if name == "look":
        return at <= len(history.events) and history.worlds[at] == numbers[0]
    if name in ("def", "del", "spawn"):
        return history.events[at] == (name, number, numbers[0])
    if name == "absent":
        return at <= len(history.events) and history.worlds[at] < 65_535
    if name == "fetch":
        ended = history.tasks[numbers[0]].done
        return ended is not None and ended < at
    return False


def test_items(history, number, task):
    """The items of a task are true and in order, and its events are those of its items."""
    ask(task.done is not None, f"task {number} does not end")
    before = task.started + 1
    for item in task.items:
        at = int(item[-1])
        ask(at >= before, f"task {number}: {item} is out of order")
        before = at + (item[0] in ("def", "del", "spawn"))
        ask(is_true(history, number, item), f"task {number}: {item} is not true")
    ask(before <= task.done, f"task {number} ends before its last item")
    own = [(kind, rest[1]) for kind, *rest in history.events if kind in ("def", "del", "spawn") and rest[0] == number]
    recorded = [(item[0], int(item[1])) for item in task.items if item[0] in ("def", "del", "spawn")]
    ask(own == recorded, f"task {number}: its events are not those of its record")


class Newest:
    """Which definition of `f` is the newest one in a world: after a deletion the general one, which is the first of the script."""

    def __init__(self, history, values):
        self.values, self.by_world = values, [None] * (FIRST_WORLD + 1)
        for site in history.changes:
            self.by_world.append(min(values) if site is None else site if site in values else self.by_world[-1])
        # The world w has the definitions up to the w-th, and this list has one entry before the first world.
        self.by_world = self.by_world[1:]

    def site(self, world):
        return self.by_world[world - 1]

    def value(self, world):
        return self.values[self.site(world)]

    def is_deleted(self, world):
        return self.site(world) == min(self.values)


def test_deletions(history, newest):
    """Each deletion has something to delete, and a task that found nothing is right and ends so. Returns how many found nothing."""
    for place, event in enumerate(history.events):
        if event[0] == "del":
            ask(not newest.is_deleted(history.worlds[place]), f"event {place} deletes what is not there")
    nothing = 0
    for number, task in history.tasks.items():
        absent = [int(item[-1]) for item in task.items if item[0] == "absent"]
        for at in absent:
            ask(newest.is_deleted(history.worlds[at]), f"task {number} found nothing to delete, and it was there")
        ask(bool(absent) == (task.outcome == "error NoSuchMethod: f"), f"task {number} ends with {task.outcome}")
        nothing += bool(absent)
    return nothing


def test_rows(history, newest):
    """The rows of the keys of `f` hold the method of the world that they begin with."""
    keys, touched, rows, world = {}, {FIRST_WORLD}, set(), FIRST_WORLD
    for event in history.events:
        if event[0] == "key":
            ask(event[1] == len(keys) and event[2:] not in keys.values(), "a key is wrong")
            keys[event[1]] = event[2:]
        elif event[0] in ("def", "del"):
            world += 1
            if event[0] == "del" or event[2] in newest.values:
                touched.add(world)
        elif event[0] == "fill":
            _, key, site, first = event
            ask((key, first) not in rows, "a row begins where another one does")
            rows.add((key, first))
            if keys[key] == ("f", "Tuple{Int64}"):
                ask(first in touched, "a row begins where no definition or deletion is")
                ask(newest.site(first) == site, "a row holds another method")


def world_of_start(history, task):
    """The world of the code that started a task: that of the last look of its parent before."""
    world = FIRST_WORLD
    for item in history.tasks[task.parent].items:
        if item[0] == "spawn" and int(item[-1]) == task.started:
            return world
        if item[0] == "look":
            world = int(item[1])
    raise Fault("no item starts the task")


def test_lines(history, number, task, newest):
    """Each line of a task shows the newest definition in the world of its call. Returns how many lines there are, and how many show
    another one than the last line of that kind."""
    if not task.output:
        return 0, 0
    own = FIRST_WORLD if task.parent is None else world_of_start(history, task)
    looks = iter([int(item[1]) for item in task.items if item[0] == "look"])
    count = changes = 0
    before = {}
    for line in task.output.splitlines():
        kind, shown = line.split(" ")
        # Of the root each line is a statement of its own, which looks.
        if number == 0:
            continue
        world = own if kind == "own" else next(looks, None)
        ask(world is not None, f"task {number}: a line has no look")
        due = newest.value(world)
        ask(shown == due, f"task {number}: `{line}` in world {world}, and {due} is due")
        count += 1
        changes += before.get(kind, shown) != shown
        before[kind] = shown
    if number:
        ask(next(looks, None) is None, f"task {number} looks more often than it prints")
    return count, changes


def text_of(history, number=0):
    """The outputs of a task and of those that it started, in their order."""
    task = history.tasks[number]
    return task.output + "".join(text_of(history, child) for child in task.children)


def test_root(history, newest):
    """The root prints what the tasks gave, and what the newest definition gives in the world of its last look."""
    last = newest.value([int(item[1]) for item in history.tasks[0].items if item[0] == "look"][-1])
    due = "".join("fetched 0\n" for _ in range(9)) + f"latest {last}\n"
    ask(history.tasks[0].output == due, "the root prints something else")


def parted(out):
    """The text of a run and its history, which begins with the last line that is one of the two first ones."""
    starts = [it.start() for it in re.finditer(rb"^%%history [12]$", out, re.MULTILINE)]
    ask(starts, "no history")
    return out[: starts[-1]], out[starts[-1] :]


def explain(values, out, status):
    """Tests what a run wrote. Returns how many lines were explained, how many show another definition than the line before, and how many
    tasks found nothing to delete."""
    ask(status == 0, f"status {status}")
    text, rest = parted(out)
    history = History(rest.decode().splitlines())
    newest = Newest(history, values)
    lines = changes = 0
    for number, task in history.tasks.items():
        test_items(history, number, task)
        more, changed = test_lines(history, number, task, newest)
        lines, changes = lines + more, changes + changed
    ask(text.decode() == text_of(history), "the text is not that of the tasks")
    ask(lines == 3 * CALLERS * CALLS, f"{lines} lines")
    test_root(history, newest)
    test_rows(history, newest)
    return lines, changes, test_deletions(history, newest)


def once(job):
    """One run on so many threads."""
    threads, text, values = job
    run = subprocess.run([PROGRAM, "trace", "--threads", str(threads)], input=text.encode(), stdout=subprocess.PIPE, check=False)
    try:
        return threads, None, explain(values, run.stdout, run.returncode)
    except Fault as fault:
        return threads, str(fault), (0, 0, 0)


def main():
    text = script()
    if "--script" in sys.argv:
        print(text, end="")
        return
    times = int(sys.argv[1]) if len(sys.argv) > 1 else 20
    values = values_of(text)
    ask(len(values) == 2 + 3 * PLACES, "the sites of the script are not found")
    runs = lines = changes = nothing = differ = 0
    jobs = [(threads, text, values) for threads in THREADS for _ in range(times)]
    with ThreadPoolExecutor(1) as workers:
        for threads, fault, (more, changed, found) in workers.map(once, jobs):
            runs, lines, changes, nothing = runs + 1, lines + more, changes + changed, nothing + found
            if fault:
                differ += 1
                print(f"{threads} threads: {fault}", flush=True)
    print(
        f"{runs} runs, {lines} lines explained, {changes} of them another definition than the one before, {nothing} tasks that found nothing "
        f"to delete, {differ} differences"
    )
    sys.exit(1 if differ else 0)


if __name__ == "__main__":
    main()
