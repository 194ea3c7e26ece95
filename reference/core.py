#!/usr/bin/env python3
"""A plain reference for the model of a run, from which the answers of crates/core_cases come.

    reference/core.py           writes the answers to crates/core_cases/stdin
    reference/core.py check     compares them with crates/core_cases/stdout

Each step is asked and made as it is defined, over the whole list of events: a row's end is found by asking every later change, and
a choice by asking every method that no later deletion has taken away. Types are those that the scripts of the cases have: names with
supertypes, and structs with parameters that are the same or not at all below one another; a parameter of a method may be a variable with
an upper bound (Julia manual, Methods; Belyakova et al., OOPSLA 2020).
"""
import pathlib
import re
import sys

OWN = ("def", "del", "spawn")
PRELUDE_FUNCTIONS, FIRST_WORLD, MOST_WORLDS, MOST_TASKS = 12, 14, 65535, 4096
SUPER = {"Number": None, "Real": "Number", "Integer": "Real", "Signed": "Integer", "Int64": "Signed", "Bool": "Integer",
         "Nothing": None, "Task": None}
ABSTRACT = {"Number", "Real", "Integer", "Signed"}


class Program:
    """The types, functions, sites, spawn places and deletion places of a script."""

    def __init__(self, lines):
        self.names = list(SUPER)
        self.supers, self.abstract, self.arity = dict(SUPER), set(ABSTRACT), {name: 0 for name in SUPER}
        self.functions, self.sites, self.places, self.spawns = [], [], [], 0
        for line in lines:
            self.spawns += line.count("Threads.@spawn")
            if found := re.match(r"abstract type (\w+) end", line):
                self.declare(found[1], 0, True)
            elif found := re.match(r"struct (\w+)\{(\w+(?:, \w+)*)\}", line):
                self.declare(found[1], found[2].count(",") + 1, False)
            elif found := re.match(r"(\w+)\(([^)]*)\)(?: where (\w+)<:(\w+))? =", line):
                self.define(found[1], found[2], found[3], found[4])
            elif found := re.match(r"Base\.delete_method\(which\((\w+), \(?Tuple\{((?:[^{}]|\{\})*)\}(?: where (\w+)<:(\w+)\))?\)\)", line):
                types = [part.strip() for part in found[2].split(",") if part.strip()]
                self.places.append((found[1], [(t, found[4] if t == found[3] else None) for t in types]))

    def declare(self, name, arity, is_abstract):
        self.names.append(name)
        self.supers[name], self.arity[name] = None, arity
        if is_abstract:
            self.abstract.add(name)

    def define(self, name, parameters, variable, bound):
        """A parameter is (name, None), a name of a type, or (variable, bound)."""
        if name not in self.functions:
            self.functions.append(name)
        types = [part.partition("::")[2].strip() or "Any" for part in parameters.split(",") if part.strip()]
        self.sites.append((name, [(t, bound if t == variable else None) for t in types]))

    def site(self, number):
        place = number - FIRST_WORLD
        return self.sites[place] if 0 <= place < len(self.sites) else None

    # a type of a key is a name with arguments: ("Box", ["Int64"]); a type of a parameter is a name
    def is_below(self, ty, name):
        if name == "Any":
            return True
        at = ty[0]
        while at is not None:
            if at == name:
                return True
            at = self.supers.get(at)
        return False

    def is_signature_below(self, one, other):
        """Whether the other takes all that the first takes: a variable of the first is held fixed, so it equals itself alone, and one
        of the other stands for the same type wherever it occurs. What has a part `Union{}` takes nothing."""
        if any(part[0] == "Union{}" for part in one):
            return True
        if len(one) != len(other) or any(part[0] == "Union{}" for part in other):
            return False
        top = lambda part: part[1] or part[0]
        name_below = lambda a, b: b == "Any" or (a != "Any" and self.is_below((a, []), b))
        same = {b[0]: {a for a, c in zip(one, other) if c == b} for b in other if b[1]}
        return (all(name_below(top(a), top(b)) for a, b in zip(one, other)) and all(len(taken) == 1 for taken in same.values()))

    def is_same_signature(self, one, other):
        return self.is_signature_below(one, other) and self.is_signature_below(other, one)

    def applies(self, found, key):
        """Whether a site or a deletion place touches a key."""
        if found is None or found[0] != key[0] or len(found[1]) != len(key[1]):
            return False
        pairs = list(zip(key[1], found[1]))
        return (all(self.is_below(t, bound or name) for t, (name, bound) in pairs)
                and all(s == t for s, (a, bound) in pairs for t, (b, _) in pairs if bound and a == b))

    def is_form(self, ty):
        """Whether a type without variables is known, has all its arguments and is normal."""
        name, parts = ty
        if name in ("Any", "_"):
            return name == "Any" and not parts
        if not all(self.is_form(part) for part in parts):
            return False
        if name == "Union":
            # none is a union or below another, and they stand in the order of their numbers
            numbers = [self.names.index(part[0]) if part[0] in self.names else -1 for part in parts]
            apart = not any(i != j and not b[1] and self.is_below(a, b[0]) for i, a in enumerate(parts) for j, b in enumerate(parts))
            return len(parts) != 1 and -1 not in numbers and apart and numbers == sorted(set(numbers))
        return name == "Tuple" or (name in self.arity and len(parts) == self.arity[name])

    def is_concrete(self, ty):
        name, parts = ty
        if name == "Tuple":
            return all(self.is_concrete(part) for part in parts)
        return name not in ("Any", "_", "Union") and name not in self.abstract

    def is_key(self, key):
        function, types = key
        return function in self.functions and len(types) <= 8 and all(self.is_form(t) and self.is_concrete(t) for t in types)


class Core:
    """A state: the events, and what each task has seen and knows."""

    def __init__(self, program, fuel, keys, rows):
        self.program, self.keys_room, self.rows_room = program, keys, rows
        self.events = [("begin", fuel)]
        self.tasks = [{"seen": 1, "known": [], "search": None}]
        self.opened = None

    # ---- what the events tell
    def of_kind(self, kind, events=None):
        return [e for e in (self.events if events is None else events) if e[0] == kind]

    def world(self, events=None):
        return FIRST_WORLD + len(self.changes(events))

    def changes(self, events=None):
        return [e for e in (self.events if events is None else events) if e[0] in ("def", "del")]

    def keys(self, events=None):
        return [e[1] for e in self.of_kind("key", events)]

    def rows(self):
        return [e[1:] for e in self.of_kind("fill")]

    def change_of(self, world, events=None):
        """The change that made a world: ("def", site) or ("del", place); none for a world of the prelude."""
        made = self.changes(events)
        at = world - FIRST_WORLD - 1
        return (made[at][0], made[at][2]) if 0 <= at < len(made) else None

    def head(self, change):
        """The function and the signature of a change, where there is such a site or place."""
        kind, number = change
        if kind == "def":
            return self.program.site(number)
        return self.program.places[number] if number < len(self.program.places) else None

    def site_of(self, world):
        change = self.change_of(world)
        return change[1] if change is not None and change[0] == "def" else None

    def touches(self, world, key):
        change = self.change_of(world)
        return change is not None and self.program.applies(self.head(change), key)

    def standing(self, world, events=None):
        """The worlds of the definitions that stand in a world: made up to it, and no later deletion up to it has their function and
        their signature."""
        change = lambda w: self.change_of(w, events)
        made = [w for w in range(FIRST_WORLD + 1, world + 1) if change(w)[0] == "def"]

        def takes(deletion, definition):
            place, site = self.head(change(deletion)), self.head(change(definition))
            return place[0] == site[0] and self.program.is_same_signature(site[1], place[1])
        return [w for w in made if not any(change(v)[0] == "del" and takes(v, w) for v in range(w + 1, world + 1))]

    def has_method_for(self, place, events=None):
        """Whether a method of the function and the signature of a deletion place stands in the newest world."""
        function, signature = self.program.places[place]
        sites = [self.head(self.change_of(w, events)) for w in self.standing(self.world(events), events)]
        return any(site[0] == function and self.program.is_same_signature(site[1], signature) for site in sites)

    def end_of(self, key, first):
        """The world before the next change that touches a key; none where there is none."""
        for world in range(first + 1, self.world() + 1):
            if self.touches(world, key):
                return world - 1
        return None

    def covers(self, key, first, world):
        last = self.end_of(key, first)
        return first <= world and (last is None or world <= last)

    def choose(self, key, world):
        """The site of the one most specific method; none where there is none."""
        methods = [w for w in self.standing(world) if self.touches(w, key)]
        signature = lambda w: self.program.site(self.site_of(w))[1]
        below = self.program.is_signature_below
        last = [w for w in methods if not any(v > w and self.program.is_same_signature(signature(w), signature(v)) for v in methods)]
        best = [w for w in last if all(v == w or (below(signature(w), signature(v)) and not below(signature(v), signature(w))) for v in last)]
        return self.site_of(best[0]) if best else None

    def ended(self, task, events=None):
        for event in self.of_kind("done", events):
            if event[1] == task:
                return event
        return None

    # ---- when steps are enabled
    def is_running(self, task):
        return 0 <= task < len(self.tasks) and self.ended(task) is None

    def is_free(self, task):
        return self.opened is None and self.is_running(task)

    def seen(self, task):
        return self.events[:self.tasks[task]["seen"]]

    def has_seen(self, task, key, world):
        if not 0 <= task < len(self.tasks):
            return False
        seen = self.seen(task)
        return key < len(self.keys(seen)) and FIRST_WORLD <= world <= self.world(seen)

    def may_cut(self, row):
        if self.opened is None or row >= len(self.rows()) or row in self.opened[2]:
            return False
        key, _, first = self.rows()[row]
        key = self.keys()[key]
        return self.end_of(key, first) is None and self.program.applies(self.head(self.opened[1]), key)

    def is_true(self, task, item):
        kind, at = item[0], item[-1]
        first = self.events[:at]
        here = self.events[at] if at < len(self.events) else None
        within = at <= len(self.events)
        if kind == "look":
            return within and self.world(first) == item[1]
        if kind == "def":
            return here is not None and here[:3] == ("def", task, item[1])
        if kind == "del":
            return here is not None and here[:3] == ("del", task, item[1])
        if kind == "absent":
            return (within and item[1] < len(self.program.places) and self.world(first) < MOST_WORLDS
                    and not self.has_method_for(item[1], first))
        if kind == "spawn":
            return here is not None and here[:3] == ("spawn", task, item[1])
        if kind == "fetch":
            return within and self.ended(item[1], first) is not None and self.ended(item[1], first)[2] == item[2]
        if kind == "worldfull":
            return within and self.world(first) == MOST_WORLDS
        return within and 1 + len(self.of_kind("spawn", first)) == MOST_TASKS

    def has_trace(self, task, items):
        low = 1
        for place, event in enumerate(self.events):
            if event[0] == "spawn" and event[2] == task:
                low = place + 1
        for item in items:
            if item[-1] < low or not self.is_true(task, item):
                return False
            low = item[-1] + (1 if item[0] in OWN else 0)
        own = [(e[0], e[2], place) for place, e in enumerate(self.events) if e[0] in OWN and e[1] == task]
        return low <= len(self.events) and own == [i for i in items if i[0] in OWN]

    def knows(self, task, others):
        return all(other in self.tasks[task]["known"] for other in others)

    def enabled(self, step):
        kind, arguments = step[0], step[1:]
        return getattr(self, "may_" + kind)(*arguments)

    def may_look(self, task):
        return self.is_running(task)

    def may_key(self, task, key):
        return self.is_free(task) and self.program.is_key(key) and key not in self.keys() and len(self.keys()) < self.keys_room

    def may_head(self, task, key, world):
        return self.is_running(task) and self.has_seen(task, key, world)

    def may_row(self, task):
        return 0 <= task < len(self.tasks) and self.tasks[task]["search"] is not None and self.tasks[task]["search"]["row"] is not None

    def may_fill(self, task, key, world):
        if not self.is_free(task) or not self.has_seen(task, key, world) or len(self.rows()) >= self.rows_room:
            return False
        named = self.keys()[key]
        covered = any(k == key and self.covers(named, first, world) for k, _, first in self.rows())
        return not covered and self.choose(named, world) is not None

    def may_open(self, task, site):
        return self.is_free(task) and self.program.site(site) is not None and self.world() < MOST_WORLDS

    def may_delete(self, task, place):
        return self.is_free(task) and self.world() < MOST_WORLDS and place < len(self.program.places) and self.has_method_for(place)

    def may_publish(self):
        return self.opened is not None and not any(self.may_cut(row) for row in range(len(self.rows())))

    def may_spawn(self, task, place, world, tasks):
        return (self.is_free(task) and len(self.tasks) < MOST_TASKS and place < self.program.spawns
                and world <= self.world(self.seen(task)) and self.knows(task, tasks))

    def may_done(self, task, outcome, items):
        mentioned = [outcome[1]] if outcome[0] in ("task", "failed") else []
        return self.is_free(task) and self.has_trace(task, items) and self.knows(task, mentioned)

    def may_fetch(self, task, other):
        return self.is_free(task) and self.knows(task, [other]) and self.ended(other) is not None

    # ---- what steps leave
    def see(self, task, count):
        self.tasks[task]["seen"] = max(self.tasks[task]["seen"], count)

    def add(self, task, event):
        self.events.append(event)
        self.see(task, len(self.events))

    def make(self, step):
        getattr(self, "make_" + step[0])(*step[1:])

    def last_place(self, test):
        return max((place + 1 for place, event in enumerate(self.events) if test(event)), default=0)

    def make_look(self, task):
        self.see(task, self.last_place(lambda e: e[0] in ("begin", "def", "del")))

    def make_key(self, task, key):
        self.add(task, ("key", key))

    def make_head(self, task, key, world):
        self.see(task, self.last_place(lambda e: e[0] == "fill" and e[1] == key))
        last = max((row for row, words in enumerate(self.rows()) if words[0] == key), default=None)
        self.tasks[task]["search"] = {"key": key, "world": world, "row": last, "found": None}

    def make_row(self, task):
        search = self.tasks[task]["search"]
        row = search["row"]
        key, site, first = self.rows()[row]
        last = self.world() if self.opened is not None and row in self.opened[2] else self.end_of(self.keys()[key], first)
        if first <= search["world"] and (last is None or search["world"] <= last):
            search["row"], search["found"] = None, site
        else:
            search["row"] = max((r for r in range(row) if self.rows()[r][0] == key), default=None)

    def make_fill(self, task, key, world):
        named = self.keys()[key]
        first = max([FIRST_WORLD] + [w for w in range(FIRST_WORLD + 1, world + 1) if self.touches(w, named)])
        self.add(task, ("fill", key, self.choose(named, world), first))

    def make_open(self, task, site):
        self.opened = (task, ("def", site), [])

    def make_delete(self, task, place):
        self.opened = (task, ("del", place), [])

    def make_cut(self, row):
        self.opened[2].append(row)

    def make_publish(self):
        task, (kind, number), _ = self.opened
        self.opened = None
        self.add(task, (kind, task, number))

    def make_spawn(self, task, place, world, tasks):
        child = len(self.tasks)
        self.add(task, ("spawn", task, child))
        self.tasks[task]["known"].append(child)
        self.tasks.append({"seen": len(self.events), "known": list(tasks), "search": None})

    def make_done(self, task, outcome, items):
        self.add(task, ("done", task, outcome))

    def make_fetch(self, task, other):
        outcome = self.ended(other)[2]
        self.see(task, len(self.events))
        if outcome[0] in ("task", "failed"):
            self.tasks[task]["known"].append(outcome[1])

    def found(self, task):
        search = self.tasks[task]["search"] if 0 <= task < len(self.tasks) else None
        return None if search is None else search["found"]

    def try_step(self, step):
        if not self.enabled(step):
            return False
        self.make(step)
        return True


# ---------------------------------------------------------------------------------------------------------------- steps as text


def read_types(words):
    stack = []
    for word in words:
        head, _, count = word.partition("/")
        at = len(stack) - int(count or 0)
        stack[at:] = [(head, stack[at:])]
    return stack


def read_outcome(words):
    if words and words[0] in ("task", "int", "failed"):
        return (words[0], int(words[1]))
    return ("stack",) if words and words[0] == "stack" else ("nothing",)


def read_item(words):
    if words[0] == "fetch":
        return ("fetch", int(words[1]), read_outcome(words[3:]), int(words[2]))
    return (words[0], *map(int, words[1:]))


def read_step(line):
    front, _, items = line.partition(":")
    words = front.split()
    kind = words[0]
    if kind == "key":
        return ("key", int(words[1]), (words[2], read_types(words[3:])))
    if kind == "spawn":
        return ("spawn", *map(int, words[1:4]), [int(word) for word in words[4:]])
    if kind == "done":
        return ("done", int(words[1]), read_outcome(words[2:]), [read_item(piece.split()) for piece in items.split(",") if piece.strip()])
    return (kind, *map(int, words[1:]))


def type_text(ty):
    return ty[0] + ("{" + ", ".join(map(type_text, ty[1])) + "}" if ty[1] or ty[0] in ("Tuple", "Union") else "")


def event_text(event):
    if event[0] == "key":
        return f"key {event[1][0]} {type_text(('Tuple', event[1][1]))}"
    if event[0] == "done":
        return f"done {event[1]}"
    return " ".join(map(str, event))


# ---------------------------------------------------------------------------------------------------------------- walks


class Hits:
    def __init__(self):
        self.all, self.wrong = 0, 0

    def compare(self, core, task, key, world):
        found = core.found(task)
        if found is not None:
            self.all += 1
            self.wrong += found != (core.choose(core.keys()[key], world) if key < len(core.keys()) else None)


class Worker:
    def __init__(self, line):
        task, _, works = line[5:].partition(":")
        self.task, self.works = int(task), [(w.split()[0], int(w.split()[1])) for w in works.split(",")]
        self.restart()

    def restart(self):
        self.next, self.stage, self.asked, self.searched = 0, "begun", (0, 0), None

    def work(self):
        return self.works[self.next] if self.next < len(self.works) else None

    def step(self, move):
        return {"look": ("look", self.task), "head": ("head", self.task, *self.asked), "row": ("row", self.task),
                "fill": ("fill", self.task, *self.asked), "publish": ("publish",)}.get(move) or (
            ("cut", move[1]) if move[0] == "cut" else (move[0], self.task, move[1]))

    def moves(self, core, is_open):
        work = self.work()
        may = lambda move: core.enabled(self.step(move))
        if work is None:
            return []
        if work[0] != "call":
            if self.stage == "begun":
                return [m for m in [("open" if work[0] == "define" else "delete", work[1])] if may(m)]
            return [m for m in [("cut", row) for row in range(len(core.rows()))] + ["publish"] if may(m)]
        if self.stage != "searching":
            return ["look" if self.stage == "begun" else "head"]
        for move in ("row", "fill"):
            if may(move):
                return [move]
        return [] if is_open else ["head"]

    def go_on(self):
        self.next, self.stage = self.next + 1, "begun"

    def note(self, core, move):
        if move == "look":
            self.asked, self.stage = (self.work()[1], core.world()), "looked"
        elif move in ("head", "row"):
            self.searched, self.stage = self.asked, "searching"
            missed = not core.enabled(("row", self.task)) and core.choose(core.keys()[self.asked[0]], self.asked[1]) is None
            if core.found(self.task) is not None or missed:
                self.go_on()
        elif move == "fill":
            self.stage = "looked"
        elif move == "publish":
            self.go_on()
        elif move[0] in ("open", "delete"):
            self.stage = "opened"


def sweep(core, hits):
    core.try_step(("look", 0))
    for key in range(len(core.keys())):
        for world in range(FIRST_WORLD, core.world() + 1):
            core.try_step(("head", 0, key, world))
            while core.try_step(("row", 0)):
                pass
            hits.compare(core, 0, key, world)


def walk(program, lines):
    workers = [Worker(line) for line in lines if line.startswith("task ")]
    path, ways, moves, stuck, hits, ends = [], 0, 0, 0, Hits(), Hits()
    while True:
        core = begin(program, lines)
        for worker in workers:
            worker.restart()
        old, widths, place = max(len(path) - 1, 0), [], 0
        while True:
            is_open = any(worker.stage == "opened" for worker in workers)
            turns = [(worker, move) for worker in workers for move in worker.moves(core, is_open)]
            if place == len(path):
                if not turns:
                    break
                path.append(0)
            worker, move = turns[path[place]]
            widths.append(len(turns))
            core.try_step(worker.step(move))
            worker.note(core, move)
            if place >= old:
                moves += 1
                for other in workers:
                    if other.searched is not None:
                        hits.compare(core, other.task, *other.searched)
            place += 1
        ways += 1
        stuck += any(worker.work() for worker in workers)
        sweep(core, ends)
        while path:
            last = path.pop()
            if last + 1 < widths[len(path)]:
                path.append(last + 1)
                break
        if not path:
            break
    return f"{ways} interleavings, {moves} moves, {stuck} stuck, {hits.all} hits, {ends.all} at the ends, {hits.wrong + ends.wrong} differences"


class Dice:
    def __init__(self, seed):
        self.state = seed

    def below(self, count):
        self.state = (self.state * 6364136223846793005 + 1442695040888963407) % 2 ** 64
        return (self.state >> 33) % count if count else 0


KINDS = ["look", "key", "head", "row", "fill", "open", "cut", "publish", "spawn", "done", "fetch"]
WEIGHTS = [3, 2, 6, 8, 5, 2, 6, 5, 1, 1, 2]


def random_step(dice, core, pool):
    rest = dice.below(41)
    kind = 0
    while rest >= WEIGHTS[kind]:
        rest -= WEIGHTS[kind]
        kind += 1
    name, tasks = KINDS[kind], len(core.tasks)
    if name == "cut":
        return kind, ("cut", dice.below(len(core.rows()) + 1))
    if name == "publish":
        return kind, ("publish",)
    task = dice.below(tasks + 1)
    key = dice.below(len(core.keys()) + 1)
    world = FIRST_WORLD + dice.below(core.world() - FIRST_WORLD + 2)
    if name == "key":
        return kind, ("key", task, pool[dice.below(len(pool))])
    if name in ("head", "fill"):
        return kind, (name, task, key, world)
    if name == "open":
        sites = len(core.program.sites) + 2
        number = dice.below(sites + len(core.program.places))
        return kind, ("open", task, FIRST_WORLD - 1 + number) if number < sites else ("delete", task, number - sites)
    value = lambda: (lambda t: t if t < tasks else None)(dice.below(2 * tasks))
    if name == "spawn":
        sent = value()
        return kind, ("spawn", task, 0, world, [] if sent is None else [sent])
    if name == "done":
        task = dice.below(tasks) + 1
        sent = value()
        own = [(e[0], e[2], place) for place, e in enumerate(core.events) if e[0] in OWN and e[1] == task]
        return kind, ("done", task, ("nothing",) if sent is None else ("task", sent), own)
    if name == "fetch":
        return kind, ("fetch", task, dice.below(tasks + 1))
    return kind, (name, task)


def random_walk(core, lines, seed, count):
    pool = [(line.split()[1], read_types(line.split()[2:])) for line in lines if line.startswith("pool ")]
    dice, searches, made, hits = Dice(seed), {}, [0] * len(KINDS), Hits()
    for _ in range(count):
        kind, step = random_step(dice, core, pool)
        if not core.try_step(step):
            continue
        made[kind] += 1
        if step[0] == "head":
            searches[step[1]] = step[2:]
        for task, search in searches.items():
            hits.compare(core, task, *search)
    return f"{' '.join(map(str, made))} made, {hits.all} hits, {hits.wrong} differences"


# ---------------------------------------------------------------------------------------------------------------- cases

ASKS = ("found", "history", "walk", "random", "world", "task", "pool", "place", "start")


def begin(program, lines):
    core = Core(program, *map(int, lines[0].split()[1:]))
    for line in lines[1:]:
        if line.split()[0] not in ASKS:
            core.try_step(read_step(line))
    return core


def answers(text, lines):
    program = Program(text)
    core = begin(program, lines[:1])
    for i, line in enumerate(lines):
        words = line.split()
        if words[0] == "found":
            found = core.found(int(words[1]))
            answer = "none" if found is None else str(found)
        elif words[0] == "history":
            answer = "; ".join(map(event_text, core.events))
        elif words[0] == "world":
            answer = str(core.world())
        elif words[0] == "walk":
            answer = walk(program, lines[:i])
        elif words[0] == "random":
            answer = random_walk(core, lines[:i], int(words[1]), int(words[2]))
        elif words[0] in ASKS:
            answer = ""
        else:
            answer = "yes" if core.try_step(read_step(line)) else "no"
        yield f"{line} => {answer}" if answer else line


def told(stdin):
    text, lines, out = [], [], []

    def end():
        if lines:
            out.extend(answers(text, lines))
        text.clear()
        lines.clear()

    for line in stdin.splitlines():
        if not line:
            end()
            out.append("")
        elif line.startswith("#"):
            out.append(line)
        elif line.startswith("| "):
            text.append(line[2:])
            out.append(line)
        else:
            lines.append(line)
    end()
    return "\n".join(out) + "\n"


def main():
    folder = pathlib.Path(__file__).resolve().parent.parent / "crates" / "core_cases"
    out = told((folder / "stdin").read_text())
    if sys.argv[1:] == ["check"]:
        same = out == (folder / "stdout").read_text()
        print("no difference" if same else "they differ")
        sys.exit(0 if same else 1)
    sys.stdout.write(out)


main()
