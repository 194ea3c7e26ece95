#!/usr/bin/env python3
"""Reads the text of a history, checks it, and writes it as JSON lines.

    jl trace < script.jl | tools/jl_history.py > events.jsonl
    jl trace < script.jl | tools/jl_history.py --script script.jl      with names, lines and, where they follow, worlds
    tools/jl_history.py --text < history                               the text that the run printed

The input is what `jl trace` writes, or a history alone. docs/HISTORY.md says what the lines mean. To import:

    read(data)          the events, exactly where `jl replay` does not answer BadText; else BadText with the line
    first_cause(events) the first event that breaks a rule of "What is always true", by the names of `jl replay`
    Worlds(events)      the worlds in which each task may have run, as far as the text, and the script, tell
    json_lines(events)  the lines

Status 0; 1 where the input is no history or breaks a rule; 2 where the words or a file are wrong.
"""

import argparse
import bisect
import json
import re
import sys
from dataclasses import dataclass
from typing import NamedTuple

HEADERS = {b"%%history 1": 1, b"%%history 2": 2}  # the first lines of the two versions
FIRST_WORLD = 14  # the world in which a run begins: the prelude has so many definitions
MOST_FUEL = 1_000_000_000
MOST_NUMBER = 4_294_967_295
MOST_ITEMS = 18_446_744_073_709_551_615
NUMBER = re.compile(rb"0|[1-9][0-9]{0,19}")
MOST_WORLDS, MOST_TASKS, MOST_KEYS, MOST_FILLS = 65_535, 4_096, 8_192, 16_384


@dataclass
class Begin:
    kind = "begin"
    fuel: int
    version: int = 1  # of the text: 2 where the script has a deletion, and only there


@dataclass
class Key:
    kind = "key"
    key: int
    function: str
    types: str


@dataclass
class Fill:
    kind = "fill"
    key: int
    site: int
    first: int


@dataclass
class Def:
    kind = "def"
    task: int
    site: int


@dataclass
class Del:
    kind = "del"
    task: int
    place: int


@dataclass
class Spawn:
    kind = "spawn"
    task: int
    child: int
    place: int


@dataclass
class Done:
    kind = "done"
    task: int
    calls: int
    trace: tuple  # of Item
    output: str
    outcome: str  # "value" or "error"
    text: str


class Item(NamedTuple):
    """A line of a trace. `number` is its world, site, place, child or task; `worldfull` and `taskfull` have none."""

    kind: str
    number: int
    at: int


NUMBER_OF_ITEM = {
    "look": "world",
    "def": "site",
    "del": "place",
    "absent": "place",
    "spawn": "child",
    "fetch": "task",
    "worldfull": None,
    "taskfull": None,
}
CHANGES = ("def", "del")  # the events that make worlds
OWN = ("def", "del", "spawn")  # the lines of a trace that name an event of the task
OF_VERSION_2 = ("del", "absent")  # the first words that version 1 does not have


class BadText(Exception):
    """The first line that is not of the form, counted from 1, or that is cut or missing."""

    def __init__(self, line, why):
        super().__init__(f"line {line}: BadText: {why}")
        self.line = line


class NoHistory(Exception):
    """No line is the first of a history."""


class Trouble(Exception):
    """What a tool says on standard error, and its status."""

    def __init__(self, text, status=1):
        super().__init__(text)
        self.status = status


def load(data):
    """The events of an input that keep the rules; else Trouble."""
    try:
        events = read(part(data)[1])
    except (BadText, NoHistory) as fault:
        raise Trouble(str(fault)) from fault
    broken = first_cause(events)
    if broken:
        raise Trouble(f"the history breaks a rule: {broken}")
    return events


# ---- reading


def part(data):
    """What comes before the history, and the history: it begins with the last line that is exactly its first."""
    starts = [found.start(1) for found in re.finditer(rb"(?:\A|\n)(%%history [12])(?=\n|\Z)", data)]
    if not starts:
        raise NoHistory("there is no history in the input: no line is exactly %%history 1 or %%history 2" + last_error(data))
    return data[: starts[-1]], data[starts[-1] :]


def last_error(data):
    """The error line of a script that is no program, for a message."""
    errors = [line for line in data.split(b"\n") if line.startswith(b"ERROR: ")]
    return "; it says: " + errors[-1].decode("utf-8", "replace") if errors else ""


class Lines:
    """The lines of a history, one after another."""

    def __init__(self, history):
        *self.lines, self.rest = history.split(b"\n")
        self.next, self.version = 0, 1

    def take(self):
        if self.next == len(self.lines):
            self.next += 1
            self.fail("it is cut" if self.rest else "it is missing")
        self.next += 1
        return self.lines[self.next - 1]

    def fail(self, why):
        raise BadText(self.next, why)

    def close(self):
        if self.next < len(self.lines) or self.rest:
            self.next += 1
            self.fail("nothing may follow the line `end`")

    def number(self, text, most=MOST_NUMBER):
        if not NUMBER.fullmatch(text) or int(text) > most:
            self.fail(f"{shown(text)} is no number from 0 to {most}")
        return int(text)

    def numbers(self, texts, count, last=MOST_NUMBER):
        if len(texts) != count:
            self.fail(f"after the first word there must be {count} fields")
        return [*map(self.number, texts[:-1]), self.number(texts[-1], last)]

    def text(self, data, what):
        if not data:
            self.fail(f"{what} is empty")
        return self.utf8(data, what)

    def utf8(self, data, what):
        try:
            return data.decode("utf-8")
        except UnicodeDecodeError:
            self.fail(f"{what} is not UTF-8")


def shown(data):
    return "`" + data[:40].decode("utf-8", "replace") + "`"


def read(history, version=None):
    """The events of the text of a history, its first line included; BadText where there are none.

    The version is that of the first line, or the one that is due for the script.
    """
    lines = Lines(history)
    lines.version = HEADERS.get(lines.take())
    if lines.version is None or version not in (None, lines.version):
        lines.fail(f"the first line is not %%history {version or '1 or %%history 2'}")
    words = lines.take().split(b" ")
    if words[0] != b"begin" or len(words) != 2:
        lines.fail("the second line is not `begin FUEL`")
    events = [Begin(lines.number(words[1], MOST_FUEL), lines.version)]
    while True:
        line = lines.take()
        words = line.split(b" ")
        if words[0] == b"end":
            if lines.numbers(words[1:], 1) != [len(events)]:
                lines.fail(f"there are {len(events)} events")
            lines.close()
            return events
        events.append(read_event(lines, line, words))


def read_event(lines, line, words):
    if words[0] == b"key":
        return read_key(lines, line)
    if words[0] == b"fill":
        return Fill(*lines.numbers(words[1:], 3))
    if words[0] == b"def":
        return Def(*lines.numbers(words[1:], 2))
    if words[0] == b"del" and lines.version == 2:
        return Del(*lines.numbers(words[1:], 2))
    if words[0] == b"spawn":
        return Spawn(*lines.numbers(words[1:], 3))
    if words[0] == b"done":
        return read_done(lines, words)
    return lines.fail(f"{shown(words[0])} begins no line of an event")


def read_key(lines, line):
    fields = line.split(b" ", 3)
    if len(fields) < 4:
        lines.fail("after `key` there must be three fields")
    return Key(lines.number(fields[1]), lines.text(fields[2], "FUNCTION"), lines.text(fields[3], "TUPLETYPE"))


def read_done(lines, words):
    task, calls, items = lines.numbers(words[1:], 3, MOST_ITEMS)
    trace = []
    while len(trace) < items:
        trace.append(read_item(lines))
    line = lines.take()
    if not line.startswith(b"output "):
        lines.fail("here must be the line `output`")
    output = unquote(lines, line[len(b"output ") :])
    line = lines.take()
    found = re.fullmatch(rb"outcome (value|error) (.*)", line, re.DOTALL)
    if not found:
        lines.fail("here must be the line `outcome`")
    return Done(task, calls, tuple(trace), output, found[1].decode(), lines.text(found[2], "TEXT"))


def read_item(lines):
    words = lines.take().split(b" ")
    kind = words[0].decode("utf-8", "replace")
    if kind not in NUMBER_OF_ITEM or kind in OF_VERSION_2 and lines.version == 1:
        lines.fail(f"{shown(words[0])} begins no line of a trace")
    if NUMBER_OF_ITEM[kind] is None:
        return Item(kind, None, *lines.numbers(words[1:], 1))
    return Item(kind, *lines.numbers(words[1:], 2))


MEANINGS = {b"\\\\": b"\\", b'\\"': b'"', b"\\n": b"\n", b"\\r": b"\r"}


def unquote(lines, text):
    if not re.fullmatch(rb'"(?:[^\\"\n\r]|\\[\\"nr])*"', text):
        lines.fail("the output is not in quotes as it should be")
    return lines.utf8(re.sub(rb"\\.", lambda found: MEANINGS[found[0]], text[1:-1]), "the output")


# ---- writing it again


def quote(text):
    for meaning, escape in (("\\", "\\\\"), ('"', '\\"'), ("\n", "\\n"), ("\r", "\\r")):
        text = text.replace(meaning, escape)
    return f'"{text}"'


def event_text(event):
    """The lines of an event."""
    if event.kind == "begin":
        return f"begin {event.fuel}\n"
    if event.kind != "done":
        return " ".join([event.kind, *map(str, vars(event).values())]) + "\n"
    items = [" ".join(str(field) for field in item if field is not None) + "\n" for item in event.trace]
    head = f"done {event.task} {event.calls} {len(items)}\n"
    return head + "".join(items) + f"output {quote(event.output)}\noutcome {event.outcome} {event.text}\n"


def history_text(events):
    """The one text of these events."""
    return f"%%history {events[0].version}\n" + "".join(map(event_text, events)) + f"end {len(events)}\n"


def run_text(events):
    """What the run printed: each task's output and then those of its tasks, in the order of their starts; then the root's error."""
    done = {event.task: event for event in events if event.kind == "done"}
    children = {}
    for event in events:
        if event.kind == "spawn":
            children.setdefault(event.task, []).append(event.child)
    parts, waiting = [], [0]
    while waiting:
        task = waiting.pop()
        parts.append(done[task].output)
        waiting.extend(reversed(children.get(task, [])))
    root = done[0]
    return "".join(parts) + (f"ERROR: {root.text}\n" if root.outcome == "error" else "")


# ---- checking


class Broken(NamedTuple):
    """The first event that breaks a rule, the cause by its name in docs/HISTORY.md, and the cause in words."""

    event: int
    cause: str
    why: str

    def __str__(self):
        return f"event {self.event}: {self.cause}: {self.why}"


class Checker:
    """What the events so far come to. The rules are those that the text alone tells, in the order of the causes."""

    def __init__(self, events):
        self.events = events
        self.ended_anywhere = {event.task for event in events if event.kind == "done"}
        self.worlds = [FIRST_WORLD]  # after so many events
        self.tasks = [1]
        self.starts, self.ends, self.own = {0: 0}, {}, {0: []}
        self.last_def, self.last_del = None, {}  # the places of the last definition, and of the last deletion of each place
        self.keys, self.fills = [], set()
        self.key_texts = set()

    def first(self):
        for place, event in enumerate(self.events):
            for cause, why in getattr(self, "check_" + event.kind)(place, event):
                return Broken(place, cause, why)
            self.note(place, event)
        return None

    def note(self, place, event):
        self.worlds.append(self.worlds[-1] + (event.kind in CHANGES))
        self.tasks.append(self.tasks[-1] + (event.kind == "spawn"))
        if event.kind == "key":
            self.keys.append(event)
            self.key_texts.add((event.function, event.types))
        elif event.kind == "fill":
            self.fills.add((event.key, event.first))
        elif event.kind == "def":
            self.own[event.task].append(("def", event.site, place))
            self.last_def = place
        elif event.kind == "del":
            self.own[event.task].append(("del", event.place, place))
            self.last_del[event.place] = place
        elif event.kind == "spawn":
            self.own[event.task].append(("spawn", event.child, place))
            self.starts[event.child] = place
            self.own[event.child] = []
        elif event.kind == "done":
            self.ends[event.task] = place

    def check_begin(self, place, event):
        if 0 not in self.ended_anywhere:
            yield "Unfinished", "the root has no `done`"

    def check_key(self, place, event):
        if event.key != len(self.keys):
            yield "KeyOrder", f"the next key has the number {len(self.keys)}, not {event.key}"
        if (event.function, event.types) in self.key_texts:
            yield "KeyOrder", f"the key {event.function} {event.types} was there before"
        if len(self.keys) == MOST_KEYS:
            yield "KeyOrder", "it is one too many"

    def check_fill(self, place, event):
        if event.key >= len(self.keys):
            yield "FillKey", f"there is no key {event.key}"
        if (event.key, event.first) in self.fills:
            yield "FillKey", f"key {event.key} has a fill from world {event.first} on already"
        if len(self.fills) == MOST_FILLS:
            yield "FillKey", "it is one too many"
        if not FIRST_WORLD <= event.first <= self.worlds[place]:
            yield "FillWorld", f"no definition or deletion before has made world {event.first}"

    def not_running(self, task):
        if task not in self.starts:
            return [("NotRunning", f"task {task} was not started before")]
        return [("NotRunning", f"task {task} has ended")] if task in self.ends else []

    def check_def(self, place, event):
        yield from self.not_running(event.task)
        if event.site < FIRST_WORLD:
            yield "Site", f"the sites of a script begin with {FIRST_WORLD}"
        if self.worlds[place] == MOST_WORLDS:
            yield "Limit", f"there are {MOST_WORLDS} worlds"

    def check_del(self, place, event):
        """A deletion takes all methods away that it can, so the same place has something to delete only after another definition."""
        yield from self.not_running(event.task)
        last = self.last_del.get(event.place)
        if self.last_def is None or last is not None and last > self.last_def:
            yield "NoDefinition", "nothing is defined " + ("before" if last is None else f"since event {last}, which deleted the same")
        if self.worlds[place] == MOST_WORLDS:
            yield "Limit", f"there are {MOST_WORLDS} worlds"

    def check_spawn(self, place, event):
        yield from self.not_running(event.task)
        if event.child != self.tasks[place]:
            yield "ChildOrder", f"the next task has the number {self.tasks[place]}, not {event.child}"
        if self.tasks[place] == MOST_TASKS:
            yield "Limit", f"there are {MOST_TASKS} tasks"
        if event.child not in self.ended_anywhere:
            yield "Unfinished", f"task {event.child} has no `done`"

    def check_done(self, place, event):
        yield from self.not_running(event.task)
        least = 1 if event.task == 0 else self.starts.get(event.task, 0) + 1
        for number, item in enumerate(event.trace):
            line = f"item {number} of the trace, `{' '.join(str(field) for field in item if field is not None)}`: "
            if item.at < least:
                yield "ItemFalse", line + f"AT is below {least}"
            if item.at > place:
                yield "ItemFalse", line + f"AT is above {place}, the number of this event"
            why = self.false_item(place, event.task, item)
            if why:
                yield "ItemFalse", line + why
            least = item.at + (item.kind in OWN)
        made = [tuple(item) for item in event.trace if item.kind in OWN]
        if made != self.own.get(event.task):
            yield "EventMissing", f"the `def`, `del` and `spawn` events of task {event.task} are not those of its trace"

    def false_item(self, place, task, item):
        """Why an item is not true of the events before this one, or nothing."""
        at = item.at
        if item.kind == "look":
            return f"the world was {self.worlds[at]}" if self.worlds[at] != item.number else ""
        if item.kind in OWN:
            return self.other_event(place, task, item)
        if item.kind == "absent":
            return self.present(item)
        if item.kind == "fetch":
            return "" if self.ends.get(item.number, at) < at else f"task {item.number} had not ended"
        if item.kind == "worldfull":
            return f"the world was {self.worlds[at]}" if self.worlds[at] != MOST_WORLDS else ""
        return f"there were {self.tasks[at]} tasks" if self.tasks[at] != MOST_TASKS else ""

    def other_event(self, place, task, item):
        """Why the event that a `def`, `del` or `spawn` of a trace names is not that of the task."""
        event = self.events[item.at] if item.at < place else None
        is_that = event and event.kind == item.kind and event.task == task and item.number == getattr(event, NUMBER_OF_ITEM[item.kind])
        return "" if is_that else f"event {item.at} is not that"

    def present(self, item):
        """Why there was something to delete, as far as the text tells: an event deletes it with no definition in between."""
        if self.worlds[item.at] == MOST_WORLDS:
            return f"the world was {MOST_WORLDS}"
        for place in range(item.at, len(self.worlds) - 1):
            event = self.events[place]
            if event.kind == "def":
                return ""
            if event.kind == "del" and event.place == item.number:
                return f"event {place} deletes it"
        return ""


def first_cause(events):
    """The first event of which the text alone tells that a rule is broken, as Broken, or nothing."""
    return Checker(events).first()


# ---- worlds


def worlds_after(events):
    """The newest world after the first 0, 1, 2, .. events."""
    worlds = [FIRST_WORLD]
    for event in events:
        worlds.append(worlds[-1] + (event.kind in CHANGES))
    return worlds


def is_of_definition(trace, number, deletes=False):
    """Whether a look is that of a definition: the definition comes directly after it, and nothing else runs in its world. A full world is
    told of a definition alone where nothing is deleted."""
    after = trace[number + 1].kind if number + 1 < len(trace) else None
    return after == "def" or after == "worldfull" and not deletes


class Worlds:
    """In which worlds the code of each task may have run.

    The text has no line for the end of what a look began: after `look 18 7` a task may run in world 18, or what looked may have ended, and
    the task be again in the world that it was in before. So from the text alone a task is in the world that it started in, or in one of
    those that it has looked at, except by the looks of definitions. A task starts in the world that its parent is in as it spawns it.

    With the script (jl_script.py) more is known: which statement of the root each look may be of, and that some code is reached from no
    `eval` and no `invokelatest`, so that it runs in the world in which its task, or its statement, began.

    `of[task]` has the worlds that a task may have started in; the root has none. `spans[task]` has pairs: an AT, and the world of the task
    from then on, or None where it may be one of several.
    """

    def __init__(self, events, script=None):
        self.script = script
        done = {event.task: event for event in events if event.kind == "done"}
        self.deletes = events[0].version == 2
        self.statements = script.statements(done[0]) if script else None
        self.places = {event.child: event.place for event in events if event.kind == "spawn"}
        self.starts = {event.child: place for place, event in enumerate(events) if event.kind == "spawn"}
        self.of, self.spans = {0: ()}, {}
        for task in range(len(done)):
            self.spans[task] = list(self.walk(task, done[task].trace))

    def walk(self, task, trace):
        """The spans of a task; on the way its children get their worlds."""
        if task:
            yield self.starts[task] + 1, one_of(self.of[task])
        looks, seen = [], -1  # the looks that may have begun what runs, as numbers of all looks and worlds
        for number, item in enumerate(trace):
            if item.kind == "look":
                seen += 1
                if not is_of_definition(trace, number, self.deletes):
                    looks.append((seen, item.number))
                base, after = self.base(task, seen)
                low = base[:1] + tuple(world for look, world in looks[bisect.bisect_left(looks, (after, 0)) :][:1])
                high = base[-1:] + tuple(world for look, world in looks[-1:] if look >= after)
                yield item.at, one_of(low + high)
            elif item.kind == "spawn":
                place = self.places[item.number]
                base, after = self.base(task, seen, place)
                if self.script and not self.script.is_inner(place):
                    self.of[item.number] = base
                else:
                    self.of[item.number] = tuple(sorted({*base, *(world for look, world in looks if look >= after)}))

    def base(self, task, look, place=None):
        """The worlds in which the task, or the root's statement, may have begun, and the first look that may be of something in it."""
        if task or not self.script:
            return self.of[task], 0
        item = self.script.item_of_spawn(place) if place is not None else None
        begins = self.statements.beginnings(look, item)
        return tuple(sorted({self.statements.world[begin] for begin in begins})), begins[0] if begins else 0


def one_of(worlds):
    """The world, where there is only one."""
    return worlds[0] if worlds and len(set(worlds)) == 1 else None


# ---- JSON lines


def place_of_site(places, site):
    return places.site(site) if places else {}


def as_object(place, event, worlds, keys, tasks, places):
    """The event as an object: its own fields by the names of docs/HISTORY.md in lower case, and what follows from the history."""
    told = {"event": place, "kind": event.kind} | vars(event)
    if event.kind == "done":
        told["trace"] = [item_object(item) for item in event.trace]
        told |= {"worlds": tasks.of[event.task]} if event.task else {}
    if event.kind == "fill":
        key = keys[event.key]
        told |= {"function": key.function, "types": key.types} | place_of_site(places, event.site)
    elif event.kind == "def":
        told |= {"world": worlds[place + 1]} | place_of_site(places, event.site)
    elif event.kind == "del":
        told |= {"world": worlds[place + 1]} | (places.deletion(event.place) if places else {})
    elif event.kind == "spawn":
        told |= {"worlds": tasks.of[event.child]} | (places.spawn(event.place) if places else {})
    return told


def item_object(item):
    name = NUMBER_OF_ITEM[item.kind]
    return {"kind": item.kind} | ({name: item.number} if name else {}) | {"at": item.at}


def json_lines(events, script=None, places=None):
    """An object for each event, as lines."""
    worlds, tasks = worlds_after(events), Worlds(events, script)
    keys = [event for event in events if event.kind == "key"]
    for place, event in enumerate(events):
        yield json.dumps(as_object(place, event, worlds, keys, tasks, places), ensure_ascii=False) + "\n"


# ---- as a program


def main():
    import jl_tool  # which imports this module

    parser = argparse.ArgumentParser(
        description="Reads a history on standard input, checks it, and writes a JSON object for each event, a line each."
    )
    parser.add_argument("--text", action="store_true", help="write what the run printed instead")
    jl_tool.add_places(parser)
    options = parser.parse_args()
    events = load(sys.stdin.buffer.read())
    script, places = jl_tool.load_places(options, events)
    written = [run_text(events)] if options.text else json_lines(events, script, places)
    for text in written:
        sys.stdout.buffer.write(text.encode("utf-8"))
    sys.stdout.buffer.flush()
    return 0


if __name__ == "__main__":
    import jl_history  # by the name under which the others import it
    import jl_tool

    sys.exit(jl_tool.run("jl_history", jl_history.main))
