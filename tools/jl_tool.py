"""What the tools over histories share: their options, how they end, and words for events."""

import os
import sys

import jl_history
import jl_script
from jl_history import Trouble


def read_file(name):
    try:
        with open(name, "rb") as file:
            return file.read()
    except OSError as fault:
        raise Trouble(f"{name}: {fault.strerror}", 2) from fault


def add_places(parser):
    """The options by which a tool gets names and lines."""
    parser.add_argument("--script", metavar="FILE", help="the script: names, lines, and worlds that the text alone does not tell")
    parser.add_argument(
        "--sites",
        metavar="FILE",
        help="lines `site N FUNCTION LINE COLUMN`, `delete N FUNCTION LINE COLUMN` and `spawn N LINE COLUMN`, taken before the script's",
    )


def load_places(options, events):
    """The script and the places of these options, each or none."""
    script = None
    if options.script:
        script = jl_script.Script(read_file(options.script))
        script.must_fit(events)
    table = jl_script.Table(read_file(options.sites).decode("utf-8", "replace")) if options.sites else None
    return script, table or script


def run(name, main):
    """Runs a tool: its troubles are one line on standard error and a status."""
    try:
        return main()
    except Trouble as trouble:
        print(f"{name}: {trouble}", file=sys.stderr)
        return trouble.status
    except BrokenPipeError:
        os.dup2(os.open(os.devnull, os.O_WRONLY), sys.stdout.fileno())  # so that the end of Python does not write there again
        return 1


def parts_of_tuple(types):
    """The parts of a text like `Tuple{Int64, Box{A, B}}`, or nothing where it is no such text."""
    if not (types.startswith("Tuple{") and types.endswith("}")):
        return None
    parts, depth, word = [], 0, ""
    for letter in types[len("Tuple{") : -1]:
        depth += (letter == "{") - (letter == "}")
        if letter == "," and depth == 0:
            parts.append(word.strip(" "))
            word = ""
        else:
            word += letter
    return parts + [word.strip(" ")] if word else parts


class Words:
    """Events and items in words, with names and lines where the places have them."""

    def __init__(self, events, places=None):
        self.events, self.places = events, places
        self.keys = [event for event in events if event.kind == "key"]
        self.worlds = jl_history.worlds_after(events)

    def task(self, task):
        return f"task {task}" if task else "the root"

    def site(self, site, mark=", line "):
        """A definition: its function and line, or its number."""
        told = self.places.site(site) if self.places else {}
        if not told:
            return f"site {site}"
        return told["function"] + (f"{mark}{told['line']}" if "line" in told else " of the prelude")

    def deletion(self, number, mark=", line "):
        """A deletion: its function and line, or its number."""
        told = self.places.deletion(number) if self.places else {}
        return f"of {told['function']}{mark}{told['line']}" if told else f"at place {number}"

    def line_of_spawn(self, place, mark=", line "):
        told = self.places.spawn(place) if self.places else {}
        return f"{mark}{told['line']}" if told else ""

    def key(self, number):
        key = self.keys[number]
        parts = parts_of_tuple(key.types)
        return f"{key.function} {key.types}" if parts is None else f"{key.function}({', '.join('::' + part for part in parts)})"

    def event(self, place):
        event = self.events[place]
        if event.kind == "begin":
            return f"the run begins, with {event.fuel} calls for each task"
        if event.kind == "key":
            return f"{self.key(event.key)} is called for the first time: key {event.key}"
        if event.kind == "fill":
            return f"from world {event.first} on, {self.key(event.key)} runs {self.site(event.site)}"
        if event.kind == "def":
            return f"{self.task(event.task)} defines {self.site(event.site)}: world {self.worlds[place + 1]}"
        if event.kind == "del":
            return f"{self.task(event.task)} deletes methods {self.deletion(event.place)}: world {self.worlds[place + 1]}"
        if event.kind == "spawn":
            return f"{self.task(event.task)} starts task {event.child}{self.line_of_spawn(event.place)}"
        calls = "1 call" if event.calls == 1 else f"{event.calls} calls"
        return f"{self.task(event.task)} ends after {calls} with the {event.outcome} {event.text}"

    def item(self, item):
        seen = "after 1 event" if item.at == 1 else f"after {item.at} events"
        if item.kind == "look":
            return f"looks at world {item.number}, {seen}"
        if item.kind == "def":
            return f"defines {self.site(item.number)}, event {item.at}"
        if item.kind == "del":
            return f"deletes methods {self.deletion(item.number)}, event {item.at}"
        if item.kind == "absent":
            return f"finds nothing to delete {self.deletion(item.number)}, {seen}"
        if item.kind == "spawn":
            return f"starts task {item.number}, event {item.at}"
        if item.kind == "fetch":
            return f"fetches task {item.number}, {seen}"
        return f"finds no room for {'another world' if item.kind == 'worldfull' else 'another task'}, {seen}"
