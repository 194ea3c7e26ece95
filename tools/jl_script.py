"""What the tools over histories need of a script: its definitions, spawns and deletions, in order, and which code may look at a newer world.

It is no parser of the language: it reads tokens, brackets and blocks, for a script that `jl` has run. So it knows where each statement and
each definition begins and ends. What it says of looks is on the safe side: code may look where it has `eval` or `invokelatest` in it, or a
name of a function with such code; a function may be called from there where its name is reachable from what is evaluated or invoked.
"""

import re
from typing import NamedTuple

from jl_history import FIRST_WORLD, Trouble, is_of_definition

PRELUDE = ("+", "-", "*", "div", "rem", "-", "==", "!=", "<", "<=", ">", ">=", "!", "==")  # the functions of sites 0 to 13
SAME_FUNCTION = {"÷": "div", "%": "rem"}
RESERVED = frozenset("abstract struct function end if elseif else begin quote return where true false nothing isa".split())
OPENERS = {"(": ")", "[": "]", "{": "}"} | {word: "end" for word in ("abstract", "struct", "function", "if", "begin", "quote")}
OPERATORS = re.compile(r"===|!==|::|<:|>:|==|!=|<=|>=|&&|\|\||[=<>+\-*÷%!?:.,;()\[\]{}]")
STRING = re.compile(r'"(?:[^"\\]|\\.)*"', re.DOTALL)
NUMBER = re.compile(r"[0-9][0-9_]*")
SPACE = re.compile(r"[ \t\r]+|#(?!=)[^\n]*")


class Token(NamedTuple):
    kind: str  # name, number, string, operator or newline; a macro word is a name
    text: str
    line: int
    column: int


def end_of_name(text, start):
    end = start + 1
    while end < len(text) and ("a" + text[end]).isidentifier():
        end += 1
    return end


def end_of_comment(text, start):
    """The end of a block comment, which may have others in it."""
    depth, place = 1, start + 2
    while depth:
        found = re.compile("#=|=#").search(text, place)
        if not found:
            raise Trouble("the script has a comment that does not end", 2)
        depth += 1 if found[0] == "#=" else -1
        place = found.end()
    return place


def tokens_of(text):
    """The tokens of a script, without spaces and comments."""
    place, line, begin = 0, 1, 0
    while place < len(text):
        start, kind = place, None
        letter = text[place]
        if text.startswith("#=", place):
            place = end_of_comment(text, place)
        elif found := SPACE.match(text, place):
            place = found.end()
        elif letter == "\n":
            kind, place = "newline", place + 1
        elif letter.isidentifier() or letter == "@":
            kind, place = "name", end_of_name(text, place)
        else:
            kind, found = next(
                ((k, m) for k, form in (("number", NUMBER), ("string", STRING), ("operator", OPERATORS)) if (m := form.match(text, place))),
                (0, 0),
            )
            if not found:
                raise Trouble(f"line {line}, column {start - begin + 1} of the script begins no token", 2)
            place = found.end()
        if kind:
            yield Token(kind, text[start:place], line, start - begin + 1)
        if breaks := text.count("\n", start, place):
            line, begin = line + breaks, text.rfind("\n", start, place) + 1


class Region:
    """A statement at the top, a definition or evaluated code: it ends with its line, or with the brackets or block around it."""

    def __init__(self, kind, parent, depth, token, function=None):
        self.kind, self.parent, self.depth, self.function = kind, parent, depth, function
        self.line, self.column = token.line, token.column
        self.names = set()  # what stands in it and in the regions in it
        self.own_names = set()  # without those of definitions in it
        self.looks = kind == "evaluated"
        self.declares = self.is_spawn = False
        self.number = self.site = None  # of a statement: its number, and that of the definition that it is


class Reader:
    """Goes over the tokens of a script once."""

    def __init__(self, text):
        self.tokens = list(tokens_of(text))
        self.items, self.sites, self.spawns, self.deletions, self.evaluated, self.invoked = [], [], [], [], [], set()
        self.stack = []  # the words that close what is open, and whether statements begin in it
        self.region, self.starts = None, True

    def at(self, place):
        return self.tokens[place].text if place < len(self.tokens) else ""

    def read(self):
        previous = None
        for place, token in enumerate(self.tokens):
            if token.kind == "newline" or token.text == ";":
                if self.separates(token, previous):
                    self.close(len(self.stack))
                    self.starts = not self.stack or self.stack[-1][1]
                continue
            if self.starts:
                self.start(place, token)
            self.take(place, token)
            previous = token
        return self

    def separates(self, token, previous):
        if self.stack and self.stack[-1][0] != "end":
            return False
        return token.text == ";" or previous is None or previous.kind != "operator" or previous.text in (")", "]", "}", ";")

    def enter(self, kind, token, function=None):
        self.region = Region(kind, self.region, len(self.stack), token, function)

    def close(self, depth):
        """Leaves the regions that began where so much was open, or more."""
        while self.region and self.region.depth >= depth:
            self.region = self.region.parent

    def start(self, place, token):
        """A statement of the top or of evaluated code begins here."""
        self.starts = False
        if not self.stack and not self.region:
            self.enter("item", token)
            self.items.append(self.region)
            self.region.declares = token.text in ("struct", "abstract")
            bound = place + 2 if self.at(place + 1) == "=" else place
            self.region.is_spawn = self.at(bound) == "Threads" and self.at(bound + 2) == "@spawn"
        head = self.head(place)
        if head:
            if self.region.kind == "item":
                self.region.site = FIRST_WORLD + len(self.sites)
            self.enter("definition", self.tokens[head[0]], head[1])
            self.sites.append(self.region)

    def head(self, place):
        """Where the name of the function stands that is defined here, and the function; nothing where none is."""
        whole = self.at(place) == "function"
        first = name = place + whole
        if self.at(name) == "Base" and self.at(name + 1) == ".":
            name += 3 if self.at(name + 2) == ":" else 2
        elif not self.at(name).isidentifier() or self.at(name) in RESERVED:
            return None
        if self.at(name + 1) != "(" or not whole and not self.goes_on_as_method(name + 1):
            return None
        return first, SAME_FUNCTION.get(self.at(name), self.at(name))

    def goes_on_as_method(self, place):
        """Whether `=` or `where` comes after the parenthesis that closes the one here."""
        depth = 0
        for end in range(place, len(self.tokens)):
            depth += (self.at(end) in ("(", "[", "{")) - (self.at(end) in (")", "]", "}"))
            if depth == 0:
                return self.at(end + 1) in ("=", "where")
        return False

    def take(self, place, token):
        if token.text == "@eval" or token.text == "eval" and self.at(place + 1) == "(" and self.at(place - 1) != ".":
            self.enter("evaluated", token)
            self.evaluated.append(self.region)
            self.starts = token.text == "@eval" and self.at(place + 1) != "begin"
        elif token.text == "@spawn":
            self.spawns.append((self.tokens[max(place - 2, 0)], self.region))
        elif token.text == "invokelatest":
            self.invoke(place + 2)
        elif token.text == "delete_method" and self.at(place - 1) == "." and self.at(place + 2) == "which":
            self.deletions.append((self.tokens[place - 2], self.at(place + 4)))
        if token.kind in ("name", "operator") and token.text not in RESERVED:
            self.note(SAME_FUNCTION.get(token.text, token.text))
        if token.kind == "string":
            return
        if token.text in OPENERS:
            evaluates = token.text == "quote" or token.text == "begin" and self.at(place - 1) == "@eval"
            self.stack.append((OPENERS[token.text], evaluates))
            self.starts = evaluates
        elif token.text in (")", "]", "}", "end"):
            if not self.stack or self.stack.pop()[0] != token.text:
                raise Trouble(f"line {token.line}, column {token.column} of the script closes nothing", 2)
            self.close(len(self.stack) + 1)

    def invoke(self, place):
        while self.at(place) in ("Base", ".", ":"):
            place += 1
        self.invoked.add(SAME_FUNCTION.get(self.at(place), self.at(place)))
        region = self.region
        while region:
            region.looks, region = True, region.parent

    def note(self, name):
        region, own = self.region, True
        while region:
            region.names.add(name)
            if own:
                region.own_names.add(name)
            own = own and region.kind != "definition"
            region.looks = region.looks or name in ("@eval", "eval")
            region = region.parent


class Script:
    """The definitions, spawns, deletions and statements of a script."""

    def __init__(self, data):
        try:
            text = data.decode("utf-8")
        except UnicodeDecodeError as fault:
            raise Trouble("the script is not UTF-8", 2) from fault
        reader = Reader(text).read()
        self.lines = text.split("\n")
        self.sites, self.spawns, self.deletions = reader.sites, reader.spawns, reader.deletions
        self.items = [item for item in reader.items if not item.declares]
        for number, item in enumerate(self.items):
            item.number = number
        self.bodies = {}
        for site in self.sites:
            self.bodies.setdefault(site.function, []).append(site)
        evaluated = set().union(*(region.own_names for region in reader.evaluated)) if reader.evaluated else set()
        self.inner = self.reachable(evaluated | reader.invoked)
        self.looking = {
            name for name in self.bodies if any(site.looks for called in self.reachable({name}) for site in self.bodies[called])
        }

    def reachable(self, names):
        """The functions of these names, and all that their definitions name, and so on."""
        found, waiting = set(), [name for name in names if name in self.bodies]
        while waiting:
            name = waiting.pop()
            if name not in found:
                found.add(name)
                for site in self.bodies[name]:
                    waiting.extend(other for other in site.names if other in self.bodies and other not in found)
        return found

    def site(self, number):
        if number < FIRST_WORLD:
            return {"function": PRELUDE[number]}
        site = self.sites[number - FIRST_WORLD]
        return {"function": site.function, "line": site.line, "column": site.column}

    def spawn(self, number):
        token = self.spawns[number][0]
        return {"line": token.line, "column": token.column}

    def deletion(self, number):
        token, function = self.deletions[number]
        return {"function": function, "line": token.line, "column": token.column}

    def must_fit(self, events):
        for place, event in enumerate(events):
            lacks = ""
            if event.kind == "begin" and event.version != (2 if self.deletions else 1):
                lacks = f"its histories have not the version {event.version}"
            elif event.kind == "def" and event.site - FIRST_WORLD >= len(self.sites):
                lacks = f"event {place} is of site {event.site}, which it has not"
            elif event.kind == "spawn" and event.place >= len(self.spawns):
                lacks = f"event {place} is of spawn {event.place}, which it has not"
            elif event.kind == "del" and event.place >= len(self.deletions):
                lacks = f"event {place} is of deletion {event.place}, which it has not"
            if lacks:
                raise Trouble(f"the script is not that of the history: {lacks}", 2)
        root = next((event for event in events if event.kind == "done" and event.task == 0), None)
        if root and not self.statements(root).fits:
            raise Trouble("the script is not that of the history: the root's looks are not those of its statements", 2)

    def statements(self, done):
        return Statements(self, done)

    def is_inner(self, place):
        """Whether code that spawns here may run in another world than the one in which its task, or its statement at the top, began."""
        region = self.spawns[place][1]
        return region.kind == "evaluated" or region.kind == "definition" and region.function in self.inner

    def item_of_spawn(self, place):
        """The statement at the top that this spawn stands in, or nothing where it stands in a definition or in evaluated code."""
        region = self.spawns[place][1]
        return region if region.kind == "item" else None

    def may_look(self, item):
        """Whether a statement at the top may look again after its first look."""
        return item.site is None and not item.is_spawn and (item.looks or not item.names.isdisjoint(self.looking))


class Statements:
    """Of which statement at the top each look of the root may be.

    Each statement looks as it begins. One that may not look again has one look, and a definition has its own `def` directly after it. So
    the looks are dealt out to the statements, in order; `may_start[j]` has the looks with which statement j may begin, as bits.
    """

    def __init__(self, script, done):
        self.items = script.items
        trace = done.trace
        self.looks = [number for number, item in enumerate(trace) if item.kind == "look"]
        self.world = [trace[number].number for number in self.looks]
        count = len(self.looks)
        below = (1 << count) - 1
        deletes = bool(script.deletions)
        defined = sum(1 << look for look, number in enumerate(self.looks) if is_of_definition(trace, number, deletes))
        sites = self.looks_of_sites(trace)
        allowed = [below & ~defined if item.site is None else sites.get(item.site, sites["full"]) for item in self.items]
        self.wide = [script.may_look(item) for item in self.items]
        first = [1 if self.items else 0]
        for wide, allow in zip(self.wide, allowed):
            starts = first[-1] & allow
            first.append((-((starts & -starts) << 1) if wide and starts else starts << 1) & (below << 1 | 1))
        last = 1 << count
        self.may_start = [last & first[-1]]
        for j in reversed(range(len(self.items))):
            after = self.may_start[-1]
            if done.outcome == "error":
                after |= last
            before = (1 << after.bit_length() - 1) - 1 if self.wide[j] and after else after >> 1
            self.may_start.append(before & first[j] & allowed[j])
        self.may_start.reverse()
        self.fits = count == 0 if not self.items else bool(self.may_start[0])
        self.cover(count, done.outcome == "error")

    def looks_of_sites(self, trace):
        """For each site the look that comes with its `def` and nothing else, as bits; and that with which a full world is met."""
        found = {"full": 0}
        for look, (number, end) in enumerate(zip(self.looks, self.looks[1:] + [len(trace)])):
            if is_of_definition(trace, number) and end == number + 2:
                site = trace[number + 1].number
                found["full" if site is None else site] = found.get(site, 0) | 1 << look
        return found

    def cover(self, count, failed):
        """For each look, the looks with which the statement that it belongs to may have begun, as bits."""
        self.begins = [0] * count
        for j, starts in enumerate(self.may_start[:-1]):
            if not self.wide[j]:
                for look in bits(starts):
                    self.begins[look] |= 1 << look
            elif starts:
                end = count if failed else self.may_start[j + 1].bit_length() - 1
                for look in range((starts & -starts).bit_length() - 1, end):
                    self.begins[look] |= starts & ((2 << look) - 1)

    def beginnings(self, look, item=None):
        """The looks with which the statement may have begun that this look belongs to, where it is this one if one is named."""
        within = (2 << look) - 1
        return list(bits(self.begins[look] if item is None else self.may_start[item.number] & within))


def bits(number):
    while number:
        least = number & -number
        yield least.bit_length() - 1
        number ^= least


class Table:
    """Names and places from lines `site N FUNCTION LINE COLUMN`, `delete N FUNCTION LINE COLUMN` and `spawn N LINE COLUMN`; other lines
    are passed over."""

    def __init__(self, text):
        self.sites, self.spawns, self.deletions = {}, {}, {}
        for number, line in enumerate(text.split("\n"), 1):
            words = line.split(" ")
            try:
                if words[0] in ("site", "delete"):
                    word, number_of, function, at, column = words
                    places = self.sites if word == "site" else self.deletions
                    places[int(number_of)] = {"function": function, "line": int(at), "column": int(column)}
                elif words[0] == "spawn":
                    _, place, at, column = words
                    self.spawns[int(place)] = {"line": int(at), "column": int(column)}
            except ValueError as fault:
                raise Trouble(f"line {number} of the table of sites is not of the form", 2) from fault

    def site(self, number):
        return self.sites.get(number) or ({"function": PRELUDE[number]} if number < FIRST_WORLD else {})

    def spawn(self, number):
        return self.spawns.get(number, {})

    def deletion(self, number):
        return self.deletions.get(number, {})
