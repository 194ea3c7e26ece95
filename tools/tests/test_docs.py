#!/usr/bin/env python3
"""Runs what the pages show, and compares it with what they say beside it: tools/tests/test_docs.py

Of README.md and the pages of docs/ for users:

- a block of code with a comment at the end of a line is a script, or lines of a shell where they begin with ./jl: the comments are its output,
  line by line, and a line that holds only a comment goes on with the output of the one before;
- a block that is marked as Julia, `gives under `jl WORD``, and a block without a mark are a script and what that command writes of it;
- of a table with the columns Name and Example, each example has the fault of that name; of one with Text and Example the error of that
  text; of one with In Julia, Answer and Here, the left script has that answer, and the right one runs.

The program is crates/jl_main/out/jl_main, or the one that JL=FILE names."""

import os
import re
import subprocess
import unittest
from concurrent.futures import ThreadPoolExecutor

TOP = os.path.dirname(os.path.dirname(os.path.dirname(os.path.abspath(__file__))))
PROGRAM = os.path.abspath(os.environ.get("JL") or f"{TOP}/crates/jl_main/out/jl_main")
PAGES = ["README.md", "tools/README.md", *(f"docs/{it}.md" for it in ("LANGUAGE", "HISTORY", "LIMITS", "FROM_JULIA", "RUNNING"))]
# What the examples of the tables of faults may name.
GIVEN = "struct Box{T}; x::T end\nstruct Q{T<:Signed}; x::T end\n"
SECONDS = 60
# A script, a command, and what that writes of it.
LINES = r"((?:(?!```).*\n)*)"
SHOWN = re.compile(rf"^```julia\n{LINES}```\n\s*gives under `jl (\w+)`.*\n\s*^```\n{LINES}```$", re.M)


def page(name):
    with open(f"{TOP}/{name}", encoding="utf-8") as file:
        return file.read()


def jl(words, script):
    """What the program writes and its status."""
    ran = subprocess.run([PROGRAM, *words], input=script.encode(), stdout=subprocess.PIPE, timeout=SECONDS, check=False)
    return ran.stdout.decode(), ran.returncode


def blocks(text):
    """The blocks of code of a page: the number of the first line, the mark, and the text of each."""
    lines, found, at = text.split("\n"), [], 0
    while at < len(lines):
        if lines[at].startswith("```"):
            end = next(it for it in range(at + 1, len(lines)) if lines[it].startswith("```"))
            found.append((at + 2, lines[at][3:].strip(), "\n".join(lines[at + 1 : end]) + "\n"))
            at = end
        elif lines[at].startswith("    ") and (not at or not lines[at - 1].strip()):
            end = at
            while end < len(lines) and (lines[end].startswith("    ") or not lines[end].strip()):
                end += 1
            found.append((at + 1, "indented", "\n".join(it[4:] for it in lines[at:end]).rstrip() + "\n"))
            at = end - 1
        at += 1
    return found


def comment_of(line):
    """The comment at the end of a line, outside strings, and what is before it; or None."""
    plain = re.sub(r'"(?:\\.|[^"\\])*"', lambda it: "s" * len(it[0]), line)
    at = plain.find("# ")
    return (line[:at].strip(), line[at + 2 :].strip()) if at >= 0 else None


def outputs(block):
    """The output that the comments of a block say: those after code, and those that go on below one."""
    said, goes_on = [], False
    for line in block.split("\n"):
        found = comment_of(line)
        if found and (found[0] or (goes_on and line.startswith(" " * 4))):
            said.append(found[1])
            goes_on = True
        else:
            goes_on = False
    return said


def rows(text):
    """The rows of the tables of a page: the number of the line, and the cells by the names of the columns."""
    names = None
    for number, line in enumerate(text.split("\n"), 1):
        cells = [it.strip() for it in re.split(r"(?<!\\)\|", line)[1:-1]] if line.startswith("|") else None
        if not cells:
            names = None
        elif names is None:
            names = cells
        elif not set(line) <= set("|-: ") and len(cells) == len(names):
            yield number, dict(zip(names, cells))


def script_of(cell):
    """The script that an example is: code, or several `..`, then `..`; or None, where it is told in words."""
    cell = cell.replace("\\|", "|")
    if re.fullmatch(r"`[^`]+` twice", cell):
        return "\n".join([cell[1:-7]] * 2) + "\n"
    if not re.fullmatch(r"`[^`]+`(, then `[^`]+`)*", cell):
        return None
    return "\n".join(re.findall(r"`([^`]+)`", cell)) + "\n"


class Pages(unittest.TestCase):
    @classmethod
    def setUpClass(cls):
        if not os.access(PROGRAM, os.X_OK):
            raise AssertionError(f"there is no program {PROGRAM} (./build makes it, or JL=FILE names another)")

    def each(self, least, cases):
        """Tries each case, some at a time, and sees that there are not fewer than there were: a case that is not found is not tried."""
        with ThreadPoolExecutor(os.cpu_count()) as workers:
            tried = [(where, workers.submit(told), wanted) for where, told, wanted in cases]
        for where, told, wanted in tried:
            with self.subTest(where):
                self.assertEqual(told.result(), wanted)
        self.assertGreaterEqual(len(tried), least)

    def test_outputs_beside_code(self):
        def cases():
            for name in PAGES:
                for line, mark, block in blocks(page(name)):
                    said = outputs(block)
                    # a block that is an output may have any text in it
                    if said and mark in ("indented", "julia", "sh"):
                        run = shell if block.startswith(("./", "{")) else script
                        yield f"{name}:{line}", lambda it=block, by=run: by(it), said

        def script(block):
            return jl(["run"], block)[0].rstrip("\n").split("\n")

        def shell(block):
            lines = [it[0] for it in map(comment_of, block.split("\n")) if it and it[0]]
            return [line.rstrip("\n") for it in lines for line in self.shell(it)]

        self.each(10, cases())

    def shell(self, line):
        """What a line of a shell writes, with the program for ./jl."""
        line = line.replace("./jl ", f"'{PROGRAM}' ")
        ran = subprocess.run(["sh", "-c", line], cwd=TOP, stdout=subprocess.PIPE, timeout=SECONDS, check=False)
        return ran.stdout.decode().rstrip("\n").split("\n")

    def test_outputs_below_code(self):
        def cases():
            for name in PAGES:
                text = page(name)
                for it in SHOWN.finditer(text):
                    for threads in ("1", "4"):
                        where = f"{name}:{text.count(chr(10), 0, it.start()) + 1}, {threads} threads"
                        yield where, lambda by=it, on=threads: jl([by[2], "--threads", on], by[1])[0], it[3]

        self.each(2, cases())

    def test_faults(self):
        def cases():
            for number, row in rows(page("docs/LANGUAGE.md")):
                script = script_of(row.get("Example", ""))
                name = row.get("Name", "")
                if script and re.fullmatch(r"\w+", name):
                    yield f"docs/LANGUAGE.md:{number}", lambda it=script: self.fault(it), name
                elif script and name.startswith("a fault of"):
                    yield f"docs/LANGUAGE.md:{number}", lambda it=script: bool(self.fault(it)), True

        self.each(20, cases())

    def fault(self, script):
        """The name of the fault of a script, which may name the given types where it does not declare them."""
        given = "" if re.search(r"struct (Box|Q)\b", script) else GIVEN
        out, status = jl(["check"], given + script)
        found = re.fullmatch(r"ERROR: (?:line \d+, column \d+: )?(\w+)\n", out)
        return found[1] if found and status == 3 else None

    def test_errors_of_runs(self):
        def cases():
            for number, row in rows(page("docs/LANGUAGE.md")):
                script = script_of(row.get("Example", ""))
                if script and row.get("Text", "").startswith("`"):
                    wanted = f"ERROR: {row['Text'].strip('`')}\n", 1
                    yield f"docs/LANGUAGE.md:{number}", lambda it=script: jl(["run"], it), wanted

        self.each(17, cases())

    def test_from_julia(self):
        def cases():
            for number, row in rows(page("docs/FROM_JULIA.md")):
                if "In Julia" in row:
                    left, right = (script_of(row[it]) for it in ("In Julia", "Here"))
                    yield f"docs/FROM_JULIA.md:{number}, left", lambda it=left: self.answer(it), row["Answer"]
                    if right:
                        yield f"docs/FROM_JULIA.md:{number}, right", lambda it=right: jl(["run"], it)[1], 0

        self.each(80, cases())

    def answer(self, script):
        """The name of the fault of a script, or of the error of its run."""
        fault = self.fault(script)
        if fault:
            return fault
        out, status = jl(["run"], script)
        found = re.search(r"ERROR: (\w+)", out)
        return found[1] if found and status == 1 else None

    def test_examples_that_are_named(self):
        for name in PAGES:
            for it in re.findall(r"examples/(\w+\.jl)\b", page(name)):
                with self.subTest(f"{name}: {it}"):
                    self.assertTrue(os.path.isfile(f"{TOP}/examples/{it}"))


if __name__ == "__main__":
    unittest.main()
