"""Tests of the tools over histories: python3 -m unittest tools/tests/test_history.py

JL=FILE takes another program than crates/jl_main/out/jl_main.
"""

import contextlib
import io
import json
import os
import re
import subprocess
import sys
import tempfile
import unittest
import unittest.mock
import xml.dom.minidom
from argparse import Namespace
from importlib import machinery, util

TESTS = os.path.dirname(os.path.abspath(__file__))
TOOLS = os.path.dirname(TESTS)
TOP = os.path.dirname(TOOLS)
sys.path.insert(0, TOOLS)

import jl_history  # noqa: E402
import jl_script  # noqa: E402
import jl_tool  # noqa: E402

PROGRAM = os.environ.get("JL") or os.path.join(TOP, "crates", "jl_main", "out", "jl_main")


sys.dont_write_bytecode = True


def tool(name):
    """A tool as a module."""
    if name == "jl_history.py":
        return jl_history
    loader = machinery.SourceFileLoader(name.replace("-", "_"), os.path.join(TOOLS, name))
    module = util.module_from_spec(util.spec_from_loader(loader.name, loader))
    loader.exec_module(module)
    return module


MODULES = {name: tool(name) for name in ("jl_history.py", "jl-timeline", "jl-judge", "jl-diff")}


def read_file(*names):
    with open(os.path.join(TOP, *names), "rb") as file:
        return file.read()


def stored(name):
    return read_file("tools", "tests", name)


def run(name, *words, data=b"", program=PROGRAM):
    """The output, the status and the errors of a tool, which runs in this process and at the top of the repository."""
    out, err = io.TextIOWrapper(io.BytesIO(), "utf-8"), io.StringIO()
    module, here, known = MODULES[name], os.getcwd(), (sys.argv, sys.stdin)
    sys.argv, sys.stdin = [name, *words], Namespace(buffer=io.BytesIO(data))
    os.chdir(TOP)
    try:
        with contextlib.redirect_stdout(out), contextlib.redirect_stderr(err), unittest.mock.patch.dict(os.environ, JL=program):
            status = jl_tool.run(name, module.main)
    except SystemExit as end:
        status = end.code
    finally:
        os.chdir(here)
        sys.argv, sys.stdin = known
    out.flush()
    return out.buffer.getvalue().decode(), status, err.getvalue()


def events_of(name):
    return jl_history.load(stored(name))


EXAMPLE = """%%history 1
begin 10
def 0 14
spawn 0 1 0
key 0 f Tuple{Int64}
fill 0 14 15
done 1 1 0
output ""
outcome value 3
done 0 0 5
look 14 1
def 14 1
look 15 2
spawn 1 2
fetch 1 6
output "a\\"b\\\\c\\n"
outcome value nothing
end 7
"""


# A task deletes what the root has defined, and then the root finds nothing to delete.
DELETIONS = """%%history 2
begin 10
def 0 14
spawn 0 1 0
del 1 0
done 1 0 1
del 0 3
output ""
outcome value nothing
done 0 0 6
look 14 1
def 14 1
look 15 2
spawn 1 2
look 16 4
absent 1 5
output ""
outcome error NoSuchMethod: f
end 6
"""


# A script that has such a history.
DELETER = b"""f() = 1
t = Threads.@spawn Base.delete_method(which(f, Tuple{}))
Base.delete_method(which(f, Tuple{}))
"""


def plain_bytes(text):
    """A history of crates/history_cases: a bar is a newline, ^ and two digits are a byte, and what is between &N* and & is there N times."""
    text = re.sub(rb"&(\d+)\*([^&]*)&", lambda found: found[2] * int(found[1]), text)
    return re.sub(rb"\^([0-9A-F]{2})", lambda found: bytes([int(found[1], 16)]), text.replace(b"|", b"\n"))


class Reading(unittest.TestCase):
    def test_the_cases_of_the_program(self):
        """Each case that the proved reader is tried on is read, or refused at the same line. One after `@` is of a script with a deletion."""
        cases = [line.split(b" => ") for line in read_file("crates", "history_cases", "stdout").split(b"\n") if b" => " in line]
        self.assertGreater(len(cases), 50)
        for text, answer in cases:
            with self.subTest(text=text):
                history = plain_bytes(text.removeprefix(b"@"))
                try:
                    told = jl_history.history_text(jl_history.read(history, 2 if text.startswith(b"@") else 1)).encode()
                    self.assertEqual(told, history)
                    self.assertFalse(answer.startswith(b"line "), answer)
                except jl_history.BadText as fault:
                    self.assertEqual(f"line {fault.line}".encode(), answer)

    def test_the_history_begins_with_the_last_header(self):
        history = EXAMPLE.encode()
        self.assertEqual(jl_history.part(b"%%history 1\nx\n" + history), (b"%%history 1\nx\n", history))
        self.assertEqual(jl_history.part(b"x\n%%history 1"), (b"x\n", b"%%history 1"))
        self.assertEqual(jl_history.part(history + DELETIONS.encode()), (history, DELETIONS.encode()))
        for text in (b"x%%history 1\n", b"%%history 3\n", b"%%history 2 \n"):
            with self.assertRaises(jl_history.NoHistory):
                jl_history.part(text)

    def test_the_lines_of_version_2(self):
        self.assertEqual(jl_history.history_text(jl_history.read(DELETIONS.encode())), DELETIONS)
        for history, version, line in (
            (DELETIONS.replace("%%history 2", "%%history 1"), None, 5),
            (DELETIONS.replace("%%history 2", "%%history 1").replace("del 1 0\n", ""), None, 6),
            (DELETIONS, 1, 1),
            (EXAMPLE, 2, 1),
            (DELETIONS.replace("del 1 0", "del 1"), None, 5),
            (DELETIONS.replace("del 0 3", "del 0 03"), None, 7),
            (DELETIONS.replace("absent 1 5", "absent 5"), None, 16),
            (DELETIONS.replace("absent 1 5", "gone 1 5"), None, 16),
        ):
            with self.assertRaises(jl_history.BadText) as fault:
                jl_history.read(history.encode(), version)
            self.assertEqual(fault.exception.line, line)

    def test_the_text_of_the_run(self):
        events = events_of("race-a.history")
        self.assertEqual(jl_history.run_text(events).encode(), jl_history.part(stored("race-a.history"))[0])
        with_error = jl_history.read(EXAMPLE.replace("outcome value nothing", "outcome error NotTask: Int64").encode())
        self.assertEqual(jl_history.run_text(with_error), 'a"b\\c\nERROR: NotTask: Int64\n')


class Checking(unittest.TestCase):
    # A change of the example, and the event and the cause that are told of it.
    CHANGES = (
        ("begin 10", "begin 9", None),
        ("done 0 0 5", "done 2 0 5", (0, "Unfinished")),
        ("def 0 14", "def 2 14", (1, "NotRunning")),
        ("def 0 14", "def 0 13", (1, "Site")),
        ("spawn 0 1 0", "spawn 0 2 0", (2, "ChildOrder")),
        ("done 1 1 0", "done 0 1 0", (2, "Unfinished")),
        ("key 0 f", "key 1 f", (3, "KeyOrder")),
        ("fill 0 14 15", "fill 1 14 15", (4, "FillKey")),
        ("fill 0 14 15", "fill 0 14 16", (4, "FillWorld")),
        ("look 14 1", "look 14 0", (6, "ItemFalse")),
        ("look 14 1", "look 15 1", (6, "ItemFalse")),
        ("look 15 2", "look 15 1", (6, "ItemFalse")),
        ("def 14 1", "def 15 1", (6, "ItemFalse")),
        ("spawn 1 2", "spawn 1 1", (6, "ItemFalse")),
        ("fetch 1 6", "fetch 1 5", (6, "ItemFalse")),
        ("fetch 1 6", "fetch 1 7", (6, "ItemFalse")),
        ("fetch 1 6", "worldfull 6", (6, "ItemFalse")),
        ("fetch 1 6", "taskfull 6", (6, "ItemFalse")),
        ("spawn 1 2", "look 15 2", (6, "EventMissing")),
    )

    def test_the_first_broken_rule(self):
        for old, new, due in self.CHANGES:
            with self.subTest(old=old, new=new):
                self.assertIn(old, EXAMPLE)
                broken = jl_history.first_cause(jl_history.read(EXAMPLE.replace(old, new, 1).encode()))
                self.assertEqual(broken and (broken.event, broken.cause), due)

    # The same of the example with deletions.
    DELETED = (
        ("begin 10", "begin 9", None),
        ("del 1 0", "del 2 0", (3, "NotRunning")),
        ("del 1 0", "del 0 0", (4, "ItemFalse")),
        ("del 1 0", "del 1 1", (4, "ItemFalse")),
        ("def 0 14\nspawn 0 1 0\ndel 1 0", "spawn 0 1 0\ndel 1 0\ndef 0 14", (2, "NoDefinition")),
        ("del 1 0", "del 1 0\ndel 1 0", (4, "NoDefinition")),
        ("del 1 0", "del 1 0\ndel 1 1", (5, "EventMissing")),
        ("done 1 0 1\ndel 0 3", "done 1 0 0", (4, "EventMissing")),
        ("done 1 0 1\ndel 0 3", "done 1 0 2\ndel 0 3\ndel 0 3", (4, "ItemFalse")),
        ("done 1 0 1\ndel 0 3", "done 1 0 1\ndel 0 2", (4, "ItemFalse")),
        ("absent 1 5", "absent 0 5", None),
        ("look 16 4\nabsent 1 5", "look 15 3\nabsent 1 3", None),
        ("look 16 4\nabsent 1 5", "look 15 3\nabsent 0 3", (5, "ItemFalse")),
        ("absent 1 5", "absent 1 3", (5, "ItemFalse")),
        ("absent 1 5", "absent 1 6", (5, "ItemFalse")),
        ("absent 1 5", "worldfull 5", (5, "ItemFalse")),
        ("look 16 4", "look 15 4", (5, "ItemFalse")),
    )

    def test_the_first_broken_rule_of_deletions(self):
        for old, new, due in self.DELETED:
            with self.subTest(old=old, new=new):
                self.assertIn(old, DELETIONS)
                *lines, _, _ = DELETIONS.replace(old, new, 1).split("\n")
                count = self.events(lines) - self.events(self.traces(lines))
                broken = jl_history.first_cause(jl_history.read("\n".join([*lines, f"end {count}", ""]).encode()))
                self.assertEqual(broken and (broken.event, broken.cause), due)

    def events(self, lines):
        """How many lines have the first word of an event."""
        return sum(line.split(" ")[0] in ("begin", "def", "del", "spawn", "done") for line in lines)

    def traces(self, lines):
        """The lines of the traces."""
        for number, line in enumerate(lines):
            if line.startswith("done "):
                yield from lines[number + 1 : number + 1 + int(line.split(" ")[3])]

    def test_stored_histories_keep_the_rules(self):
        for name in ("race-a.history", "race-b.history", "redefined.history", "late.history", "unload.history"):
            self.assertIsNone(jl_history.first_cause(jl_history.read(jl_history.part(stored(name))[1])))


class TheWorldsOfTasks(unittest.TestCase):
    def test_redefined(self):
        events, script = events_of("redefined.history"), jl_script.Script(read_file("examples", "redefined.jl"))
        self.assertEqual(jl_history.Worlds(events).of, {0: (), 1: (16,), 2: (16, 17), 3: (16, 17, 18)})
        self.assertEqual(jl_history.Worlds(events, script).of, {0: (), 1: (16,), 2: (17,), 3: (18,)})

    def test_unload(self):
        events, script = events_of("unload.history"), jl_script.Script(read_file("examples", "unload.jl"))
        self.assertEqual(jl_history.run_text(events).encode(), read_file("examples", "unload.out"))
        self.assertEqual(jl_history.Worlds(events, script).of, {0: (), **dict.fromkeys(range(1, 6), (19,)), 6: (20,)})

    def test_the_last_look_is_not_the_world(self):
        events, script = events_of("late.history"), jl_script.Script(stored("late.jl"))
        self.assertEqual(jl_history.Worlds(events).of[1], (17, 18))
        self.assertEqual(jl_history.Worlds(events, script).of[1], (17,))

    def test_a_script_of_another_history(self):
        script = jl_script.Script(b"f() = 1\ng() = 2\n")
        with self.assertRaisesRegex(jl_history.Trouble, "not that of the history"):
            script.must_fit(events_of("late.history"))


class TheScript(unittest.TestCase):
    SCRIPT = """#= a comment #= in a comment =# f(x) = 0
=# struct P{T}; x::T end; f(x) = x ÷ 2   # g() = 1
"g() = 2"; println("g() = \\"3\\"")
function g(x::P{T},
           y) where T
    z = @eval begin h() = 1; f(1); Base.:÷(a::Bool, b::Bool) = Threads.@spawn 1 end
    @eval é() =
        2
    z === f(x) ? 1 : 2
end
Base.:+(x::Bool,
        y::Bool) = 1
t = Threads.@spawn begin
    f(2)
end
eval(quote k(x) where T<:Int64 = 1; x = (1,
  Threads.@spawn h()) end)
""".replace(
        '"g() = 2"; ', ""
    )

    def test_sites_and_spawn_places(self):
        script = jl_script.Script(self.SCRIPT.encode())
        self.assertEqual(
            [(site.function, site.line, site.column) for site in script.sites],
            [("f", 2, 27), ("g", 4, 10), ("h", 6, 21), ("div", 6, 36), ("é", 7, 11), ("+", 11, 1), ("k", 16, 12)],
        )
        self.assertEqual(
            [script.spawn(place) for place in range(3)], [{"line": 6, "column": 64}, {"line": 13, "column": 5}, {"line": 17, "column": 3}]
        )
        self.assertEqual([item.line for item in script.items], [2, 3, 4, 11, 13, 16])

    def test_a_table_of_sites(self):
        table = jl_script.Table("site 14 f 3 5\nspawn 0 7 9\ntypes 2\n")
        self.assertEqual(
            (table.site(14), table.spawn(0), table.site(0)),
            ({"function": "f", "line": 3, "column": 5}, {"line": 7, "column": 9}, {"function": "+"}),
        )
        with self.assertRaises(jl_history.Trouble):
            jl_script.Table("site 14 f 3")


    def test_deletions(self):
        script = jl_script.Script(b"g() = (Base . delete_method(which(f, Tuple{})), 1)\nf() = x.delete_method\n" + DELETER)
        self.assertEqual([script.deletion(place)["line"] for place in range(3)], [1, 4, 5])
        self.assertEqual(script.deletion(1), {"function": "f", "line": 4, "column": 20})
        self.assertEqual(jl_script.Table("delete 0 f 4 20").deletion(0), script.deletion(1))
        self.assertEqual([site.function for site in script.sites], ["g", "f", "f"])

    def test_a_script_of_the_other_version(self):
        script, other = jl_script.Script(DELETER), jl_script.Script(DELETER.split(b"\n")[0])
        script.must_fit(jl_history.read(DELETIONS.encode()))
        with self.assertRaisesRegex(jl_history.Trouble, "version 2"):
            other.must_fit(jl_history.read(DELETIONS.encode()))
        with self.assertRaisesRegex(jl_history.Trouble, "version 1"):
            script.must_fit(events_of("late.history"))


class JsonLines(unittest.TestCase):
    def test_stored(self):
        out, status, err = run("jl_history.py", "--script", "tools/tests/late.jl", data=stored("late.history"))
        self.assertEqual((out, status, err), (stored("late.jsonl").decode(), 0, ""))

    def test_nothing_is_lost(self):
        """The history is made of the objects again."""
        for text in (stored("race-a.history"), stored("redefined.history"), DELETIONS.encode()):
            out, status, _ = run("jl_history.py", data=text)
            kinds = {
                kind.kind: kind
                for kind in (
                    jl_history.Begin,
                    jl_history.Key,
                    jl_history.Fill,
                    jl_history.Def,
                    jl_history.Del,
                    jl_history.Spawn,
                    jl_history.Done,
                )
            }
            events = []
            for told in map(json.loads, out.splitlines()):
                kind = kinds[told["kind"]]
                if kind is jl_history.Done:
                    told["trace"] = [
                        jl_history.Item(item["kind"], next((v for k, v in item.items() if k not in ("kind", "at")), None), item["at"])
                        for item in told["trace"]
                    ]
                events.append(kind(**{field: told[field] for field in kind.__dataclass_fields__}))
            self.assertEqual((jl_history.history_text(events).encode(), status), (jl_history.part(text)[1], 0))

    def test_a_deletion(self):
        with tempfile.NamedTemporaryFile() as file:
            file.write(DELETER)
            file.flush()
            out, status, _ = run("jl_history.py", "--script", file.name, data=DELETIONS.encode())
        due = {"event": 3, "kind": "del", "task": 1, "place": 0, "world": 16, "function": "f", "line": 2, "column": 20}
        self.assertEqual((json.loads(out.splitlines()[3]), status), (due, 0))

    def test_the_page_shows_what_is_written(self):
        """The JSON lines and the words of jl-diff in tools/README.md are those of the tools."""
        page = read_file("docs", "HISTORY.md").decode() + read_file("tools", "README.md").decode()
        blocks = re.findall(r"```(?:julia)?\n(.*?)```", page, re.DOTALL)
        history = next(block for block in blocks if block.startswith("3\n%%history 1\n"))
        script = next(block for block in blocks if block.startswith("f(x) = x + 1\n"))
        with tempfile.NamedTemporaryFile() as file:
            file.write(script.encode())
            file.flush()
            out, status, _ = run("jl_history.py", "--script", file.name, data=history.encode())
        self.assertEqual(status, 0)
        self.assertIn(out, blocks)
        self.assertIn(stored("race.diff").decode(), blocks)
        self.assertIn(stored("race.jl").decode(), blocks)
        self.assertIn(stored("late.jl").decode(), blocks)


class TheTimeline(unittest.TestCase):
    def test_redefined(self):
        """The picture of tools/README.md; in it task 1 runs in world 16."""
        out, status, err = run("jl-timeline", "--script", "examples/redefined.jl", data=stored("redefined.history"))
        self.assertEqual((status, err), (0, ""))
        self.assertEqual(out, read_file("docs", "timeline.svg").decode())
        self.assertIn("task 1 runs in world 16", out)
        self.assertIn("world 16, line 4", out)
        self.assertRegex(out, r'viewBox="0 0 \d+ \d+"')

    def test_a_page(self):
        out, status, _ = run("jl-timeline", "--html", "--script", "examples/redefined.jl", data=stored("redefined.history"))
        self.assertEqual(status, 0)
        self.assertIn("task 1 runs in world 16", out)
        self.assertNotRegex(out.replace("http://www.w3.org/2000/svg", ""), r"https?:|src=")

    def test_deletions(self):
        """A deletion is a hollow diamond in the colour of the world that it makes, and has its place in the script."""
        out, status, _ = run("jl-timeline", data=DELETIONS.encode())
        self.assertEqual(status, 0)
        xml.dom.minidom.parseString(out)
        self.assertIn("6 events, 2 tasks, worlds 14 to 16", out)
        self.assertIn("event 3: task 1 deletes methods at place 0: world 16", out)
        self.assertEqual(len(re.findall(r'<polygon [^>]*fill="white"', out)), 1)
        out, _, _ = run("jl-timeline", "--script", "examples/unload.jl", data=stored("unload.history"))
        self.assertIn(": task 4 deletes methods of price, line 25: world 20", out)
        self.assertIn(">20 deletion of price :25<", out)

    def test_texts_are_escaped(self):
        history = EXAMPLE.replace("outcome value 3", "outcome error <b>&amp;\x01\x0c").replace("key 0 f", "key 0 <f>")
        out, status, _ = run("jl-timeline", data=history.encode())
        self.assertEqual(status, 0)
        xml.dom.minidom.parseString(out)
        self.assertIn("&lt;b&gt;&amp;amp;..", out)

    def many(self):
        """A history of 300 events and 61 tasks."""
        lines, trace = [], []
        for task in range(1, 61):
            trace.append(f"spawn {task} {1 + len(lines)}")
            lines.append(f"spawn 0 {task} 0")
            lines += [f"key {2 * task - 2 + i} f{i} Tuple{{{task}}}" for i in range(2)]
            lines += [f"fill {2 * task - 2} 0 14"]
        ends = [f'done {task} 0 0\noutput ""\noutcome value {task}' for task in range(1, 61)]
        root = [f"done 0 0 {1 + len(trace)}", "look 14 1", *trace, 'output ""', "outcome value nothing"]
        return "\n".join(["%%history 1", "begin 1", *lines, *ends, *root, f"end {len(lines) + 62}", ""]).encode()

    def test_folding(self):
        out, status, _ = run("jl-timeline", data=self.many())
        self.assertEqual(status, 0)
        xml.dom.minidom.parseString(out)
        self.assertIn("302 events, 61 tasks, worlds 14 to 14, 180 lines of the cache left out, 21 tasks folded into one lane", out)
        self.assertLess(int(re.search(r'width="(\d+)"', out)[1]), 3000)
        whole, _, _ = run("jl-timeline", "--all", data=self.many())
        self.assertIn("302 events, 61 tasks, worlds 14 to 14<", whole)
        chosen, _, _ = run("jl-timeline", "--tasks", "7,60", data=self.many())
        self.assertIn("58 tasks folded into one lane", chosen)


class TheDifference(unittest.TestCase):
    def test_stored(self):
        words = ["--script", "tools/tests/race.jl", "tools/tests/race-a.history", "tools/tests/race-b.history"]
        self.assertEqual(run("jl-diff", *words), (stored("race.diff").decode(), 1, ""))

    def test_deletions(self):
        with tempfile.TemporaryDirectory() as folder:
            names = [os.path.join(folder, name) for name in "ab"]
            for name, text in zip(names, (DELETIONS, DELETIONS.replace("look 16 4\nabsent 1 5", "look 15 3\nabsent 1 4"))):
                with open(name, "w") as file:
                    file.write(text)
            out, status, _ = run("jl-diff", *names)
            self.assertEqual(status, 1)
            self.assertIn("the 5th step: in A it looks at world 16, after 4 events; in B it looks at world 15, after 3 events", out)
            _, status, err = run("jl-diff", names[0], "tools/tests/race-a.history")
            self.assertEqual((status, err), (2, "jl-diff: A has the version 2 and B the version 1: they are not of one script\n"))

    def test_the_same(self):
        self.assertEqual(run("jl-diff", *["tools/tests/race-a.history"] * 2), ("The histories are the same.\n", 0, ""))


class TheJudge(unittest.TestCase):
    def judge(self, *words, program=PROGRAM):
        with tempfile.TemporaryDirectory() as folder:
            kept = os.path.join(folder, "kept")
            out, status, err = run("jl-judge", *words, "--keep", kept, program=program)
            return out.replace(kept, "KEPT"), status, err, sorted(os.listdir(kept)) if os.path.isdir(kept) else None

    def test_one_history(self):
        due = (
            "examples/traced.jl: 2 runs on 2 threads, 0 not legal\n1 history, 1 text\n  text-1: 2 runs\n"
            "  history-1, text-1: 2 runs, legal: 7 events\none of each is in KEPT\n"
        )
        self.assertEqual(self.judge("examples/traced.jl", "--runs", "2", "--threads", "2"), (due, 0, "", ["history-1", "text-1"]))

    def stand_in(self, folder, body):
        name = os.path.join(folder, "program")
        with open(name, "w") as file:
            file.write("#!/bin/sh\n" + body)
        os.chmod(name, 0o755)
        return name

    def test_a_history_that_is_not_legal(self):
        """Programs that stand in for `jl`: one whose histories break a rule, one whose `replay` refuses them, one that prints other things."""
        trace = "cat << 'END'\n" + EXAMPLE.replace("%%history", 'a"b\\c\n%%history', 1) + "END\n"
        bodies = (
            (trace.replace("fetch 1 6", "fetch 1 5"), "not legal: event 6: ItemFalse"),
            (f'[ "$1" = replay ] && echo "illegal: event 5: RunDiffers" && exit 7\n{trace}', "RunDiffers"),
            (trace.replace('a"b\\c\n%%', "other\n%%"), "text is not what was printed"),
        )
        for body, due in bodies:
            with self.subTest(due=due), tempfile.TemporaryDirectory() as folder:
                out, status, _, _ = self.judge("examples/traced.jl", "--runs", "1", program=self.stand_in(folder, body))
                self.assertEqual(status, 1)
                self.assertIn(due, out)

    def test_programs_that_fail(self):
        for program in ("/bin/false", "/nowhere"):
            out, status, err, kept = self.judge("examples/traced.jl", program=program)
            self.assertEqual((out, status, kept), ("", 2, None))
            self.assertEqual(err.count("\n"), 1)

    def test_a_script_that_is_no_program(self):
        _, status, err, _ = self.judge("examples/syntax.jl", "--runs", "1")
        self.assertEqual(status, 2)
        self.assertIn("Syntax", err)


class BadInput(unittest.TestCase):
    def test_help(self):
        for name in ("jl_history.py", "jl-timeline", "jl-judge", "jl-diff"):
            ran = subprocess.run([os.path.join(TOOLS, name), "--help"], capture_output=True, check=False)
            self.assertEqual((ran.returncode, ran.stdout.startswith(b"usage: " + name.encode())), (0, True))

    def test_one_line_and_a_status(self):
        cases = (
            ("jl_history.py", [], b"1\nERROR: line 1, column 2: Syntax\n", 1, "no history in the input: .*ERROR: line 1, column 2: Syntax"),
            ("jl_history.py", [], b"%%history 1\nbegin 1\nkey 0  Tuple{}\n", 1, "line 3: BadText: FUNCTION is empty"),
            ("jl_history.py", [], EXAMPLE.replace("look 14", "look 15").encode(), 1, "event 6: ItemFalse"),
            ("jl_history.py", ["--script", "/nowhere"], EXAMPLE.encode(), 2, "/nowhere: No such file"),
            ("jl_history.py", ["--script", "examples/first.jl"], EXAMPLE.encode(), 2, "not that of the history"),
            ("jl_history.py", ["--sites", "README.md", "--nonsense"], EXAMPLE.encode(), 2, "unrecognized"),
            ("jl-timeline", [], b"", 1, "there is no history"),
            ("jl-timeline", ["--tasks", "5"], EXAMPLE.encode(), 2, "there is no task 5"),
            ("jl-timeline", [], EXAMPLE.replace("def 0 14", "def 7 14").encode(), 1, "event 1: NotRunning"),
            ("jl-diff", ["tools/tests/race-a.history", "README.md"], b"", 2, "README.md: there is no history"),
            ("jl-diff", ["tools/tests/race-a.history"], b"", 2, "required: B"),
            ("jl-judge", ["/nowhere"], b"", 2, "/nowhere: No such file"),
            ("jl-judge", ["examples/replayed.jl"], b"", 2, "has a line %%history 1"),
            ("jl-judge", ["examples/first.jl", "--threads", "65"], b"", 2, "no number from 1 to 64"),
        )
        for name, words, data, due, told in cases:
            with self.subTest(name=name, words=words, told=told):
                out, status, err = run(name, *words, data=data)
                self.assertEqual((out, status), ("", due))
                self.assertRegex(err, told)


if __name__ == "__main__":
    unittest.main()
