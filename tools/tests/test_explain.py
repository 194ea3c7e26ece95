"""Tests of jl-explain, its words and the table of places: python3 -m unittest tools/tests/test_explain.py

JL=FILE takes another program than crates/jl_main/out/jl_main, and JL_SITES=FILE another one than crates/jl_sites/out/jl_sites.
"""

import contextlib
import glob
import io
import os
import re
import subprocess
import sys
import tempfile
import unittest
import unittest.mock
from importlib import machinery, util

TESTS = os.path.dirname(os.path.abspath(__file__))
TOOLS = os.path.dirname(TESTS)
TOP = os.path.dirname(TOOLS)
sys.path.insert(0, TOOLS)
sys.dont_write_bytecode = True

import jl_history  # noqa: E402
import jl_words  # noqa: E402

PROGRAM = os.path.abspath(os.environ.get("JL") or os.path.join(TOP, "crates", "jl_main", "out", "jl_main"))
SITES = os.path.abspath(os.environ.get("JL_SITES") or os.path.join(TOP, "crates", "jl_sites", "out", "jl_sites"))
NONE = os.path.join(TOP, "no such file")


def load(name):
    loader = machinery.SourceFileLoader(name.replace("-", "_"), os.path.join(TOOLS, name))
    module = util.module_from_spec(util.spec_from_loader(loader.name, loader))
    loader.exec_module(module)
    return module


EXPLAIN = load("jl-explain")


def explain(source, *words, jl=PROGRAM, sites=SITES):
    """The output, the words and the status of jl-explain for a script, which it is given as the file `script.jl`."""
    out, told = io.TextIOWrapper(io.BytesIO(), "utf-8"), io.StringIO()
    here, known = os.getcwd(), sys.argv
    with tempfile.TemporaryDirectory() as folder:
        with open(os.path.join(folder, "script.jl"), "wb") as file:
            file.write(source if isinstance(source, bytes) else source.encode("utf-8", "surrogateescape"))
        os.chdir(folder)
        sys.argv = ["jl-explain", *words, "script.jl"]
        try:
            with contextlib.redirect_stdout(out), contextlib.redirect_stderr(told), unittest.mock.patch.dict(os.environ, JL=jl, JL_SITES=sites):
                EXPLAIN.main()
        except SystemExit as end:
            status = end.code
        finally:
            os.chdir(here)
            sys.argv = known
    out.flush()
    return out.buffer.getvalue().decode(), told.getvalue(), status


def run(*command, data=b""):
    return subprocess.run(command, input=data, capture_output=True, check=False)


def read_file(*names):
    with open(os.path.join(TOP, *names), "rb") as file:
        return file.read()


def variants(crate, file, name):
    """The names of the variants of an enum of a crate."""
    text = read_file("crates", crate, "src", file).decode()
    body = re.search(rf"enum {name} \{{\n(.*?)\n\}}", text, re.DOTALL)[1]
    return set(re.findall(r"^    ([A-Z]\w*)", body, re.MULTILINE))


class Words(unittest.TestCase):
    def test_each_fault_has_its_words(self):
        for word in jl_words.TEXTS + jl_words.SCRIPTS:
            with self.subTest(word.name):
                out, told, status = explain(word.example)
                self.assertEqual((out, status), ("", 3))
                self.assertEqual(told.splitlines()[0].split(": ")[1], word.name)
                if word.name not in ("SourceTooLong", "BadCharacter", "Syntax"):
                    self.assertIn("Write", told)

    def test_each_error_has_its_words(self):
        for word in jl_words.RUNS:
            with self.subTest(word.name):
                out, told, status = explain(word.example, *word.options)
                self.assertEqual(status, 1)
                self.assertRegex(out, rf"(?:\A|\n)ERROR: {word.form}\n\Z")
                self.assertEqual(told.splitlines()[0], word.says)

    def test_each_hint_fits_its_example(self):
        for hint in jl_words.HINTS:
            with self.subTest(hint.says, there=hint.there):
                _, told, status = explain(hint.example)
                self.assertEqual(status, 3)
                place, _, caret, says, write, *rest = told.splitlines()
                self.assertEqual((place.split(": ")[1], caret[-1], rest), (hint.fault, "^", []))
                self.assertRegex(says, "^" + re.escape(hint.says).replace(re.escape("{0}"), ".+") + "$")
                self.assertRegex(write, "^" + re.escape("Write: " + hint.write).replace(re.escape("{0}"), ".+") + "$")

    def test_each_known_name_has_its_words(self):
        forms = {"UnknownType": "f(x::{0}) = x\n", "UnknownFunction": "f(x) = {0}(x)\n", "UnknownName": "f() = {0}\n"}
        for fault, known in jl_words.NAMES.items():
            for names, (says, _) in known.items():
                name = names.split()[-1]
                with self.subTest(name):
                    _, told, _ = explain(forms[fault].replace("{0}", name))
                    self.assertEqual(told.splitlines()[0], f"script.jl:1:{forms[fault].index('{') + 1}: {fault}")
                    self.assertIn(says.replace("{0}", name), told)

    def test_the_table_has_all(self):
        texts = variants("jl_token", "token.rt", "TokenFault") | variants("jl_reader", "fault.rt", "SyntaxFault")
        self.assertEqual({word.name for word in jl_words.TEXTS}, texts - {"Memory"})
        self.assertEqual({word.name for word in jl_words.SCRIPTS}, variants("jl_written", "fault.rt", "StaticKind"))
        self.assertEqual(len(jl_words.RUNS), len(variants("jl_program", "fault.rt", "Fault")))

    def test_each_fault_is_one_of_the_page(self):
        page = read_file("docs", "LANGUAGE.md").decode()
        for word in jl_words.TEXTS + jl_words.SCRIPTS:
            with self.subTest(word.name):
                self.assertIn(word.name, page)


class Natural(unittest.TestCase):
    """Ten scripts as a user of Julia writes them: each is refused at a line, with a caret and with words that name what to write."""

    def test_ten_scripts_are_refused_in_words(self):
        files = sorted(glob.glob(os.path.join(TESTS, "natural", "*.jl")))
        self.assertEqual(len(files), 10)
        for file in files:
            with self.subTest(os.path.basename(file)):
                source = read_file(file)
                out, told, status = explain(source)
                self.assertEqual((out, status), ("", 3))
                self.assertEqual(told, read_file(file.removesuffix(".jl") + ".told").decode())
                place, line, caret, says, write = told.splitlines()
                number, column = map(int, place.split(":")[1:3])
                self.assertEqual(line.split(" | ")[1], source.decode().split("\n")[number - 1])
                self.assertEqual(caret.index("^") - caret.index("|") - 1, column)
                self.assertNotIn(says, [word.says for word in jl_words.TEXTS])
                self.assertTrue(write.startswith("Write: ") and len(write) > 10)


class Runs(unittest.TestCase):
    def test_a_value_needs_no_words(self):
        self.assertEqual(explain("print(1)\n"), ("1", "", 0))

    def test_the_text_is_that_of_run(self):
        for name in ("order.jl", "failed_task.jl", "redefined.jl", "shapes.jl"):
            source = read_file("examples", name)
            ran = run(PROGRAM, "run", data=source)
            out, _, status = explain(source, "--threads", "4")
            self.assertEqual((out.encode(), status), (ran.stdout, ran.returncode))

    def test_definitions_have_their_lines(self):
        script = "# two rules\nf(x::Int64, y) = 1\n\nf(x, y::Int64) = 2\nprintln(f(1, 2))\n"
        _, told, _ = explain(script)
        self.assertIn("definition 15 is line 2: f(x::Int64, y) = 1\ndefinition 16 is line 4: f(x, y::Int64) = 2\n", told)

    def test_the_method_that_is_told_ends_an_ambiguity(self):
        plain = ("f(x::Int64, y) = 1\nf(x, y::Int64) = 2\n", "f(1, 2)")
        applied = ("struct B{T}; x::T end\nf(x::B{Int64}, y) = 1\nf(x, y::Tuple{Bool, Any}) = 2\n", "f(B(1), (true, 3))")
        for head, call in (plain, applied):
            _, told, _ = explain(f"{head}println({call})\n")
            method = re.search(r"^Write: .*: (f\(.*\))$", told, re.MULTILINE)[1]
            self.assertEqual(explain(f"{head}{method} = 3\nprintln({call})\n"), ("3\n", "", 0))

    def test_a_call_in_an_old_world_is_told_of_newer_methods(self):
        script = "f(x::Bool) = 1\nlate() = f(1)\nfunction go()\n    @eval f(x::Int64) = 2\n    late()\nend\ngo()\n"
        out, told, _ = explain(script)
        self.assertEqual(out, "ERROR: MethodError: no method matching f(::Int64) in world 17\n")
        self.assertIn("Of `f` world 17 has:\n  definition 15 is line 1: f(x::Bool) = 1\n", told)
        newer = "Newer than world 17, so not seen by this call; `Base.invokelatest(f, ..)` calls in the newest world:"
        self.assertIn(f"{newer}\n  definition 18 is line 4: @eval f(x::Int64) = 2\n", told)

    def test_a_call_before_its_definition_is_told_so(self):
        _, told, _ = explain("f(1)\nf(x) = x\n")
        self.assertIn("World 14 has no method of `f`.\nNot made by this run, or not yet:\n  line 2: f(x) = x\n", told)

    def test_a_deletion_that_finds_nothing_is_told_of_the_definitions(self):
        lines = ["f(x::Int64) = 1", "f(x) = 2", *["Base.delete_method(which(f, Tuple{Int64}))"] * 2]
        out, told, status = explain("\n".join(lines))
        self.assertEqual((out, status), ("ERROR: NoSuchMethod: f\n", 1))
        self.assertIn(f"It is line 4: {lines[3]}\n", told)
        made = f"Of `f` were made up to world 17:\n  definition 15 is line 1: {lines[0]}\n  definition 16 is line 2: {lines[1]}\n"
        self.assertIn(f"{made}Of these the methods with the same signature were deleted in\n  world 17: line 3: {lines[2]}\n", told)

    def test_a_call_after_a_deletion_is_told_of_it(self):
        out, told, _ = explain("f() = 1\nBase.delete_method(which(f, Tuple{}))\n@eval f() = 2\nBase.delete_method(which(f, Tuple{}))\nf()\n")
        self.assertEqual(out, "ERROR: MethodError: no method matching f() in world 18\n")
        self.assertIn("  definition 15 is line 1: f() = 1\n  definition 17 is line 3: @eval f() = 2\n", told)
        self.assertIn("  world 16: line 2: ", told)
        self.assertIn("  world 18: line 4: ", told)

    def test_only_a_function_of_the_script_is_deleted_from(self):
        _, told, status = explain("Base.div(x::Bool, y::Bool) = x\nBase.delete_method(which(div, Tuple{Bool, Bool}))\n")
        self.assertEqual((told.splitlines()[0], status), ("script.jl:2:26: UnknownFunction", 3))
        self.assertIn("only methods of a script's own functions are deleted", told)

    def test_comparing_structs_is_told_of(self):
        _, told, _ = explain("struct P; x end\nP(1) == P(1)\n")
        self.assertIn("`===`", told)

    def test_the_error_of_a_task_is_told_where_it_is_fetched(self):
        script = "half(n) = div(n, 0)\nt = Threads.@spawn half(1)\nu = Threads.@spawn fetch(t)\nfetch(u)\n"
        out, told, _ = explain(script)
        self.assertEqual(out, "ERROR: TaskFailedException: task 2\n")
        self.assertIn("task 2, started in line 3: u = Threads.@spawn fetch(t)\nIt failed with: TaskFailedException: task 1\n", told)
        self.assertIn("task 1, started in line 2: t = Threads.@spawn half(1)\nIt failed with: DivideError", told)

    def test_a_failed_task_that_is_not_fetched_is_told_of(self):
        out, told, status = explain("Threads.@spawn div(1, 0)\nprintln(1)\n")
        self.assertEqual((out, status), ("1\n", 0))
        self.assertIn("task 1, started in line 1: Threads.@spawn div(1, 0)\nIt failed, and no task fetched it: DivideError", told)

    def test_without_the_places_they_are_not_guessed(self):
        _, told, status = explain("f(x::Int64, y) = 1\nf(x, y::Int64) = 2\nf(1, 2)\n", sites=NONE)
        self.assertEqual(status, 2)
        _, told, _ = explain("f(x::Int64, y) = 1\nf(x, y::Int64) = 2\nf(1, 2)\n", sites="/bin/false")
        self.assertIn("definition 15 is site 14; its line is not known without jl_sites", told)


class Questions(unittest.TestCase):
    def test_the_definitions_of_an_answer_have_their_lines(self):
        script = "f(x) = 1\n\nf(x::Int64) = 2\n"
        answer = "14 14 none\n15 15 definition 15\n16 - definition 16\n"
        lines = "definition 15 is line 1: f(x) = 1\ndefinition 16 is line 3: f(x::Int64) = 2\n"
        self.assertEqual(explain(script, "--which", "f", "Tuple{Int64}"), (answer, lines, 0))

    def test_both_definitions_of_a_pair_have_their_lines(self):
        script = "f(x::Int64, y) = 1\nf(x, y::Int64) = 2\ng(a, b, c, d) = 3\ng()\n"
        out, told, status = explain(script, "--ambiguous", "--threads", "2")
        self.assertEqual(out, "f definitions 15 and 16 at Tuple{Int64, Int64}\ndefinition 17 not examined\npairs 1\n")
        self.assertEqual([line.split(" is ")[0] for line in told.splitlines()], ["definition 15", "definition 16", "definition 17"])
        self.assertEqual(status, 1)

    def test_a_built_in_definition_is_named(self):
        self.assertIn("definition 1 is built in", explain("Base.:+(x::Bool, y::Bool) = x\n", "--which", "+", "Tuple{Int64, Int64}")[1])

    def test_a_question_that_is_not_about_the_script(self):
        out, told, status = explain("f() = 1\n", "--which", "g", "Tuple{}")
        self.assertEqual((out, status), ("ERROR: QueryUnknown\n", 8))
        self.assertIn("Write: ", told)
        self.assertEqual(explain("f( = 1\n", "--which", "f", "Tuple{}")[2], 3)


class Command(unittest.TestCase):
    def test_a_check_runs_nothing(self):
        self.assertEqual(explain("println(1)\nf(x) = x\n", "--check"), ("ok: 0 types, 1 definitions\n", "", 0))
        self.assertEqual(explain("println(y)\n", "--check")[2], 3)

    def test_the_options_are_passed_on(self):
        out, told, status = explain("f() = f()\nf()\n", "--fuel", "7")
        self.assertEqual((out, status), ("ERROR: FuelSpent: 7 calls\n", 1))
        self.assertEqual(explain("f() = f()\n", "--threads", "65")[2], 2)

    def test_another_program_is_asked(self):
        self.assertNotEqual(explain("println(1)\n", jl="/bin/false")[2], 0)
        self.assertEqual(explain("println(1)\n", jl=NONE)[2], 2)

    def test_a_caret_is_under_its_character(self):
        _, told, _ = explain('println("日本", x)\n')
        self.assertEqual(told.splitlines()[1:3], ['1 | println("日本", x)', "  | " + " " * 16 + "^"])
        _, told, _ = explain("\tx = y\n")
        self.assertEqual(told.splitlines()[2], "  | \t    ^")
        _, told, _ = explain(f"x = ({'1 + ' * 100}y)\n")
        line, caret = told.splitlines()[1:3]
        self.assertEqual(line[caret.index("^")], "y")


# Definitions and spawns in one another, each named or answering by its line; the last line calls the functions that the rest only defines.
NESTED = """\
function f1(x)
    @eval begin
        f3(x) = begin @eval f3b(x) = 3; Threads.@spawn print(" ", 3) end
        f4(x) = x
    end
    Threads.@spawn begin
        print(" ", 6); Threads.@spawn print(" ", 7)
    end
end; Base.:÷(x::Bool, y::Bool) = x
if true
    @eval f11(x) = begin Threads.@spawn print(" ", 11); 1 end
else
    @eval f13(x) = x
end
t = (Threads.@spawn print(" ", 15), Threads.@spawn (@eval f15(x) = x))
eval(quote
    f17(x) = x ? Threads.@spawn print(" ", 17) : 2
end)
"""
DELETED = """\
f1(x) = begin @eval f1b() = 1; Base.delete_method(which(f1b, Tuple{})) end
if true; f1(1); Base . delete_method(
    which(f1, (Tuple{T} where T))) end
f4(which, delete_method) = which + delete_method
Base.delete_method(which(f4, Tuple{Any, Any}))
"""
CALLS = "f1(1)\nfetch(t[2])\nf3(1); f4(1); f11(1); f15(1); f17(true); true ÷ true; f3b(1)\n"


class Places(unittest.TestCase):
    """The table of jl_sites has the numbers that programs and histories have."""

    def table(self, source):
        ran = run(SITES, data=source)
        self.assertEqual(ran.returncode, 0)
        found = {"site": {}, "spawn": {}, "delete": {}}
        for line in ran.stdout.decode().splitlines():
            word, number, *fields = line.split(" ")
            self.assertEqual(int(number), len(found[word]) + (14 if word == "site" else 0))
            found[word][int(number)] = tuple(fields)
        return tuple(found.values())

    def agree(self, source):
        """Whether each method that a history names has the function that the table gives its site."""
        sites, spawns, deletions = self.table(source)
        checked = run(PROGRAM, "check", data=source).stdout.decode()
        if checked.startswith("ok: "):
            self.assertEqual(int(checked.split()[3]), len(sites))
        ran = run(PROGRAM, "trace", data=source)
        if ran.returncode not in (0, 1):
            return {}
        events = jl_history.read(jl_history.part(ran.stdout)[1])
        keys = {event.key: event.function for event in events if event.kind == "key"}
        found = {event.site: keys[event.key] for event in events if event.kind == "fill" and event.site >= 14}
        self.assertEqual(found, {site: sites[site][0] for site in found})
        self.assertLessEqual({event.site for event in events if event.kind == "def"}, set(sites))
        self.assertLessEqual({event.place for event in events if event.kind == "spawn"}, set(spawns))
        self.assertLessEqual({event.place for event in events if event.kind == "del"}, set(deletions))
        return found

    def test_the_numbers_of_the_examples(self):
        seen = 0
        for file in sorted(glob.glob(os.path.join(TOP, "examples", "*.jl"))):
            with self.subTest(os.path.basename(file)):
                source = re.split(rb"^%%history [12]\n", read_file(file), flags=re.MULTILINE)[0]
                if run(PROGRAM, "check", data=source).returncode == 0:
                    seen += len(self.agree(source))
        self.assertGreater(seen, 100)

    def test_definitions_and_spawns_in_one_another(self):
        source = (NESTED + CALLS).encode()
        found = self.agree(source)
        sites, spawns, _ = self.table(source)
        self.assertEqual(sorted(found.values()), ["div", "f1", "f11", "f15", "f17", "f3", "f3b", "f4"])
        for name, line, _ in sites.values():
            if name != "div":
                self.assertEqual(re.sub(r"\D", "", name), line)
        self.assertEqual(sites[18], ("div", "9", "6"))
        events = jl_history.read(jl_history.part(run(PROGRAM, "trace", data=source).stdout)[1])
        output = {event.task: event.output for event in events if event.kind == "done"}
        told = {event.place: output[event.child].split() for event in events if event.kind == "spawn"}
        self.assertEqual(len(told), len(spawns))
        for place, words in told.items():
            if words:
                self.assertEqual(spawns[place][0], words[0])

    def test_deletions_in_one_another(self):
        source = DELETED.encode()
        self.agree(source)
        self.assertEqual(self.table(source)[2], {0: ("f1b", "1", "32"), 1: ("f1", "2", "17"), 2: ("f4", "5", "1")})
        events = jl_history.read(jl_history.part(run(PROGRAM, "trace", data=source).stdout)[1])
        self.assertEqual([event.place for event in events if event.kind == "del"], [0, 1, 2])

    def test_columns_count_characters(self):
        sites, _, _ = self.table("#= ü\n日本 =# f(x) = x; é(x) = x\n".encode())
        self.assertEqual(sites, {14: ("f", "2", "7"), 15: ("é", "2", "17")})

    def test_what_is_no_script_has_no_table(self):
        for text in (b"f(x) = \n", b"\xff", b'"', b"#" * 1_048_577):
            ran = run(SITES, data=text)
            self.assertEqual((ran.returncode, ran.stdout), (3, b""))


if __name__ == "__main__":
    unittest.main()
