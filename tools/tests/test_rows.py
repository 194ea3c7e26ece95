"""Answers of the built program that are known beforehand, where a case of check_cases can't say the input or the answer:
python3 -m unittest tools/tests/test_rows.py

JL=FILE takes another program than crates/jl_main/out/jl_main.
"""

import os
import subprocess
import sys
import unittest

TOOLS = os.path.dirname(os.path.dirname(os.path.abspath(__file__)))
TOP = os.path.dirname(TOOLS)
sys.path.insert(0, TOOLS)

import jl_history  # noqa: E402

PROGRAM = os.path.abspath(os.environ.get("JL") or os.path.join(TOP, "crates", "jl_main", "out", "jl_main"))

# All worlds are made, and one more is asked for.
ALL_WORLDS = b"""function more(n::Int64)
@eval g() = 1
n == 1 ? 0 : more(n - 1)
end
println(more(65520))
println(more(1))
"""


class EachWorldInTheHistory(unittest.TestCase):
    def test_it_has_a_definition_for_each(self):
        ran = subprocess.run([PROGRAM, "trace"], input=ALL_WORLDS, stdout=subprocess.PIPE)
        text, history = jl_history.part(ran.stdout)
        self.assertEqual((text, ran.returncode), (b"0\nERROR: WorldLimit: 65535 worlds\n", 1))
        events = jl_history.read(history)
        self.assertIsNone(jl_history.first_cause(events))
        definitions = [event for event in events if event.kind == "def"]
        # That of `more`, and then those of `g`.
        self.assertEqual(len(definitions), 65_521)
        self.assertEqual(definitions, [jl_history.Def(0, 14)] + [jl_history.Def(0, 15)] * 65_520)


# Scripts that delete, and what they write on every schedule.
DELETE = "Base.delete_method(which(f, Tuple{}))"
DELETED = (
    (
        "f(x) = 1\nf(x::Int64) = 2\nprintln(f(0))\n"
        "Base.delete_method(which(f, Tuple{Int64}))\nprintln(f(0))\nBase.delete_method(which(f, Tuple{Int64}))\n",
        "2\n1\nERROR: NoSuchMethod: f\n",
    ),
    (
        f"f() = 1\nlate() = f()\nt = Threads.@spawn late()\n{DELETE}\nprintln(fetch(t))\nprintln(f())\n",
        "1\nERROR: MethodError: no method matching f() in world 17\n",
    ),
    (
        f"f() = 1\nfor_all() = (Threads.@spawn {DELETE}, Threads.@spawn {DELETE}, Threads.@spawn {DELETE})\nfor_all()\nprintln(1)\n",
        "1\n",
    ),
)


class Deletions(unittest.TestCase):
    def test_a_run_a_history_and_its_judgement(self):
        for script, text in DELETED:
            for threads in ("1", "4", "64"):
                with self.subTest(script=script, threads=threads):
                    ran = subprocess.run([PROGRAM, "trace", "--threads", threads], input=script.encode(), stdout=subprocess.PIPE)
                    printed, history = jl_history.part(ran.stdout)
                    self.assertEqual((printed.decode(), ran.returncode), (text, int("ERROR" in text)))
                    events = jl_history.read(history, 2)
                    self.assertIsNone(jl_history.first_cause(events))
                    self.assertEqual(sum(event.kind == "del" for event in events), 1)
                    judged = subprocess.run([PROGRAM, "replay"], input=script.encode() + history, stdout=subprocess.PIPE)
                    self.assertEqual(judged.stdout.decode(), f"legal: {len(events)} events\n")


class HostileInputs(unittest.TestCase):
    def test_long_lines_and_each_cut_of_a_history(self):
        """Lines of 1,048,576 blanks or parentheses are not written into a file of cases; `reference/hostile.py` makes them."""
        words = [sys.executable, os.path.join(TOP, "reference", "hostile.py"), "rows", "replay"]
        ran = subprocess.run(words, env={**os.environ, "JL": PROGRAM}, stdout=subprocess.PIPE, stderr=subprocess.STDOUT, text=True)
        self.assertEqual(ran.returncode, 0, ran.stdout)


if __name__ == "__main__":
    unittest.main()
