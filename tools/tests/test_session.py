#!/usr/bin/env python3
"""Tests tools/jl_session.py: tools/tests/test_session.py

The program is crates/jl_session/out/jl_session, or the one that JL_SESSION=FILE names. What the tool makes of an answer that is cut needs none."""

import os
import subprocess
import sys
import tempfile
import unittest

sys.dont_write_bytecode = True
TOP = os.path.dirname(os.path.dirname(os.path.dirname(os.path.abspath(__file__))))
REAL = os.path.abspath(os.environ.get("JL_SESSION") or f"{TOP}/crates/jl_session/out/jl_session")
sys.path.insert(0, f"{TOP}/tools")
import jl_session  # noqa: E402
from jl_session import Reply, Trouble, add, call  # noqa: E402

SCRIPT = "f(x) = x + 1"
REQUESTS = [call("f", 0, 5, 3), add("f(x::Int64) = 0"), call("f", 0, 5, 3), call("g", 0, 1, 1), "stop"]
REPLIES = [Reply("reply", "4\n"), Reply("added", "added"), Reply("reply", "0\n"), Reply("error", "ERROR: line 3, column 9: UnknownFunction"), Reply("error", "ERROR: BadRequest")]
WRITTEN = b"reply 2\n4\nadded\nreply 2\n0\nERROR: line 3, column 9: UnknownFunction\nERROR: BadRequest\n"


class Replies(unittest.TestCase):
    def test_written(self):
        self.assertEqual(jl_session.replies_in(WRITTEN), REPLIES)
        self.assertEqual(jl_session.replies_in(b""), [])

    def test_cut(self):
        for size in range(len(WRITTEN)):
            found = jl_session.replies_in(WRITTEN[:size])
            self.assertEqual(found, REPLIES[: len(found)], size)
        self.assertEqual(jl_session.replies_in(b"reply 5\nab\n"), [])

    def test_text_without_newline(self):
        self.assertEqual(jl_session.replies_in(b"reply 2\n\xc3\xa9added\n"), [Reply("reply", "é"), Reply("added", "added")])

    def test_source(self):
        self.assertEqual(jl_session.source_of("f(x) = 1", ["add ", "stop"]), b"f(x) = 1\n%%session\nadd \nstop\n")
        self.assertEqual(jl_session.source_of("", []), b"%%session\n")

    def test_refused(self):
        with self.assertRaises(Trouble):
            jl_session.source_of("f(x) = 1", ["add a\nb"])
        with self.assertRaises(Trouble):
            jl_session.source_of("f(x) = 1\n%%session\n", [])


class Sessions(unittest.TestCase):
    def hold(self, script, requests):
        return jl_session.hold(script, requests, REAL)

    def test_replies(self):
        held = self.hold(SCRIPT, REQUESTS)
        self.assertEqual((held.status, held.replies), (0, REPLIES))

    def test_script_is_no_program(self):
        with self.assertRaisesRegex(Trouble, "^ERROR: line 1, column 8: UnknownName$"):
            self.hold("f(x) = y", REQUESTS)

    def test_tool(self):
        with tempfile.NamedTemporaryFile("w", suffix=".jl") as script:
            script.write(SCRIPT)
            script.flush()
            tool = [f"{TOP}/tools/jl_session.py", script.name]
            how = {"env": {**os.environ, "JL_SESSION": REAL}, "capture_output": True, "text": True, "check": False}
            ran = subprocess.run([*tool, *REQUESTS[:3]], **how)
            self.assertEqual((ran.returncode, ran.stdout), (0, "4\nadded\n0\n"))
            ran = subprocess.run([*tool, *REQUESTS[3:]], **how)
            self.assertEqual((ran.returncode, ran.stdout), (1, "ERROR: line 2, column 9: UnknownFunction\nERROR: BadRequest\n"))


if __name__ == "__main__":
    unittest.main()
