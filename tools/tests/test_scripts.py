#!/usr/bin/env python3
"""Tests ./jl, ./build, ./install and the scripts that take JL=FILE: tools/tests/test_scripts.py

The scripts are copied beside a repository of four small crates, and a kit that only looks like one is put in PATH: it notes how it is called,
and its program says which sources it was made of. So nothing is proved or compiled here. Where the real program is needed it is
crates/jl_main/out/jl_main, or the one that JL=FILE names."""

import itertools
import os
import shutil
import subprocess
import sys
import tempfile
import time
import unittest
from concurrent.futures import ThreadPoolExecutor

sys.dont_write_bytecode = True
TOP = os.path.dirname(os.path.dirname(os.path.dirname(os.path.abspath(__file__))))
REAL = os.path.abspath(os.environ.get("JL") or f"{TOP}/crates/jl_main/out/jl_main")
sys.path.insert(0, f"{TOP}/tools")
import program  # noqa: E402

USAGE = "usage: jl run|trace|ambiguous [--threads N] [--fuel N] | jl check|replay | jl gen N [--threads N] [--fuel N] | jl which NAME TYPE [--threads N] [--fuel N]\n"
UNPROVED = "jl: the program without proofs (./build makes the proved one)"
PROVED = "jl: the proved program"
# The crates, the lowest last, so that their order is not that of the file.
CRATES = "jl_main: high low std\nhigh: low\nlow:  # the lowest\ncases: high\n"
# A program that tells what it is, and takes the words as the real one does.
MADE = """#!/bin/sh
[ "$*" = check ] && { echo 'ok: 0 types, 0 definitions'; exit 0; }
[ "$*" ] || exit 0
read -r line || line=nothing
echo "KIND $* $line"
exit 7
"""
RT = """#!/bin/sh
echo "$(basename "$PWD"): $*" >> 'ROOM/calls'
case $1 in
    version) echo 'rattle-kit-0 logic 0' ;;
    doc) echo 'ROOM/kit/START-HERE.md' ;;
    try)
        [ -e 'ROOM/refuses' ] && { echo 'error: no program'; exit 1; }
        [ -e 'ROOM/is-slow' ] && { trap 'kill "$task"; echo ended >> "ROOM/calls"; exit 143' TERM; sleep 60 & task=$!; : > 'ROOM/waits'; wait "$task"; }
        mkdir -p "$TMPDIR/rt/probe" "$TMPDIR/rt/native"
        echo small > "$TMPDIR/rt/probe/module.bc"
        : > "$TMPDIR/rt/probe/module.o.tmp"
        head -c 1000001 /dev/zero > "$TMPDIR/rt/native/module.bc"
        : > "$TMPDIR/rt/native/module.o.tmp"
        sleep 20 & task=$!
        trap 'kill "$task"; exit 143' TERM
        wait "$task"
        ;;
    lib) [ ! -e "ROOM/broken-$(basename "$PWD")" ] || { echo 'a goal fails'; exit 1; } ;;
    run)
        mkdir -p out
        sed s/KIND/proved/ 'ROOM/made' > "out/$(basename "$PWD")"
        chmod +x out/*
        ;;
esac
"""
# What compiles the module, and what links it.
COMPILE = """#!/bin/sh
while [ "$1" != -o ]; do shift; done
: > "$2"
"""
LINK = """#!/bin/sh
echo linked "$@"
while [ "$1" != -o ]; do shift; done
sed "s/KIND/unproved of $(cat 'TOP/crates/low/src/lib.rt')/" 'ROOM/made' > "$2"
chmod +x "$2"
"""


def write(file, text, mode=0o644):
    os.makedirs(os.path.dirname(file), exist_ok=True)
    with open(file, "w", encoding="utf-8") as it:
        it.write(text)
    os.chmod(file, mode)


class Repository(unittest.TestCase):
    """A repository of its own for each test, with a kit beside it."""

    def setUp(self):
        room = tempfile.TemporaryDirectory()
        self.addCleanup(room.cleanup)
        self.room, self.top = room.name, f"{room.name}/a repository"
        for name in ("jl", "build", "install", "tools/program.py", "CHANGELOG.md", "docs/GATE.md", "docs/jl.1"):
            os.makedirs(os.path.dirname(f"{self.top}/{name}"), exist_ok=True)
            shutil.copy(f"{TOP}/{name}", f"{self.top}/{name}")
        write(f"{self.top}/crates.txt", CRATES)
        for name in ("jl_main", "high", "low", "cases"):
            write(f"{self.top}/crates/{name}/src/lib.rt", name)
            write(f"{self.top}/crates/{name}/specs/Lib.antt", name)
            write(f"{self.top}/crates/{name}/proofs/Lib.antt", name)
        fill = lambda text: text.replace("ROOM", self.room).replace("TOP", self.top)
        write(f"{self.room}/made", MADE)
        write(f"{self.room}/bin/rt", fill(RT), 0o755)
        write(f"{self.room}/kit/START-HERE.md", "")
        write(f"{self.room}/kit/toolchain/bin/ld.lld", fill(COMPILE), 0o755)
        write(f"{self.room}/kit/bin/rattle-link", fill(LINK), 0o755)

    def run_script(self, *words, text="1\n", **more):
        """Runs a script, and returns what it wrote, its status, and its lines on standard error."""
        there = {name: it for name, it in os.environ.items() if name not in ("JL", "JL_SITES")}
        there.update({"PATH": f"{self.room}/bin:{os.environ['PATH']}", "HOME": self.room, **more})
        how = {"env": there, "capture_output": True, "text": True, "timeout": 60}
        ran = subprocess.run(words, input=text, cwd=self.room, check=False, **how)
        return ran.stdout, ran.returncode, ran.stderr.splitlines()

    def jl(self, *words, **more):
        return self.run_script(f"{self.top}/jl", *words, **more)

    def build(self, *words):
        return self.run_script(f"{self.top}/build", *words)

    def calls(self):
        with open(f"{self.room}/calls", encoding="utf-8") as it:
            return it.read().splitlines()

    def age(self):
        """Makes all sources look newer than what was built."""
        later = time.time_ns() + 5_000_000_000
        for at, _, files in os.walk(f"{self.top}/crates"):
            for name in files:
                if "/out" not in at:
                    os.utime(f"{at}/{name}", ns=(later, later))


class Run(Repository):
    """./jl"""

    def test_words_that_are_no_command_build_nothing(self):
        for words in ([], ["--help"], ["run", "x.jl"], ["gen"], ["check", "1"]):
            self.assertEqual(self.jl(*words), (USAGE, 2, []), words)
        self.assertFalse(os.path.exists(f"{self.room}/calls"))

    def test_the_first_run_builds_and_the_next_ones_take_what_it_made(self):
        out, status, said = self.jl("run", "--threads", "2")
        self.assertEqual((out, status, said[-1]), ("unproved of low run --threads 2 1\n", 7, UNPROVED))
        self.assertIn("builds jl without proofs", said[0])
        self.assertEqual(self.jl("trace"), ("unproved of low trace 1\n", 7, [UNPROVED]))
        self.assertEqual(self.calls().count("jl_main: try -- run"), 1)
        self.assertEqual(sorted(os.listdir(f"{self.top}/out")), ["jl", "jl.sources", "lock"])

    def test_the_program_answers_the_words_where_it_is_built(self):
        self.jl("run")
        self.assertEqual(self.jl("--help"), ("unproved of low --help 1\n", 7, [UNPROVED]))

    def test_a_change_of_the_code_is_built_and_no_other_change(self):
        self.jl("run")
        for name in ("low/proofs/Lib.antt", "low/specs/Lib.antt", "cases/src/lib.rt"):
            write(f"{self.top}/crates/{name}", "other")
        self.age()
        self.assertEqual(self.jl("run")[2], [UNPROVED])
        write(f"{self.top}/crates/low/src/lib.rt", "other")
        self.age()
        self.assertEqual(self.jl("run")[0], "unproved of other run 1\n")
        self.assertEqual(self.calls().count("jl_main: try -- run"), 2)

    def test_two_first_runs_build_once(self):
        with ThreadPoolExecutor(2) as workers:
            ran = list(workers.map(self.jl, ["run", "run"]))
        self.assertEqual([it[0] for it in ran], ["unproved of low run 1\n"] * 2)
        self.assertEqual(self.calls().count("jl_main: try -- run"), 1)

    def test_sources_of_which_no_program_is_made(self):
        write(f"{self.room}/refuses", "")
        out, status, said = self.jl("run")
        self.assertEqual((out, status, said[-1]), ("", 70, "jl: rt try made no program of these sources"))
        self.assertIn("error: no program", said)
        self.assertEqual(os.listdir(f"{self.top}/out"), ["lock"])

    def test_a_kit_that_makes_something_else(self):
        write(f"{self.room}/made", "#!/bin/sh\n")
        out, status, said = self.jl("run")
        self.assertEqual((out, status), ("", 70))
        self.assertIn("what was compiled is not the program", said[-1])
        self.assertEqual(os.listdir(f"{self.top}/out"), ["lock"])

    def test_no_kit(self):
        os.remove(f"{self.room}/bin/rt")
        path = f"{self.room}/bin:/usr/bin:/bin"
        out, status, said = self.jl("run", PATH=path)
        self.assertEqual((out, status), ("", 70))
        self.assertIn("there is no command rt", said[-1])

    def test_a_run_that_is_cut_off_leaves_nothing(self):
        write(f"{self.room}/is-slow", "")
        there = {**os.environ, "PATH": f"{self.room}/bin:{os.environ['PATH']}"}
        how = {"stdin": subprocess.DEVNULL, "stderr": subprocess.PIPE, "cwd": self.room, "env": there}
        with subprocess.Popen([f"{self.top}/jl", "run"], **how) as run:
            while not os.path.exists(f"{self.room}/waits"):
                time.sleep(0.02)
            run.terminate()
            self.assertEqual(run.wait(60), 143)
        self.assertEqual((self.calls()[-1], os.listdir(f"{self.top}/out")), ("ended", ["lock"]))

    def test_a_link_to_it(self):
        os.symlink(f"{self.top}/jl", f"{self.room}/bin/other")
        self.assertEqual(self.run_script(f"{self.room}/bin/other", "run")[0], "unproved of low run 1\n")

    def test_the_proved_program_is_taken_where_no_source_changed(self):
        self.jl("run")
        self.build()
        self.assertEqual(self.jl("run"), ("proved run 1\n", 7, [PROVED]))
        self.age()
        self.assertEqual(self.jl("run"), ("proved run 1\n", 7, [PROVED]))
        write(f"{self.top}/crates/high/proofs/Lib.antt", "other")
        self.age()
        for _ in range(2):
            self.assertEqual(self.jl("run"), ("unproved of low run 1\n", 7, [UNPROVED]))

    def test_the_proved_program_of_the_gate_is_taken_by_the_times(self):
        self.build()
        # The gate makes it again, and leaves what ./build noted of another one.
        write(f"{self.top}/crates/low/src/lib.rt", "other")
        self.age()
        later = time.time_ns() + 6_000_000_000
        os.utime(f"{self.top}/crates/jl_main/out/jl_main", ns=(later, later))
        write(f"{self.top}/crates/cases/src/lib.rt", "other")
        os.utime(f"{self.top}/crates/cases/src/lib.rt", ns=(later + 1, later + 1))
        self.assertEqual(self.jl("run"), ("proved run 1\n", 7, [PROVED]))
        self.age()
        self.assertEqual(self.jl("run")[0], "unproved of other run 1\n")

    def test_version(self):
        out, status, _ = self.jl("--version")
        lines = out.splitlines()
        self.assertEqual((status, len(lines), lines[2]), (0, 4, "kit: rattle-kit-0 logic 0"))
        self.assertRegex(lines[0], r"^jl \d+\.\d+\.\d+$")
        self.assertIn("none yet", lines[3])
        self.jl("run")
        self.assertIn("program: without proofs", self.jl("--version")[0])
        self.build()
        self.assertIn("program: proved", self.jl("--version")[0])


class Build(Repository):
    """./build"""

    def test_it_proves_what_the_program_uses_lowest_first(self):
        self.assertEqual(self.build("--list")[0].split(), ["low", "high", "jl_main"])
        out, status, _ = self.build("--jobs", "2")
        self.assertEqual(status, 0)
        self.assertEqual(self.calls(), ["low: lib --jobs 1", "high: lib --jobs 1", "jl_main: run -- check"])
        told = [it.split(",")[0] for it in out.splitlines()[1:-1]]
        self.assertEqual(told, ["build: 1 of 3: low", "build: 2 of 3: high", "build: 3 of 3: jl_main"])
        self.assertEqual(out.splitlines()[-1], f"build: {self.top}/crates/jl_main/out/jl_main")

    def test_a_crate_that_is_not_proved_ends_it(self):
        write(f"{self.room}/broken-high", "")
        _, status, said = self.build()
        self.assertEqual((status, said), (1, ["a goal fails", "build: high is not proved (its check ended with 1)"]))
        self.assertEqual(self.calls(), ["low: lib --jobs 1", "high: lib --jobs 1"])
        self.assertFalse(os.path.exists(f"{self.top}/crates/jl_main/out/jl_main"))

    def test_a_program_of_tools_is_built_too(self):
        write(f"{self.top}/crates.txt", f"{CRATES}jl_sites: low\n")
        write(f"{self.top}/crates/jl_sites/src/main.rt", "sites")
        self.assertEqual(self.build("--list")[0].split(), ["low", "high", "jl_main", "jl_sites"])
        out, status, _ = self.build()
        ends = [f"build: {self.top}/crates/{it}/out/{it}" for it in ("jl_main", "jl_sites")]
        self.assertEqual((status, out.splitlines()[-2:]), (0, ends))
        write(f"{self.top}/tools/jl-tell", '#!/bin/sh\nexec "$JL_SITES" a\n', 0o755)
        self.run_script(f"{self.top}/install", self.room)
        self.assertEqual(self.run_script(f"{self.room}/bin/jl-tell")[0], "proved a 1\n")

    def test_unproved(self):
        self.assertEqual(self.build("--unproved")[0], f"build: {self.top}/out/jl\n")

    def test_other_words(self):
        for words in (["x"], ["--jobs"], ["--jobs", "x"]):
            self.assertEqual(self.build(*words)[1], 1, words)
        self.assertFalse(os.path.exists(f"{self.room}/calls"))

    def test_the_crates_of_this_repository(self):
        found = program.needed(["jl_main"])
        self.assertEqual((found[-1], len(found) == len(set(found))), ("jl_main", True))
        self.assertFalse([it for it in found if it.endswith(("_tests", "_cases"))])
        direct = program.uses()
        for at, name in enumerate(found):
            self.assertLessEqual(set(direct[name]), set(found[:at]))


class Install(Repository):
    """./install"""

    def install(self, *words):
        return self.run_script(f"{self.top}/install", *words)

    def test_program_page_and_tools(self):
        write(f"{self.top}/tools/jl-tell", '#!/bin/sh\necho "$(cat "$(dirname "$0")/jl_words") $*"\nexec "$JL" check\n', 0o755)
        write(f"{self.top}/tools/jl_words", "words")
        write(f"{self.top}/tools/tests/jl.py", "")
        write(f"{self.top}/tools/other", "")
        prefix = f"{self.room}/to here"
        self.assertEqual(self.install(prefix)[1], 1)
        self.assertFalse(os.path.exists(prefix))
        self.build()
        out, status, _ = self.install(prefix)
        self.assertEqual((status, out.splitlines()[0]), (0, f"install: {prefix}/bin/jl (proved), jl-tell"))
        self.assertEqual(self.run_script(f"{prefix}/bin/jl", "run")[0], "proved run 1\n")
        self.assertEqual(self.run_script(f"{prefix}/bin/jl-tell", "a b")[0], "words a b\nok: 0 types, 0 definitions\n")
        self.assertEqual(self.run_script(f"{prefix}/bin/jl-tell", JL="/bin/echo")[0], "words \ncheck\n")
        self.assertTrue(os.path.isfile(f"{prefix}/share/man/man1/jl.1"))
        self.assertEqual(sorted(os.listdir(f"{prefix}/lib/jl")), ["VERSION", "jl-tell", "jl_words"])
        self.assertEqual(self.install("--remove", prefix)[1], 0)
        self.assertEqual([it for it in os.walk(prefix) if it[2]], [])

    def test_unproved(self):
        out, status, _ = self.install("--unproved")
        self.assertEqual((status, out.splitlines()[0]), (0, f"install: {self.room}/.local/bin/jl (without proofs)"))

    def test_other_words(self):
        for words in (["--all"], ["a", "b"], ["--remove", f"{self.room}/none"]):
            self.assertEqual(self.install(*words)[1], 1, words)

    def test_the_page_has_the_version(self):
        with open(f"{TOP}/docs/jl.1", encoding="utf-8") as it:
            self.assertIn(f'"jl {program.version()}"', it.readline())


class Words(unittest.TestCase):
    """The words that ./jl refuses by itself are those that the program refuses."""

    POOL = (
        *("run", "trace", "check", "replay", "gen", "--threads", "--fuel", "--threads=2", "--fuel=007", "--threads=0", "--threads="),
        *("--fuel=1000000001", "2", "65", "007", "12345678901", "99999999", "100000000", "--", "-h", "", "x", "²"),
    )
    LONGER = (
        ["gen", "2", "--threads", "64", "--fuel", "0"],
        ["gen", "--threads", "3", "2"],
        ["gen", "--threads", "3"],
        ["gen", "--threads", "3", "2", "2"],
        ["run", "--threads", "2", "--threads", "3"],
        ["run", "--threads=2", "--threads", "3"],
        ["trace", "--fuel", "1000000000", "--threads=64"],
        ["run", "--fuel", "--threads", "2"],
        ["gen", "2", "--fuel="],
        ["gen", "2=3"],
    )

    def test_words(self):
        if not os.access(REAL, os.X_OK):
            self.fail(f"there is no program {REAL} (./build makes it, or JL=FILE names another)")
        lists = [list(it) for many in range(3) for it in itertools.product(self.POOL, repeat=many)]

        def refused(words):
            ran = subprocess.run([REAL, *words], stdin=subprocess.DEVNULL, capture_output=True, check=False)
            return (ran.returncode, ran.stdout) == (2, USAGE.encode())

        lists += self.LONGER
        with ThreadPoolExecutor(os.cpu_count()) as workers:
            for words, is_refused in zip(lists, workers.map(refused, lists)):
                self.assertEqual(program.is_command(words), not is_refused, words)
        self.assertEqual(f"{program.USAGE}\n", USAGE)


class OtherProgram(unittest.TestCase):
    """Each script that says so takes the program that JL=FILE names, so none of them passes with one that does nothing."""

    SCRIPTS = (
        *(["examples/compare"], ["examples/on_threads", "1"], ["examples/judge"]),
        *(["reference/words.py", "1"], ["reference/schedules.py", "1"], ["reference/explains.py", "1"]),
        *(["reference/hostile.py", "open"], ["reference/refuse.py", "memory", "500"], ["tools/measure_threads", "1"]),
    )

    def test_a_program_that_does_nothing_fails(self):
        def status(words):
            there = {**os.environ, "JL": "/bin/false"}
            return subprocess.run(words, cwd=TOP, env=there, stdin=subprocess.DEVNULL, capture_output=True, timeout=120, check=False).returncode

        with ThreadPoolExecutor(os.cpu_count()) as workers:
            for words, found in zip(self.SCRIPTS, workers.map(status, self.SCRIPTS)):
                self.assertNotEqual(found, 0, words)

    def test_a_file_beside_the_caller(self):
        with tempfile.TemporaryDirectory() as room:
            os.symlink("/bin/false", f"{room}/nothing")
            there = {**os.environ, "JL": "nothing"}
            for name in ("compare", "on_threads", "judge"):
                words = [f"{TOP}/examples/{name}", "1"]
                ran = subprocess.run(words, cwd=room, env=there, capture_output=True, text=True, check=False)
                self.assertNotIn("there is no", ran.stderr)
                self.assertNotEqual(ran.returncode, 0)


if __name__ == "__main__":
    unittest.main()
