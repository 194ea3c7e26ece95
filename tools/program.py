"""The program of these sources: which one there is, and how one is made without proofs.

`./jl`, `./build` and `./install` use this. Run by itself, as `./jl` does where it sees no program that is newer than all sources, it
finds or makes the program and runs it with the words that it is given.

The proved program is `crates/jl_main/out/jl_main`, which `./build` and `rt ci` leave. One without proofs is kept in `out/`, with the
checksum of the sources that it was made of. `rt try` would make it anew at each run, and with the checks of every address, which cost fifty
times the program's own time. So the module that `rt try` hands to the kit's clang is taken out of its folder, and compiled here. The tests of
places, overflows and the like are in it all the same: where one fails, the program stops."""

import contextlib
import fcntl
import hashlib
import os
import re
import shutil
import signal
import subprocess
import sys
import tempfile
import time

TOP = os.path.dirname(os.path.dirname(os.path.realpath(__file__)))
# Where programs without proofs are kept.
KEPT = f"{TOP}/out"
# No module of a program is this small, in bytes.
LEAST_MODULE = 200_000
# How the folders begin in which a program is made.
MAKING = "making-"
# The status where these scripts or the kit fail. No command ends with it.
FAILED = 70
# How often it is told that the build goes on, in seconds.
PAUSE = 15
USAGE = "usage: jl run|trace|ambiguous [--threads N] [--fuel N] | jl check|replay | jl gen N [--threads N] [--fuel N] | jl which NAME TYPE [--threads N] [--fuel N]"
BOUNDS = {"--threads": (1, 64), "--fuel": (0, 1_000_000_000)}
MOST_NUMBER = 99_999_999
# The commands, and how many words besides options each has.
COMMANDS = {"run": 0, "trace": 0, "ambiguous": 0, "check": 0, "replay": 0, "gen": 1, "which": 2}


class Failure(Exception):
    """Why there is no program."""


def tell(what):
    print(f"jl: {what}", file=sys.stderr, flush=True)


# ---- the sources


def uses():
    """The crates that each crate of crates.txt uses directly, without those of the kit."""
    with open(f"{TOP}/crates.txt", encoding="utf-8") as file:
        lines = (line.partition("#")[0] for line in file)
        found = re.findall(r"^(\w+)[^:\n]*:(.*)$", "\n".join(lines), re.M)
    direct = {name: used.split() for name, used in found}
    return {name: [it for it in used if it in direct] for name, used in direct.items()}


def needed(names):
    """The crates that these use, directly and through others, and they themselves, each after those that it uses."""
    direct, found = uses(), []

    def visit(name):
        if name not in found:
            for it in direct[name]:
                visit(it)
            found.append(name)

    for name in names:
        visit(name)
    return found


def checksum(names, parts):
    """The checksum of these parts of the crates."""
    direct, found = uses(), hashlib.sha256()
    for name in sorted(names):
        found.update(f"{name}: {sorted(direct[name])}\n".encode())
        for part in parts:
            for at, folders, files in os.walk(f"{TOP}/crates/{name}/{part}"):
                folders.sort()
                for file in sorted(files):
                    with open(f"{at}/{file}", "rb") as it:
                        data = it.read()
                    found.update(f"{os.path.relpath(f'{at}/{file}', TOP)} {len(data)}\n".encode())
                    found.update(data)
    return found.hexdigest()


def text_of(file):
    with contextlib.suppress(OSError), open(file, encoding="utf-8") as it:
        return it.read().strip()
    return None


def is_newer(names, file):
    """Whether a source of these crates is newer than this file."""
    then = os.stat(file).st_mtime_ns
    if os.stat(f"{TOP}/crates.txt").st_mtime_ns > then:
        return True
    for name in names:
        for part in ("src", "specs", "proofs"):
            for at, _, files in os.walk(f"{TOP}/crates/{name}/{part}"):
                if any(os.stat(f"{at}/{it}").st_mtime_ns > then for it in files):
                    return True
    return False


# ---- how one is made


def date(file, begun):
    """Gives the program the time at which its sources were looked at, so that `./jl` sees at once that none is newer."""
    for it in (file, f"{file}.sources"):
        with contextlib.suppress(OSError):
            os.utime(it, ns=(begun, begun))


def kit():
    """The folder of the kit, by its command's documented word for the first page."""
    if not shutil.which("rt"):
        raise Failure("there is no command rt; README.md says where the kit comes from")
    page = subprocess.run(["rt", "doc"], capture_output=True, text=True, check=False).stdout.strip()
    if not os.path.isfile(page):
        raise Failure("rt doc names no page, so the kit's folder is not known")
    return os.path.dirname(page)


def wait_for(found_now, what):
    """Waits until this gives something, tells now and then how long it took, and returns it."""
    begun = told = time.monotonic()
    while not (found := found_now()):
        time.sleep(0.05)
        if time.monotonic() - told > PAUSE:
            told += PAUSE
            tell(f"{what}, {told - begun:.0f} seconds so far")
    return found


def show(said):
    """Shows what the kit said."""
    said.seek(0)
    sys.stderr.write(said.read().decode(errors="replace"))


def end(process):
    """Ends a process that was started here, and waits for it."""
    if process.poll() is None:
        process.terminate()
        process.wait()


def module_in(folder):
    """The module of the program that `rt try` wrote, once the kit's clang writes its object file beside it: then the module is whole. Before
    it the kit compiles a module of a few bytes, to try its tools."""
    for at, _, files in os.walk(folder):
        if "module.bc" in files and any(it.endswith((".o", ".o.tmp")) for it in files):
            with contextlib.suppress(OSError):
                if os.path.getsize(f"{at}/module.bc") > LEAST_MODULE:
                    return f"{at}/module.bc"
    return None


def make_module(crate, folder, to):
    """Puts the module of a program, by `rt try`, at this place."""
    with open(f"{folder}/said", "w+b") as said:
        task = subprocess.Popen(
            ["rt", "try", "--", "run"],
            cwd=f"{TOP}/crates/{crate}",
            env={**os.environ, "TMPDIR": folder},
            stdin=subprocess.DEVNULL,
            stdout=said,
            stderr=said,
        )
        try:
            has_ended = lambda: module_in(folder) or task.poll() is not None
            found = wait_for(has_ended, "reads the sources")
            if found is True:
                show(said)
                raise Failure("rt try made no program of these sources")
            os.link(found, to)
        finally:
            end(task)


def compile_module(of_kit, module, to):
    """Compiles and links the module with the kit's tools. Its linker compiles too, and makes code with all processors. With this little
    inlining it takes two thirds of the time, and a run half as long again."""
    tools = f"{of_kit}/toolchain"
    how = ["-inline-threshold=0", "-relocation-model=pic"]
    steps = [
        [
            *[f"{tools}/bin/ld.lld", "-r", "--lto-newpm-passes=default<O1>", "--lto-CGO1", f"--lto-partitions={len(os.sched_getaffinity(0))}"],
            *[word for it in how for word in ("-mllvm", it)],
            *["-o", f"{to}.o", module],
        ],
        [
            *[f"{of_kit}/bin/rattle-link", "--target", "x86_64-unknown-linux-gnu", "--toolchain", tools, "-o", to],
            *[f"{to}.o", f"{of_kit}/c/libos_c.a", f"{of_kit}/c/liblibc_c.a"],
        ],
    ]
    for words in steps:
        with open(f"{to}.said", "w+b") as said:
            task = subprocess.Popen(words, stdin=subprocess.DEVNULL, stdout=said, stderr=said)
            try:
                wait_for(lambda: task.poll() is not None, "compiles")
            finally:
                end(task)
            if task.returncode:
                show(said)
                raise Failure(f"{os.path.basename(words[0])} of the kit ended with {task.returncode}")


class Program:
    """A program of this repository: its crate, what it is called, and a command with what that writes of an empty input, where it is known, and its status."""

    def __init__(self, crate, name, command, answer, status=0):
        self.crate, self.name, self.command, self.answer, self.status = crate, name, command, answer, status
        self.proved, self.kept = f"{TOP}/crates/{crate}/out/{crate}", f"{KEPT}/{name}"
        # Beside each is the checksum of what it was made of.
        self.proved_of, self.kept_of = f"{self.proved}.sources", f"{self.kept}.sources"

    def crates(self):
        return needed([self.crate])

    def of_code(self):
        return checksum(self.crates(), ["src"])

    def of_all(self):
        return checksum(self.crates(), ["src", "specs", "proofs"])

    def is_proved(self):
        """Whether the proved program is that of these sources. `rt ci` notes no checksum: then no source may be newer."""
        if not os.access(self.proved, os.X_OK):
            return False
        said = text_of(self.proved_of)
        is_noted = said and os.stat(self.proved_of).st_mtime_ns >= os.stat(self.proved).st_mtime_ns
        return said == self.of_all() if is_noted else not is_newer(self.crates(), self.proved)

    def is_kept(self):
        """Whether the program without proofs that is kept is that of these sources."""
        return os.access(self.kept, os.X_OK) and text_of(self.kept_of) == self.of_code()

    def look_at(self, made):
        """Sees that what was made is the program."""
        ran = subprocess.run([made, *self.command], stdin=subprocess.DEVNULL, capture_output=True, check=False)
        if ran.returncode != self.status or self.answer not in (None, ran.stdout):
            raise Failure("what was compiled is not the program, so this kit makes its module in another way than is known here")

    def make(self):
        """Makes the program without proofs, and keeps it in the place of an older one."""
        begun, of, of_kit = time.time_ns(), self.of_code(), kit()
        tell(f"builds {self.name} without proofs, once: two to three minutes, and 3 GB of memory")
        for it in os.listdir(KEPT):
            if it.startswith(MAKING):
                shutil.rmtree(f"{KEPT}/{it}", ignore_errors=True)
        with tempfile.TemporaryDirectory(prefix=MAKING, dir=KEPT) as folder:
            make_module(self.crate, folder, f"{folder}/kept.bc")
            compile_module(of_kit, f"{folder}/kept.bc", f"{folder}/made")
            self.look_at(f"{folder}/made")
            if self.of_code() != of:
                raise Failure("the sources changed while the program was built; run it again")
            date(f"{folder}/made", begun)
            with open(f"{folder}/sources", "w", encoding="utf-8") as it:
                it.write(f"{of}\n")
            os.replace(f"{folder}/made", self.kept)
            os.replace(f"{folder}/sources", self.kept_of)

    def unproved(self):
        """The program without proofs of these sources, which is made where there is none. A second one that asks meanwhile waits."""
        os.makedirs(KEPT, exist_ok=True)
        with open(f"{KEPT}/lock", "w", encoding="utf-8") as it:
            try:
                fcntl.flock(it, fcntl.LOCK_EX | fcntl.LOCK_NB)
            except BlockingIOError:
                tell("waits for another one that builds a program")
                fcntl.flock(it, fcntl.LOCK_EX)
            begun = time.time_ns()
            if self.is_kept():
                date(self.kept, begun)
            else:
                self.make()
        return self.kept


JL = Program("jl_main", "jl", ["check"], b"ok: 0 types, 0 definitions\n")
# Gives a tool the places of definitions and tasks in a script.
SITES = Program("jl_sites", "jl_sites", [], None)
# Holds a session.
SESSION = Program("jl_session", "jl_session", [], b"ERROR: NoSession\n", 3)


def programs():
    """The programs that users and tools take."""
    return [it for it in (JL, SITES) if it.crate in uses()]


# ---- the words


def number(word, least, most):
    """The number of a word of 1 to 10 digits within the bounds, or none."""
    if not (1 <= len(word) <= 10 and word.isascii() and word.isdigit()):
        return None
    return int(word) if least <= int(word) <= most else None


def is_command(words):
    """Whether the program takes these words, and does not answer with the usage line."""
    if not words or words[0] not in COMMANDS:
        return False
    name, rest = words[0], list(words[1:])
    if name in ("check", "replay"):
        return not rest
    given, plain = set(), []
    while rest:
        word = rest.pop(0)
        option, equals, value = word.partition("=")
        if option in BOUNDS and option not in given:
            value = value if equals else rest.pop(0) if rest else ""
            if number(value, *BOUNDS[option]) is None:
                return False
            given.add(option)
        elif word.startswith("-"):
            return False
        else:
            plain.append(word)
    return len(plain) == COMMANDS[name] and (name != "gen" or number(plain[0], 0, MOST_NUMBER) is not None)


def version():
    """The version, from the first heading of the list of changes that names one."""
    with open(f"{TOP}/CHANGELOG.md", encoding="utf-8") as file:
        return re.search(r"^## (\S+)", file.read(), re.M)[1]


def commit():
    """The commit of these sources, as git says it."""
    how = {"cwd": TOP, "capture_output": True, "text": True, "check": False}
    try:
        found = subprocess.run(["git", "rev-parse", "--short=12", "HEAD"], **how).stdout.strip()
        changed = subprocess.run(["git", "status", "--porcelain", "--untracked-files=no"], **how).stdout.strip()
    except OSError:
        found = ""
    if not found:
        return "unknown (no git repository)"
    return f"{found}{', and changes that are not committed' if changed else ''}"


def kit_line():
    try:
        return subprocess.run(["rt", "version"], capture_output=True, text=True, check=False).stdout.strip()
    except OSError:
        return "none (there is no command rt)"


def state():
    """Which program `./jl` takes, in words."""
    if JL.is_proved():
        return f"proved ({os.path.relpath(JL.proved, TOP)})"
    if JL.is_kept():
        return f"without proofs ({os.path.relpath(JL.kept, TOP)}); ./build makes the proved one"
    return "none yet; ./jl builds one without proofs, ./build the proved one"


def about():
    return f"jl {version()}\ncommit: {commit()}\nkit: {kit_line()}\nprogram: {state()}"


def run(words):
    if words == ["--version"]:
        print(about())
        return 0
    begun = time.time_ns()
    if JL.is_proved():
        found, what = JL.proved, "the proved program"
        date(found, begun)
    elif not JL.is_kept() and not is_command(words):
        print(USAGE)
        return 2
    else:
        found, what = JL.unproved(), "the program without proofs (./build makes the proved one)"
    tell(what)
    sys.stdout.flush()
    # Python ignores this signal, and what it starts would too.
    signal.signal(signal.SIGPIPE, signal.SIG_DFL)
    os.execv(found, [found, *words])


if __name__ == "__main__":
    signal.signal(signal.SIGTERM, lambda *_: sys.exit(143))
    signal.signal(signal.SIGHUP, lambda *_: sys.exit(129))
    try:
        sys.exit(run(sys.argv[1:]))
    except (Failure, OSError) as why:
        tell(f"{why}")
        sys.exit(FAILED)
    except KeyboardInterrupt:
        sys.exit(130)
