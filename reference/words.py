#!/usr/bin/env python3
"""The words of the command line, read plainly once more.

    reference/words.py            asks the built program for all lists of up to four words of a pool
    reference/words.py 3          for all of up to three
    JL=FILE reference/words.py    with another program than crates/jl_main/out/jl_main

Each list is read here by the rule of docs/LANGUAGE.md and README.md, and given to the program with an empty script. Its output and
status must be those of the command that the list is, or the usage line and 2 where it is none. The last line counts the lists and
the differences; the status is 0 only where there is no difference.
"""

import itertools
import os
import subprocess
import sys
from concurrent.futures import ThreadPoolExecutor

HERE = os.path.dirname(os.path.abspath(__file__))
PROGRAM = os.environ.get("JL") or os.path.join(HERE, "..", "crates", "jl_main", "out", "jl_main")
USAGE = b"usage: jl run|trace|ambiguous [--threads N] [--fuel N] | jl check|replay | jl gen N [--threads N] [--fuel N] | jl which NAME TYPE [--threads N] [--fuel N]\n"
POOL = (
    "run", "trace", "check", "replay", "gen", "--threads", "--fuel", "--threads=2", "--fuel=007", "--threads=0",
    "--fuel=1000000001", "2", "64", "65", "007", "12345678901", "--", "-h", "x", "which", "ambiguous", "Tuple{}", "", "-",
)
BOUNDS = {"--threads": (1, 64), "--fuel": (0, 1_000_000_000)}
# The commands, and how many words besides options each has.
COMMANDS = {"run": 0, "trace": 0, "ambiguous": 0, "check": 0, "replay": 0, "gen": 1, "which": 2}


def number(word, least, most):
    """The number of a word of 1 to 10 digits within the bounds, or none."""
    if not (1 <= len(word) <= 10 and word.isascii() and word.isdigit()):
        return None
    return int(word) if least <= int(word) <= most else None


def command_of(words):
    """The command with its options that words are, or none."""
    if not words or words[0] not in COMMANDS:
        return None
    name, rest = words[0], list(words[1:])
    if name in ("check", "replay"):
        return (name, [], {}) if not rest else None
    options, operands = {}, []
    while rest:
        word = rest.pop(0)
        option, equals, value = word.partition("=")
        if option in BOUNDS:
            if not equals:
                if not rest:
                    return None
                value = rest.pop(0)
            value = number(value, *BOUNDS[option])
            if value is None or option in options:
                return None
            options[option] = value
        elif word.startswith("-"):
            return None
        else:
            operands.append(word)
    if len(operands) != COMMANDS[name]:
        return None
    if name == "gen" and number(operands[0], 0, 99_999_999) is None:
        return None
    return name, operands, options


def is_right(words, status, out):
    """Whether the program did what the words ask for."""
    command = command_of(words)
    if command is None:
        return status == 2 and out == USAGE
    name, operands, options = command
    fuel = options.get("--fuel", 10_000_000)
    if name == "run":
        return status == 0 and out == b""
    if name == "trace":
        return status == 0 and out.startswith(b"%%history 1\nbegin " + str(fuel).encode() + b"\n")
    if name == "check":
        return status == 0 and out == b"ok: 0 types, 0 definitions\n"
    if name == "replay":
        return status == 3 and out == b"ERROR: NoHistory\n"
    if name == "which":
        return status == 8 and out == b"ERROR: QueryUnknown\n"
    if name == "ambiguous":
        return status == 0 and out == b"pairs 0\n"
    return status in (0, 1) and out.startswith(b"generated " + str(int(operands[0])).encode() + b"\n")


def ask(words):
    """The words, and whether the program is right about them."""
    run = subprocess.run([PROGRAM, *words], stdin=subprocess.DEVNULL, stdout=subprocess.PIPE, check=False)
    return words, is_right(words, run.returncode, run.stdout)


def main():
    most = int(sys.argv[1]) if len(sys.argv) > 1 else 4
    lists = itertools.chain.from_iterable(itertools.product(POOL, repeat=n) for n in range(most + 1))
    asked = differ = 0
    with ThreadPoolExecutor(os.cpu_count()) as workers:
        for words, right in workers.map(ask, lists):
            asked += 1
            if not right:
                differ += 1
                print("differs:", " ".join(words))
    print(f"{asked} lists, {differ} differences")
    sys.exit(1 if differ else 0)


main()
