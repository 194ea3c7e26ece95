#!/usr/bin/env python3
"""Counts the shape of the repository, as docs/MAP.md tells it: tools/shape.py

Crates and their longest chain are those of crates.txt. A function's lines are those of its body; `self` is a parameter. A lemma is a
name with its statement at the left margin of a file of proofs/ that has no answers; it is there twice where another file has the same
name and the same text. Words are those of `wc -w`, and of them those with a letter or a digit."""

import collections
import functools
import pathlib
import re

TOP = pathlib.Path(__file__).resolve().parent.parent
HEAD = re.compile(r"^(\s*)(?:pub(?:\([a-z]+\))? )?(?:const )?fn (\w+)")
LEMMA = re.compile(r"^(?:pub |abbrev )*([a-z][\w'-]*) : (.*)$")
ANSWERS = {"Answers.antt", "Invariants.antt"}


def crates():
    """What each crate stands on."""
    text = (TOP / "crates.txt").read_text(encoding="utf-8")
    direct = dict(re.findall(r"^(\w+):(.*)$", text, re.M))
    return {name: [it for it in line.split() if it in direct] for name, line in direct.items()}


def longest_chain(uses):
    """How many crates stand on one another at most."""
    depth = functools.lru_cache(None)(lambda name: 1 + max(map(depth, uses[name]), default=0))
    return max(map(depth, uses))


def count_parameters(text):
    """The parameters between the first parenthesis and its match, at the top level."""
    depth, count, seen = 0, 0, False
    for letter in text[text.index("("):]:
        if letter in "([{<":
            depth += 1
        elif letter in ")]}>":
            depth -= 1
            if depth == 0:
                return count + seen
        elif letter == "," and depth == 1:
            count, seen = count + seen, False
        elif not letter.isspace():
            seen = True
    return count


def functions(lines):
    """The parameters and the lines of the body of each function of a file."""
    for place, line in enumerate(lines):
        head = HEAD.match(line)
        if not head:
            continue
        indent, rest = head.group(1), lines[place:]
        # (the parts of a signature and its clauses are further in, except for the line of the closing parenthesis)
        begin = next((n for n, it in enumerate(rest) if it.endswith(";") or it in (indent + "{", indent + "{}")
                      or it.endswith(("{", "}")) and (n == 0 or it.startswith(indent + ")"))), None)
        if begin is None or not rest[begin].endswith("{"):
            lines_of_body = 0
        else:
            lines_of_body = next(n for n, it in enumerate(rest) if n > begin and it == indent + "}") - begin - 1
        yield count_parameters("\n".join(rest[:40])), lines_of_body


def repeated_lemmas():
    """How many statements of lemmas are there in several files, and how many copies are too many."""
    places = collections.defaultdict(set)
    for file in TOP.glob("crates/*/proofs/**/*.antt"):
        if file.name in ANSWERS:
            continue
        lines = file.read_text(encoding="utf-8").split("\n")
        for place, line in enumerate(lines):
            lemma = LEMMA.match(line)
            if lemma:
                more = []
                for it in lines[place + 1:]:
                    if not it.startswith("  "):
                        break
                    more.append(it)
                places[lemma.group(1), " ".join(" ".join([lemma.group(2), *more]).split())].add(file)
    twice = [files for files in places.values() if len(files) > 1]
    return len(twice), sum(len(files) - 1 for files in twice)


def words():
    """The words of all pages of docs/."""
    every = [it for file in (TOP / "docs").rglob("*.md") for it in file.read_text(encoding="utf-8").split()]
    return len(every), sum(bool(re.search(r"[A-Za-z0-9]", it)) for it in every)


def main():
    uses = crates()
    every = [it for name in uses for file in sorted((TOP / "crates" / name / "src").rglob("*.rt"))
             for it in functions(file.read_text(encoding="utf-8").split("\n"))]
    statements, copies = repeated_lemmas()
    in_all, real = words()
    print(f"crates: {len(uses)}")
    print(f"longest chain of crates: {longest_chain(uses)}")
    print(f"functions: {len(every)}")
    print(f"functions past 40 lines: {sum(lines > 40 for _, lines in every)}")
    print(f"functions with 7 parameters or more: {sum(many >= 7 for many, _ in every)}")
    print(f"lemmas that are there twice: {statements}, copies too many: {copies}")
    print(f"words of docs/: {in_all}, without bare signs: {real}")


if __name__ == "__main__":
    main()
