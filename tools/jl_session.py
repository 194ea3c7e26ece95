#!/usr/bin/env python3
"""Holds a session of jl: gives a script, asks its functions, and adds definitions.

    tools/jl_session.py SCRIPT REQUEST..

SCRIPT is a file, and each REQUEST a line as docs/EMBEDDING.md says them: `add TEXT` or `call NAME METHOD A B`. Each reply is printed: `added`, the text
of the run, or the line of the fault. The status is that of the program, or 1 where a reply is a fault.

Other programs import it:

    held = jl_session.hold(script, [jl_session.call("f", 0, 5, 3), jl_session.add("f(x::Int64) = 0")])
    for reply in held.replies: ..

The program is the one that JL_SESSION=FILE names, else the proved one, crates/jl_session/out/jl_session, else one without proofs, which is made once."""

import os
import subprocess
import sys

sys.dont_write_bytecode = True
TOP = os.path.dirname(os.path.dirname(os.path.abspath(__file__)))


class Trouble(Exception):
    """Why there is no session: the line that the program wrote, or what is wrong with a request."""


class Reply:
    """The reply to one request: its kind is `added`, `reply` or `error`, and its text what the run wrote, or the line of the fault."""

    def __init__(self, kind, text):
        self.kind, self.text = kind, text

    def __repr__(self):
        return f"Reply({self.kind!r}, {self.text!r})"

    def __eq__(self, other):
        return isinstance(other, Reply) and (self.kind, self.text) == (other.kind, other.text)


class Held:
    """A session that ended: its status, and the replies to the first requests, which are all where the status is 0."""

    def __init__(self, status, replies):
        self.status, self.replies = status, replies


def add(text):
    """The request that adds a line to the script."""
    return f"add {text}"


def call(name, method, a, b):
    """The request that calls a function with what a method of the host answers for two numbers."""
    return f"call {name} {method} {a} {b}"


def source_of(script, requests):
    """The bytes of a session. A request is one line."""
    script = script.encode() if isinstance(script, str) else script
    if script and not script.endswith(b"\n"):
        script += b"\n"
    if b"%%session" in script.split(b"\n"):
        raise Trouble("the script has a line %%session")
    for request in requests:
        if "\n" in request:
            raise Trouble(f"a request is one line: {request!r}")
    return script + b"%%session\n" + "".join(f"{it}\n" for it in requests).encode()


def replies_in(written):
    """The whole replies in what a session wrote."""
    replies, place = [], 0
    while place < len(written):
        end = written.find(b"\n", place)
        if end < 0:
            break
        line = written[place:end].decode()
        place = end + 1
        word, _, count = line.partition(" ")
        if word == "reply":
            if len(written) < place + int(count):
                break
            replies.append(Reply("reply", written[place : place + int(count)].decode()))
            place += int(count)
        else:
            replies.append(Reply("added" if line == "added" else "error", line))
    return replies


def program():
    """The program that holds sessions."""
    if os.environ.get("JL_SESSION"):
        return os.environ["JL_SESSION"]
    sys.path.insert(0, TOP)
    from program import SESSION  # it is needed here alone

    return SESSION.proved if SESSION.is_proved() else SESSION.unproved()


def hold(script, requests, command=None):
    """Holds a session. With status 2 and 3 nothing was answered, and with 4 the program could not read: these are `Trouble`."""
    ran = subprocess.run([command or program()], input=source_of(script, requests), stdout=subprocess.PIPE, check=False)
    if ran.returncode not in (0, 5, 6):
        raise Trouble(ran.stdout.decode(errors="replace").strip() or f"the program ended with status {ran.returncode}")
    return Held(ran.returncode, replies_in(ran.stdout))


def main():
    if len(sys.argv) < 2 or sys.argv[1].startswith("-"):
        print("usage: tools/jl_session.py SCRIPT REQUEST..", file=sys.stderr)
        return 2
    try:
        with open(sys.argv[1], "rb") as file:
            held = hold(file.read(), sys.argv[2:])
    except (Trouble, OSError) as trouble:
        print(f"jl_session: {trouble}", file=sys.stderr)
        return 1
    for reply in held.replies:
        print(reply.text, end="" if reply.text.endswith("\n") else "\n")
    return held.status or int(any(it.kind == "error" for it in held.replies))


if __name__ == "__main__":
    sys.exit(main())
