#!/usr/bin/env python3
"""A file that changes between two sessions of which the first was cut off: what arrives, by two `uucico` and by two `uucpair`.

    splice.py [PROGRAM]

A file of 6,000 bytes over a line that ends after 3,500. Another file of that size takes its place in the queue, and the line holds. Two
`uucico` go on at the position alone: the front of the one file and the rest of the other arrive as one, and both logs say that all is
well. Two `uucpair` go on only with the file whose digest was announced. That is why an end here goes on with no file of `uucico`.
Needs root, and the packages `uucp` and `socat`. Ends with status 1 where `uucpair` mixes the two, or does not end with the other file.
"""
import os
import sys
import tempfile

sys.dont_write_bytecode = True
sys.path.insert(0, os.path.join(os.path.dirname(os.path.realpath(__file__)), "../bench"))

from ends import Ours, Taylor, fresh, over_sockets, program_named
from peers import carry, ended

SIZE = 6_000
FIRST, OTHER = b"1" * SIZE, b"2" * SIZE


def two_of(kind, work):
    """Returns two ends of this kind: the one that calls and gives the file, and the other one."""
    names = (("a", "b"), ("b", "a"))
    if kind is Taylor:
        return [Taylor(work, me, peer, 64, 7, 10) for me, peer in names]
    return [Ours(program_named(), work, me, peer, ["--size", "64", "--timeout", "10"]) for me, peer in names]


def exchange(kind, caller):
    """Puts the other file in the place of the first one, under the same name."""
    place = "send/file" if kind is Ours else f"spool/{caller.peer}/D./D.0001"
    with open(os.path.join(caller.folder, place), "wb") as file:
        file.write(OTHER)


def arrives(kind, work):
    """Returns what has arrived after the second session."""
    caller, called = two_of(kind, work)
    caller.queue({"file": FIRST})
    for most in (3_500, 100_000):
        with over_sockets(work, caller, called) as (calling, answering, one, other):
            carry(one, other, most)
        ended(calling, answering)
        if not called.took("file"):
            exchange(kind, caller)
    return called.took("file") or b"", (caller.said(), called.said())


def main():
    came = {}
    for kind, name in ((Taylor, "uucico"), (Ours, "uucpair")):
        with tempfile.TemporaryDirectory() as work:
            os.chmod(work, 0o755)
            fresh(work)
            file, told = arrives(kind, work)
        came[kind] = file
        print(f"two {name}: {file.count(b'1')} bytes of the first file, {file.count(b'2')} of the other one")
        for side, line in zip(("the caller", "the called end"), told):
            print(f"  {side} says: {line or 'nothing'}")
    return 0 if came[Ours] == OTHER else 1


if __name__ == "__main__":
    sys.exit(main())
