#!/usr/bin/env python3
"""How many bytes a file takes over a line that ends again and again, each session going on where the last was cut off.

    resume.py [PROGRAM [half-duplex [SCALE]]]

A file of 60,000 bytes, and one of 1,000,000, over a fast line that ends after a tenth, a half and one and a half of so many bytes,
both ways together: by `uucpair`, by Taylor UUCP (both with 7 packets of 1,024 bytes), by `rz -r` and `sz -r`, and by C-Kermit. Needs
root, and the packages `uucp`, `socat`, `lrzsz` and `ckermit`. Prints a row for each: size, cut after, program, sessions, bytes.
With `half-duplex` the first file alone goes over the line of half_duplex.py, in real time, all side by side; with SCALE both files do,
over that line so many times as fast.
Ends with status 1 where a file of `uucpair` has not arrived whole.
"""
import os
import random
import sys
import tempfile
import time

sys.dont_write_bytecode = True

from ends import Ours, Taylor, fresh, over_sockets, program_named, side_by_side
import half_duplex
import peers
from half_duplex import channel
from peers import Kermit, Zmodem, ended, session

SIZES, SHARES = (60_000, 1_000_000), (0.1, 0.5, 1.5)
SESSIONS_MAX = 40
IS_HALF_DUPLEX = sys.argv[2:3] == ["half-duplex"]
SCALE = int(sys.argv[3]) if sys.argv[3:] else 1
half_duplex.BYTES_A_SECOND, half_duplex.TURN, half_duplex.PIECE = 150 * SCALE, 1 / SCALE, 3 * SCALE
# So long a session over the half-duplex line may take.
SECONDS_MAX = 3_600


def carry(one, other, most):
    """Hands on so many bytes at most, both ways together. The answer is how many."""
    if IS_HALF_DUPLEX:
        return channel(one, other, time.monotonic() + SECONDS_MAX, most)[1]
    return sum(peers.carry(one, other, most))


def of_uucp(kind):
    """Returns what sends a file by two ends of UUCP, over a line that is cut."""

    def send(work, contents, most):
        names = (("a", "b"), ("b", "a"))
        if kind is Taylor:
            caller, called = (Taylor(work, me, peer, 1_024, 7, 300 if IS_HALF_DUPLEX else 10) for me, peer in names)
        else:
            options = ["--size", "1024", "--timeout", "10", *(["--speed", str(1_200 * SCALE)] if IS_HALF_DUPLEX else [])]
            caller, called = (Ours(program_named(), work, me, peer, options) for me, peer in names)
        caller.queue({"file": contents})
        total = 0
        for count in range(1, SESSIONS_MAX + 1):
            with over_sockets(work, caller, called, 120) as (calling, answering, one, other):
                total += carry(one, other, most)
            ended(calling, answering)
            if called.took("file") == contents:
                return count, total
        return None

    return send


def of_peer(kind):
    """The same for ZMODEM or Kermit."""

    def send(work, contents, most):
        total = 0
        for count in range(1, SESSIONS_MAX + 1):
            ends = kind(work, count > 1)
            with open(f"{work}/sends/file", "wb") as file:
                file.write(contents)
            total += session(ends, lambda one, other: carry(one, other, most))
            if ends.took() == contents:
                return count, total
        return None

    return send


SENDERS = (("uucpair", of_uucp(Ours)), ("uucico", of_uucp(Taylor)), ("ZMODEM", of_peer(Zmodem)), ("Kermit", of_peer(Kermit)))


def sent(work, size, most, name, send):
    """Prints what came of a file, and says whether it arrived."""
    came = send(work, random.Random("resume").randbytes(size), most)
    print(size, most, name, *(came or ("never", "-")), sep=", ", flush=True)
    return came is not None


def main():
    sizes = SIZES[:1] if IS_HALF_DUPLEX and SCALE == 1 else SIZES
    cells = [(size, int(size * share), *sender) for size in sizes for share in SHARES for sender in SENDERS]
    if IS_HALF_DUPLEX:
        whole = side_by_side(sent, cells)
    else:
        whole = []
        for cell in cells:
            with tempfile.TemporaryDirectory() as work:
                os.chmod(work, 0o755)
                whole.append(sent(fresh(f"{work}/w"), *cell))
    sys.exit(0 if all(is_whole for cell, is_whole in zip(cells, whole) if cell[2] == "uucpair") else 1)


if __name__ == "__main__":
    main()
