#!/usr/bin/env python3
"""How a call goes over a line on which each byte is on its way for ten seconds, so that an answer takes twenty.

    long_way.py [PROGRAM [SCALE]]

The caller sends a file of 20,000 bytes over a Unix socket with that delay, which carries 960 bit/s, ten for a byte. With
timers of 10 seconds, which are too short for it, and of 30, each with `--speed 960` and without, and of 340, in which the
greatest window comes and is answered. All times are divided by SCALE (10). Prints the seconds, SCALE times as many as were
measured, with the bytes that the caller wrote, or how the ends ended where the file did not come. Ends with status 1 where it
did not come with 30 seconds and the speed, or with 340 seconds, or an end did not end by itself.
"""
import select
import sys
import time
from collections import deque

sys.dont_write_bytecode = True

from ends import Ours, all_came, load_files, over_sockets, program_named, side_by_side, stop

SCALE = int(sys.argv[2]) if len(sys.argv) > 2 else 10
SPEED = 960
DELAY = 10 / SCALE
MOST = 3_000 / SCALE
CELLS = [(7, 64), (3, 1_024), (7, 1_024), (7, 4_096)]
OPTIONS = [(10, False), (10, True), (30, False), (30, True), (340, False)]
WELL = [(30, True), (340, False)]


class Way:
    """One direction: what is on its way, each piece with the moment at which it comes."""

    def __init__(self, here, there):
        self.here, self.there = here, there
        self.pieces, self.free, self.taken = deque(), 0.0, 0

    def take(self):
        """Whether the side is still there."""
        try:
            came = self.here.recv(65536)
        except OSError:
            came = b""
        now = time.monotonic()
        for start in range(0, len(came), 64):
            piece = came[start : start + 64]
            self.free = max(self.free, now) + len(piece) * 10 / (SPEED * SCALE)
            self.pieces.append((self.free + DELAY, piece))
        self.taken += len(came)
        return bool(came)

    def give(self):
        while self.pieces and self.pieces[0][0] <= time.monotonic():
            try:
                self.there.sendall(self.pieces.popleft()[1])
            except OSError:
                self.pieces.clear()


def relay(one, other, until):
    """Hands on what comes. A side that has hung up is seen when all that it wrote has come. The answer is when the last bytes
    came, and how many the first has written."""
    ways = [Way(one, other), Way(other, one)]
    waiting = {way.here: way for way in ways}
    came = time.monotonic()
    while time.monotonic() < until and (waiting or any(way.pieces for way in ways)):
        for side in select.select(list(waiting), [], [], 0.01)[0]:
            if not waiting[side].take():
                del waiting[side]
        for way in ways:
            if way.pieces and way.pieces[0][0] <= time.monotonic():
                came = time.monotonic()
            way.give()
            if way.here not in waiting and not way.pieces:
                return came, ways[0].taken
    return came, ways[0].taken


def run(work, program, window, size, timeout, with_speed):
    """What a cell says, and whether all was done and whether both ends ended by themselves."""
    options = ["--window", str(window), "--size", str(size), "--timeout", str(timeout // SCALE)]
    if with_speed:
        options += ["--speed", str(SPEED * SCALE)]
    caller, called = (Ours(program, work, me, peer, options) for me, peer in (("a", "b"), ("b", "a")))
    files = load_files("file")
    caller.queue(files)
    with over_sockets(work, caller, called) as (calling, answering, one, other):
        began = time.monotonic()
        came, written = relay(one, other, began + MOST)
    ended = all(has_ended(process) for process in (calling, answering))
    stop(calling, answering)
    is_done = all_came(called, files) and (calling.returncode, answering.returncode) == (0, 0)
    if is_done:
        return f"{(came - began) * SCALE:.0f} s, {written:,}", True, ended
    return ", ".join(end.said().split(" pending")[0] for end in (caller, called)), False, ended


def has_ended(process):
    for _ in range(100):
        if process.poll() is not None:
            return True
        time.sleep(0.1)
    return False


def main():
    program = program_named()
    all_of = [(*cell, *option) for cell in CELLS for option in OPTIONS]
    said = dict(zip(all_of, side_by_side(run, [(program, *cell) for cell in all_of])))
    print("| `--timeout` | `--speed` | " + " | ".join(f"{window} x {size:,}" for window, size in CELLS) + " |")
    print("|" + "---|" * (len(CELLS) + 2))
    for timeout, with_speed in OPTIONS:
        row = [said[(*cell, timeout, with_speed)][0] for cell in CELLS]
        print(f"| {timeout} | {SPEED if with_speed else '-'} | " + " | ".join(row) + " |")
    well = all(said[cell][2] and (said[cell][1] or cell[2:] not in WELL) for cell in all_of)
    sys.exit(not well)


if __name__ == "__main__":
    main()
