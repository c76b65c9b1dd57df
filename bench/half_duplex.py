#!/usr/bin/env python3
"""How long a file, and five mails, take over a half-duplex line of 1,200 bit/s that takes a second to turn round.

    half_duplex.py [PROGRAM [ROUNDS [SCALE]]]

Two ends of `uucpair`, and beside them two of Taylor UUCP, with each window and packet size of the table, in ROUNDS (3)
rounds; all that is in the table runs side by side. The line carries 150 bytes a second in one direction at a time: a
station keys up when the channel is free and it has bytes, for a second, then it sends until it has none. All times are
divided by SCALE (10), and the table has SCALE times what was measured, so also of what the programs and the disk take:
medians, in seconds.

    uucpair --speed    `--speed 1200`, and no other option but window and size: timers of 10 s and what that adds
    uucpair            `--timeout 300`
    Taylor             `timeout 300`

`-` is where not all had come after 2,000 s, or an end gave up. Taylor's windows of 7 x 4,096 are left out: it stores wrong
bytes there. Ends with status 1 where `--speed` leaves something undone, the mails take longer than Taylor's, or the file
longer than 1.05 times.
"""
import math
import select
import statistics
import sys
import time

sys.dont_write_bytecode = True

from ends import Ours, Taylor, all_came, load_files, over_sockets, program_named, side_by_side, stop

SCALE = int(sys.argv[3]) if len(sys.argv) > 3 else 10
BYTES_A_SECOND = 150 * SCALE
TURN = 1 / SCALE
# So many bytes are handed on at a time.
PIECE = max(1, BYTES_A_SECOND // 50)
MOST = 2_000 / SCALE
CELLS = [(7, 64), (7, 256), (3, 1024), (7, 1024), (3, 4096), (7, 4096)]
KINDS = ["uucpair --speed", "uucpair", "Taylor"]
LOADS = ["file", "mails"]


class Station:
    """One side of the channel: what it has to send, and how many bytes it was given."""

    def __init__(self, stream):
        self.stream, self.waiting, self.given, self.is_over = stream, bytearray(), 0, False
        stream.settimeout(30)

    def take(self):
        try:
            came = self.stream.recv(65536)
        except OSError:
            came = b""
        self.waiting += came
        self.is_over = not came

    def give(self, piece):
        self.given += len(piece)
        try:
            self.stream.sendall(piece)
        except OSError:
            self.is_over = True


def listen(stations, moment):
    """Takes what the stations have to send, until the moment comes or one of them has something."""
    streams = {station.stream: station for station in stations if not station.is_over}
    for stream in select.select(list(streams), [], [], max(0.0, moment - time.monotonic()))[0]:
        streams[stream].take()


def next_to_speak(stations, last, until):
    """The side that keys up next: the one that has listened, where both have bytes. None where the line is over."""
    while time.monotonic() < until:
        for side in (1 - last, last):
            if stations[side].waiting:
                return side
        if any(station.is_over for station in stations):
            return None
        listen(stations, until)
    return None


def carried(stations):
    return sum(station.given for station in stations)


def speak(stations, side, most):
    """A station keys up, and sends until it has no bytes, or so many were carried. The answer is when the last one came."""
    waiting = stations[side].waiting
    moment = time.monotonic() + TURN
    while waiting and carried(stations) < most:
        piece = bytes(waiting[: min(PIECE, most - carried(stations))])
        del waiting[:PIECE]
        moment += len(piece) / BYTES_A_SECOND
        while time.monotonic() < moment:
            listen(stations, moment)
        stations[1 - side].give(piece)
    return moment


def channel(one, other, until, most=math.inf):
    """Hands on what comes, in one direction at a time, and no more than so many bytes. The answer is when the last bytes came, and how many."""
    stations = [Station(one), Station(other)]
    side, came = 1, time.monotonic()
    while carried(stations) < most and (side := next_to_speak(stations, side, until)) is not None:
        came = speak(stations, side, most)
    return came, carried(stations)


def ends(work, program, kind, window, size):
    if kind == "Taylor":
        return [Taylor(work, me, peer, size, window, 300 // SCALE) for me, peer in (("a", "b"), ("b", "a"))]
    options = ["--window", str(window), "--size", str(size)]
    if kind == "uucpair":
        options += ["--timeout", str(300 // SCALE)]
    else:
        options += ["--timeout", str(10 // SCALE), "--speed", str(1200 * SCALE)]
    return [Ours(program, work, me, peer, options) for me, peer in (("a", "b"), ("b", "a"))]


def run(work, program, kind, window, size, load):
    """The seconds of a call, SCALE times as many as were measured, or None, and what the ends said then."""
    caller, called = ends(work, program, kind, window, size)
    files = load_files(load)
    caller.queue(files)
    try:
        with over_sockets(work, caller, called) as (calling, answering, one, other):
            began = time.monotonic()
            until = began + MOST
            came, _ = channel(one, other, until)
    except OSError:
        return None, caller.said()
    stop(calling, answering)
    if all_came(called, files) and came < until - 1:
        return (came - began) * SCALE, ""
    return None, f"{caller.said()} | {called.said()}"


def main():
    program = program_named()
    rounds = int(sys.argv[2]) if len(sys.argv) > 2 else 3
    cells = [(kind, *cell, load) for kind in KINDS for cell in CELLS for load in LOADS]
    cells = [cell for cell in cells if cell[:3] != ("Taylor", 7, 4096)]
    taken = {}
    for _ in range(rounds):
        for cell, (seconds, why) in zip(cells, side_by_side(run, [(program, *cell) for cell in cells])):
            taken.setdefault(cell, []).append(seconds)
            if seconds is None and why:
                print(f"  {cell}: {why}", file=sys.stderr)
    sys.exit(report(taken))


def median(seconds):
    return None if not seconds or None in seconds else statistics.median(seconds)


def report(taken):
    """Prints the table. The answer is the status."""
    bad = 0
    print("| | " + " | ".join(f"{window} x {size:,}" for window, size in CELLS) + " |")
    print("|" + "---|" * (len(CELLS) + 1))
    for load in LOADS:
        for kind in KINDS:
            row = [median(taken.get((kind, window, size, load), [])) for window, size in CELLS]
            print(f"| {load}, {kind} | " + " | ".join("-" if cell is None else f"{cell:.0f}" for cell in row) + " |")
    for load, most in (("file", 1.05), ("mails", 1.0)):
        for window, size in CELLS:
            ours, theirs = (median(taken.get((kind, window, size, load), [])) for kind in ("uucpair --speed", "Taylor"))
            if ours is None:
                print(f"{load}, {window} x {size:,}: not done with --speed alone")
                bad = 1
            elif theirs is not None and ours > most * theirs:
                print(f"{load}, {window} x {size:,}: {ours / theirs:.2f} times what Taylor takes")
                bad = 1
    return bad


if __name__ == "__main__":
    main()
