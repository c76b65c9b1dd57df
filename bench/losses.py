#!/usr/bin/env python3
"""Whether a call is done over a line on which bytes are lost at random, with two acknowledgements for what came at once.

    losses.py [PROGRAM [SEEDS [TAYLOR_SEEDS]]]

The caller sends a file of 20,000 bytes, in packets of 64 under a window of 7, over a Unix socket on which each byte is lost
with the probability of the row, from the 65th byte each way on: what comes before, the greeting and the start of the link,
has no checksum or is not what is tried. What is lost follows from the seed, 0 to SEEDS (40) - 1. A row each for

    ours               as it is: an acknowledgement is left out where those right behind it say as much
    ours, --every-ack  each data packet is acknowledged
    Taylor             Taylor UUCP sends, with TAYLOR_SEEDS (20), and `uucpair` as it is takes

with how many sessions were done at both ends, how many gave up, how many of the files came whole, how many came wrong (no
checksum of 'g' finds all), and of those that were done the medians of the seconds, and of the bytes that the caller and the
called end wrote. Taylor's own limits of errors and noise are lifted. Timers are a second. Ends with status 1 where as it is
more sessions gave up, all rows together, than with each, or an end did not end by itself.
"""
import random
import select
import statistics
import sys
import time

sys.dont_write_bytecode = True

from ends import Ours, Taylor, load_files, over_sockets, program_named, side_by_side, stop

ONE_IN = [1_000, 300, 100, 70]
KINDS = ["ours", "ours, --every-ack", "Taylor"]
SAFE = 64
SIDE_BY_SIDE = 32
MOST = 400


class Way:
    """One direction of the line, and what it has taken."""

    def __init__(self, here, there, one_in, source):
        self.here, self.there, self.one_in, self.source = here, there, one_in, source
        self.taken = 0

    def pass_on(self):
        """Whether the side is still there."""
        try:
            came = self.here.recv(4096)
            safe = max(0, SAFE - self.taken)
            kept = (byte for byte in came[safe:] if self.source.random() * self.one_in >= 1)
            self.taken += len(came)
            self.there.sendall(came[:safe] + bytes(kept))
        except OSError:
            return False
        return bool(came)


def relay(one, other, one_in, seed, until):
    """Hands on what is not lost, until a side ends. The answer is what was written each way."""
    ways = {}
    for number, (here, there) in enumerate(((one, other), (other, one))):
        here.settimeout(60)
        ways[here] = Way(here, there, one_in, random.Random(f"{seed} {number}"))
    while time.monotonic() < until:
        for side in select.select(list(ways), [], [], 1)[0]:
            if not ways[side].pass_on():
                return [way.taken for way in ways.values()]
    return [way.taken for way in ways.values()]


def run(work, program, kind, one_in, seed):
    """What became of a call: the two words, what is told of the file, and the seconds and bytes."""
    options = ["--timeout", "1", "--size", "64", "--window", "7"] + kind.split(", ")[1:]
    called = Ours(program, work, "b", "a", options)
    if kind == "Taylor":
        caller = Taylor(work, "a", "b", 64, 7, 1)
        caller.add("protocol-parameter g errors 1000000", "protocol-parameter g garbage 100000000")
    else:
        caller = Ours(program, work, "a", "b", options)
    files = load_files("file")
    caller.queue(files)
    with over_sockets(work, caller, called) as (calling, answering, one, other):
        began = time.monotonic()
        written = relay(one, other, one_in, seed, began + MOST)
    seconds = time.monotonic() - began
    ended = all(is_over(process, 60) for process in (calling, answering))
    stop(calling, answering)
    came = called.took("file")
    file = "none" if came is None else "whole" if came == files["file"] else "wrong"
    return {"ends": words(kind, caller, called), "file": file, "ended": ended, "seconds": seconds, "written": written}


def is_over(process, seconds):
    until = time.monotonic() + seconds
    while process.poll() is None and time.monotonic() < until:
        time.sleep(0.1)
    return process.poll() is not None


def words(kind, caller, called):
    """How the two ends say that it ended."""
    heard = called.said().split(" ")[1:2]
    if kind == "Taylor":
        return [*heard, "done" if caller.is_done() else "gaveup"]
    return [*heard, *caller.said().split(" ")[1:2]]


def main():
    program = program_named()
    seeds = int(sys.argv[2]) if len(sys.argv) > 2 else 40
    taylors = int(sys.argv[3]) if len(sys.argv) > 3 else 20
    cells = [
        (program, kind, one_in, seed)
        for one_in in ONE_IN
        for kind in KINDS
        for seed in range(taylors if kind == "Taylor" else seeds)
    ]
    outcomes = {}
    for (_, kind, one_in, _), outcome in zip(cells, side_by_side(run, cells, SIDE_BY_SIDE)):
        outcomes.setdefault((kind, one_in), []).append(outcome)
    sys.exit(report(outcomes))


def report(outcomes):
    """Prints the table. The answer is the status."""
    print("| one byte lost in | sender | sessions | done | gave up | whole | wrong | seconds | bytes there | back |")
    print("|" + "---|" * 10)
    given_up = dict.fromkeys(KINDS, 0)
    for one_in in ONE_IN:
        for kind in KINDS:
            all_of = outcomes.get((kind, one_in), [])
            done = [one for one in all_of if one["ends"] == ["done", "done"]]
            count = sum("gaveup" in one["ends"] for one in all_of)
            given_up[kind] += count
            files = [one["file"] for one in all_of]
            medians = [
                statistics.median(values) if done else 0
                for values in ([one["seconds"] for one in done], *([one["written"][way] for one in done] for way in (0, 1)))
            ]
            print(
                f"| {one_in:,} | {kind} | {len(all_of)} | {len(done)} | {count} | {files.count('whole')} | {files.count('wrong')} "
                f"| {medians[0]:.1f} | {medians[1]:,.0f} | {medians[2]:,.0f} |"
            )
    hung = sum(not one["ended"] for all_of in outcomes.values() for one in all_of)
    if hung:
        print(f"{hung} sessions had an end that did not end by itself")
    return int(hung > 0 or given_up["ours"] > given_up["ours, --every-ack"])


if __name__ == "__main__":
    main()
