#!/usr/bin/env python3
"""How many files come wrong over a line on which bytes are garbled at random.

    garbled.py [PROGRAM [SEEDS [TAYLOR_SEEDS]]]

Two ends have 88 files for each other, two of each of 22 sizes each way, random bytes and text. On the line between them, a Unix
socket, each byte is raised by one with a chance of one in 1,000, from the 65th byte each way on: what comes before, the greeting
and the start of the link, has no checksum. Which bytes follows from the seed, 0 to SEEDS (5) - 1. The ends call until no job is
left, ten times at most. A row each for

    ours, --size 64    two `uucpair` with packets of 64 bytes
    ours               with those that they announce by themselves
    .., --no-digest    the same, where no digests are told
    ours, cut          the line ends in each call after 30,000 bytes, both ways together, and a file goes on in the next one
    Taylor, 64         Taylor UUCP calls, with packets of 64 bytes both ways and TAYLOR_SEEDS (2); its own limits of errors and
                       noise are lifted

with how many calls were made, how many bytes were garbled, how many files came whole, wrong and not at all, and how many
garbled bytes there were for each file that is wrong. `changes.py` says of how many garbled bytes of a field one passes its
checksum. Timers are two seconds.
"""
import math
import os
import random
import select
import sys
import time

sys.dont_write_bytecode = True

from ends import Ours, Taylor, over_sockets, program_named, read, side_by_side, stop

ONE_IN = 1_000
SAFE = 64
SIZES = [0, 1, 31, 32, 33, 63, 64, 65, 127, 128, 129, 500, 1_000, 1_023, 1_024, 1_025, 2_048, 3_000, 4_096, 5_000, 10_000, 20_000]
KINDS = ["ours, --size 64", "ours", "ours, --size 64, --no-digest", "ours, --no-digest", "ours, cut", "Taylor, 64"]
CALLS_MAX = 10
# The bytes after which a line is cut, and how many calls may be made over such lines.
CUT, CUT_CALLS_MAX = 30_000, 60
MOST = 300
LETTERS = "abcdefghijklmnopqrstuvwxyz      ETAOIN.,\n"


def files_of(side):
    """What an end sends, by names."""
    source = random.Random(f"files {side}")
    files = {}
    for size in SIZES:
        files[f"{side}-bytes-{size}"] = source.randbytes(size)
        files[f"{side}-text-{size}"] = "".join(source.choice(LETTERS) for _ in range(size)).encode()
    return files


class Way:
    """One direction of the line, what it has taken, and how many bytes it has garbled."""

    def __init__(self, here, there, source):
        self.here, self.there, self.source = here, there, source
        self.taken = self.garbled = 0

    def pass_on(self):
        """Whether the side is still there."""
        try:
            came = bytearray(self.here.recv(4096))
            for place in range(max(0, SAFE - self.taken), len(came)):
                if self.source.random() * ONE_IN < 1:
                    came[place] = (came[place] + 1) % 256
                    self.garbled += 1
            self.taken += len(came)
            self.there.sendall(came)
        except OSError:
            return False
        return bool(came)


def relay(one, other, seed, until, most):
    """Hands on, until a side ends or so many bytes have passed. The answer is how many bytes were garbled."""
    ways = {}
    for number, (here, there) in enumerate(((one, other), (other, one))):
        here.settimeout(60)
        ways[here] = Way(here, there, random.Random(f"{seed} {number}"))
    while time.monotonic() < until and sum(way.taken for way in ways.values()) < most:
        for side in select.select(list(ways), [], [], 1)[0]:
            if not ways[side].pass_on():
                return sum(way.garbled for way in ways.values())
    return sum(way.garbled for way in ways.values())


class OurEnd(Ours):
    """An end of ours, whose files go into the public folder of the other end."""

    def queue(self, files):
        super().queue(files)
        with open(os.path.join(self.folder, "jobs"), "w", encoding="ascii") as file:
            file.writelines(f"send {name} ~/{name} u\n" for name in files)

    def waits(self):
        return bool(read(os.path.join(self.folder, "jobs")))


class TaylorEnd(Taylor):
    def queue(self, files):
        super().queue(files)
        place = os.path.join(self.folder, "spool", self.peer, "C.", "C.N0001")
        lines = read(place).decode().splitlines()
        with open(place, "w", encoding="ascii") as file:
            file.writelines(line.replace(f" {name} uucp", f" ~/{name} uucp") + "\n" for line, name in zip(lines, files))

    def took(self, name):
        return read(os.path.join(self.folder, "pub", name))

    def waits(self):
        return any(os.scandir(os.path.join(self.folder, "spool", self.peer, "C.")))


def run(work, program, kind, seed):
    """What became of the files: how many calls, garbled bytes, files whole, wrong and not there."""
    options = ["--timeout", "2"] + (["--size", "64"] if "64" in kind else [])
    options += ["--no-digest"] if "--no-digest" in kind else []
    called = OurEnd(program, work, "b", "a", options)
    if kind.startswith("Taylor"):
        caller = TaylorEnd(work, "a", "b", 64, 7, 2)
        caller.add("protocol-parameter g errors 1000000", "protocol-parameter g garbage 100000000")
    else:
        caller = OurEnd(program, work, "a", "b", options)
    sent = [(caller, called, files_of("a")), (called, caller, files_of("b"))]
    for giver, _, files in sent:
        giver.queue(files)
    calls = garbled = 0
    most, calls_max = (CUT, CUT_CALLS_MAX) if "cut" in kind else (math.inf, CALLS_MAX)
    while calls < calls_max and (caller.waits() or called.waits()):
        calls += 1
        with over_sockets(work, caller, called, 120) as (calling, answering, one, other):
            garbled += relay(one, other, f"{seed} {calls}", time.monotonic() + MOST, most)
        for process in (calling, answering):
            until = time.monotonic() + 30
            while process.poll() is None and time.monotonic() < until:
                time.sleep(0.1)
        stop(calling, answering)
    came = [(taker.took(name), content) for _, taker, files in sent for name, content in files.items()]
    return {
        "calls": calls,
        "garbled": garbled,
        "whole": sum(seen == content for seen, content in came),
        "wrong": sum(seen is not None and seen != content for seen, content in came),
        "none": sum(seen is None for seen, _ in came),
    }


def main():
    program = program_named()
    seeds = int(sys.argv[2]) if len(sys.argv) > 2 else 5
    taylors = int(sys.argv[3]) if len(sys.argv) > 3 else 2
    cells = [(program, kind, seed) for kind in KINDS for seed in range(taylors if kind.startswith("Taylor") else seeds)]
    outcomes = {}
    for (_, kind, _), outcome in zip(cells, side_by_side(run, cells, 4)):
        outcomes.setdefault(kind, []).append(outcome)
    print("| ends | rounds | calls | garbled bytes | whole | wrong | not there | garbled bytes for a wrong file |")
    print("|" + "---|" * 8)
    for kind, all_of in outcomes.items():
        sums = {word: sum(one[word] for one in all_of) for word in all_of[0]}
        each = f"{sums['garbled'] / sums['wrong']:.0f}" if sums["wrong"] else "-"
        print(
            f"| {kind} | {len(all_of)} | {sums['calls']} | {sums['garbled']:,} | {sums['whole']} | {sums['wrong']} "
            f"| {sums['none']} | {each} |"
        )


if __name__ == "__main__":
    main()
