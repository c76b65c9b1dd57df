#!/usr/bin/env python3
"""How much memory and time the ends of a call take: with files of 1 MiB, and with one of 64 MiB, one way and both.

    memory.py [PROGRAM [ROUNDS]]

Packets have 1,024 bytes, the window is 7, the line a Unix socket. Two ends of `uucpair` over folders, two over Taylor's spools, two
without digests, and two of Taylor UUCP, as root, in turns, as they come by themselves. Prints a row for each: its files, the ends,
the seconds of the clock, those of the processor (both ends, and the system on their behalf), and the most KiB that the caller has
had, and the called end; medians of ROUNDS (3). Ends with status 1 where a file did not come.
"""
import os
import random
import resource
import socket
import statistics
import subprocess
import sys
import tempfile
import time

sys.dont_write_bytecode = True

from ends import UUCICO, Ours, Taylor, fresh, program_named, read

MIB = int(os.environ.get("MIB", 1 << 20))
# How many files each end gives, and of how many MiB.
LOADS = {"1 MiB": (1, 0, 1), "16 x 1 MiB": (16, 0, 1), "64 MiB": (1, 0, 64), "64 MiB both ways": (1, 1, 64)}


class Spool(Taylor):
    """An end of `uucpair` over a spool."""

    def __init__(self, program, work, me, peer):
        super().__init__(work, me, peer, 1_024, 7, 10)
        self.program = program

    def queue(self, files):
        super().queue(files)
        place = os.path.join(self.folder, "spool", self.peer, "C.", "C.N0001")
        orders = read(place).decode()
        with open(place, "w", encoding="ascii") as file:
            file.write(orders.replace(" uucp - ", " uucp -C "))

    def command(self, verb):
        here = self.folder
        places = ["--spool", "--public", f"{here}/pub", "--locks", here, "--log", f"{here}/log", "--stats", f"{here}/stats"]
        return [self.program, verb, "-", f"{here}/spool", "--me", self.me, "--peer", self.peer, "--size", "1024", *places]


class Folder(Ours):
    """An end of `uucpair` over a folder."""

    def __init__(self, program, work, me, peer, *options):
        super().__init__(program, work, me, peer, ["--size", "1024", *options])

    def command(self, verb):
        return super().command(verb, "-")


class Uucico(Taylor):
    """An end of Taylor UUCP."""

    def __init__(self, work, me, peer):
        super().__init__(work, me, peer, 1_024, 7, 10)
        self.add('chat ""')
        self.own()

    def command(self, verb):
        self.own()
        return [UUCICO, "-q", "-D", "-I", f"{self.folder}/config", *(["-S", self.peer] if verb == "call" else [])]


def most_had(pid):
    """The most KiB that a process has had so far."""
    try:
        with open(f"/proc/{pid}/status", encoding="ascii") as status:
            return next((int(line.split()[1]) for line in status if line.startswith("VmHWM:")), 0)
    except OSError:
        return 0


def processor():
    used = resource.getrusage(resource.RUSAGE_CHILDREN)
    return used.ru_utime + used.ru_stime


def run(ends):
    """Runs both ends over a Unix socket. The answer is the seconds of the clock and of the processor, and the most KiB of each."""
    processes, began, before = [], time.monotonic(), processor()
    for end, verb, stream in zip(ends, ("call", "answer"), socket.socketpair()):
        with stream:
            processes.append(subprocess.Popen(end.command(verb), stdin=stream, stdout=stream, stderr=subprocess.DEVNULL))
    most = [0, 0]
    while any([process.poll() is None for process in processes]):
        most = [max(had, most_had(process.pid)) for had, process in zip(most, processes)]
        time.sleep(0.002)
    return time.monotonic() - began, processor() - before, *most


def files_of(count, size):
    source = random.Random("memory")
    return {f"D.aN{number:04}" if count > 1 else "file": source.randbytes(size * MIB) for number in range(count)}


def measure(make, load):
    """What a call takes, or none where a file did not come."""
    there, back, size = load
    with tempfile.TemporaryDirectory() as work:
        os.chmod(work, 0o755)
        ends = [make(fresh(f"{work}/{me}"), me, peer) for me, peer in (("a", "b"), ("b", "a"))]
        files = [files_of(there, size), files_of(back, size)]
        for end, given in zip(ends, files):
            if given:
                end.queue(given)
        taken = run(ends)
        whole = all(taker.took(name) == content for taker, given in zip(reversed(ends), files) for name, content in given.items())
    return taken if whole else None


def main():
    program = program_named()
    rounds = int(sys.argv[2]) if len(sys.argv) > 2 else 3
    kinds = {
        "uucpair": lambda work, me, peer: Folder(program, work, me, peer),
        "uucpair --no-digest": lambda work, me, peer: Folder(program, work, me, peer, "--no-digest"),
        "uucpair --spool": lambda work, me, peer: Spool(program, work, me, peer),
        "uucico": Uucico,
    }
    print("| files | ends | clock | processor | caller | called |\n|---|---|---|---|---|---|")
    whole = True
    for told, load in LOADS.items():
        taken = {kind: [] for kind in kinds}
        for _ in range(rounds):
            for kind, make in kinds.items():
                taken[kind].append(measure(make, load))
        for kind, all_of in taken.items():
            whole = whole and None not in all_of
            figures = [statistics.median(part) for part in zip(*all_of)] if None not in all_of else None
            said = "{:.2f} | {:.2f} | {:.0f} | {:.0f}".format(*figures) if figures else "failed | failed | failed | failed"
            print(f"| {told} | {kind} | {said} |", flush=True)
    sys.exit(not whole)


if __name__ == "__main__":
    main()
