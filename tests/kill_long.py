#!/usr/bin/env python3
"""Kills the giver or the taker of a long file with signal 9 at a random moment, and lets the two ends call until it has come.

    kill_long.py [PROGRAM [TRIALS [SEED]]]

TRIALS (100) over folders, and as many over Taylor's spools. In each a caller or a called end gives a file of 5,000,000 bytes, or
SIZE of the environment, to the other; in KILLS (1) sessions one of the two is killed as soon as a random number of bytes has passed,
both ways together. WHEN=end has that among the last 3,000 of a session, where the file is stored and confirmed. JOBS (4) trials run
side by side. Prints, for both kinds of ends, the bytes on the line in sum as a multiple of the file's: the least, the median, nine
tenths, and the greatest, how many files needed more than 1.2 times, and how many sessions there were; and a line for each of those
files, and of those that were stored again, with what was killed and when.

Ends with status 1 where a file has not come whole, its job is left, it was stored more often than there were kills, and once, or more
than 1.2 times its bytes passed though it was stored once.
"""
import os
import random
import select
import statistics
import sys
import tempfile
import time

sys.dont_write_bytecode = True
sys.path.insert(0, os.path.join(os.path.dirname(os.path.dirname(os.path.abspath(__file__))), "bench"))

from ends import Ours, Taylor, fresh, over_sockets, program_named, read, side_by_side, start, stop

SIZE = int(os.environ.get("SIZE", "5000000"))
KILLS = int(os.environ.get("KILLS", "1"))
JOBS = int(os.environ.get("JOBS", "4"))
SESSIONS_MAX = KILLS + 8
BOUND = 1.2
# So many bytes before its end a session may be killed with WHEN=end.
LAST = 3_000


class Folder(Ours):
    """An end over a folder."""

    def __init__(self, program, work, me, peer):
        super().__init__(program, work, me, peer, ["--timeout", "20"])

    def waits(self):
        return bool(read(os.path.join(self.folder, "jobs")))

    def path(self):
        return os.path.join(self.folder, "got", "file")


class Spool(Taylor):
    """An end over a spool."""

    def __init__(self, program, work, me, peer):
        super().__init__(work, me, peer, 1_024, 7, 10)
        self.program = program
        os.makedirs(os.path.join(self.folder, "spool", peer, "C."))

    def queue(self, files):
        here = os.path.join(self.folder, "spool", self.peer)
        os.makedirs(os.path.join(here, "D."))
        with open(os.path.join(here, "D.", "D.0001"), "wb") as file:
            file.write(files["file"])
        with open(os.path.join(here, "C.", "C.N0001"), "w", encoding="ascii") as file:
            file.write("S ~/file ~/file u -C D.0001 0644\n")

    def command(self, verb, line):
        here = self.folder
        places = ["--public", f"{here}/pub", "--locks", here, "--log", f"{here}/log", "--stats", f"{here}/stats"]
        return [self.program, verb, line, f"{here}/spool", "--spool", "--me", self.me, "--peer", self.peer, "--timeout", "20", *places]

    def call(self, line):
        return start(self.command("call", line), self.folder)

    def answer(self, line):
        return start(self.command("answer", line), self.folder)

    def waits(self):
        return any(os.scandir(os.path.join(self.folder, "spool", self.peer, "C.")))

    def path(self):
        return os.path.join(self.folder, "pub", "file")


def carry(one, other, most, strike):
    """Hands on what comes until a side ends, and strikes as soon as so many bytes have passed. The answer is how many did."""
    there, passed = {one: other, other: one}, 0
    while True:
        for side in select.select([one, other], [], [])[0]:
            try:
                came = side.recv(4096)
                there[side].sendall(came)
            except OSError:
                came = b""
            passed += len(came)
            if most is not None and passed >= most:
                strike()
                most = None
            if not came:
                return passed


def await_ends(processes):
    until = time.monotonic() + 120
    while time.monotonic() < until and any([process.poll() is None for process in processes]):
        time.sleep(0.05)
    stop(*processes)


def stamp(path):
    """What tells one storing of a file from another."""
    try:
        found = os.stat(path)
        return found.st_ino, found.st_mtime_ns
    except OSError:
        return None


def trial(work, program, kind, number, seed, kills=0, moments=range(1)):
    """What came of a file: whether it is whole, the sessions, the bytes, how often it was stored, and whom the kills struck when."""
    source = random.Random(f"{seed} {kind.__name__} {number}")
    contents = random.Random("kill_long").randbytes(SIZE)
    ends = [kind(program, work, me, peer) for me, peer in (("a", "b"), ("b", "a"))]
    giver, taker = source.sample((0, 1), 2)
    ends[giver].queue({"file": contents})
    passed = sessions = 0
    stamps, struck = set(), []
    while ends[giver].waits() and sessions < SESSIONS_MAX:
        victim = source.choice((giver, taker)) if sessions < kills else None
        most = source.choice(moments) if victim is not None else None
        with over_sockets(work, *ends, 200) as (calling, answering, one, other):
            processes = (calling, answering)
            passed += carry(one, other, most, lambda: processes[victim].kill())
        await_ends(processes)
        sessions += 1
        stamps.add(stamp(ends[taker].path()))
        if victim is not None:
            struck.append(f"{'giver' if victim == giver else 'taker'} at {most}")
    stamps.discard(None)
    whole = read(ends[taker].path()) == contents and not ends[giver].waits()
    return {"whole": whole, "sessions": sessions, "bytes": passed, "stored": len(stamps), "struck": f"{'caller' if giver == 0 else 'called'} gives; {', '.join(struck)}"}


def tell(kind, came):
    """Prints what came of all the files of a kind. The answer is whether all went well."""
    ratios = sorted(one["bytes"] / SIZE for one in came)
    over = [one for one in came if one["bytes"] > BOUND * SIZE]
    twice = [one for one in came if one["stored"] > 1]
    lost = [one for one in came if not one["whole"]]
    figures = [ratios[0], statistics.median(ratios), ratios[len(ratios) * 9 // 10], ratios[-1]]
    print(
        f"{kind.__name__}: {len(came)} files of {SIZE:,}, {len(lost)} not whole, {len(twice)} stored twice, "
        f"bytes {' '.join(f'{figure:.3f}' for figure in figures)} times, {len(over)} more than {BOUND}, "
        f"{sum(one['sessions'] for one in came)} sessions",
        flush=True,
    )
    for what, some in (("more than the bound", over), ("stored twice", twice), ("not whole", lost)):
        for one in some:
            print(f"  {what}: {one['bytes'] / SIZE:.3f} times, {one['sessions']} sessions, stored {one['stored']} times, {one['struck']}", flush=True)
    return not lost and all(one["stored"] <= 1 + KILLS for one in came) and all(one["stored"] > 1 for one in over)


def main():
    program = program_named()
    trials = int(sys.argv[2]) if len(sys.argv) > 2 else 100
    seed = sys.argv[3] if len(sys.argv) > 3 else "1"
    well = []
    for kind in (Folder, Spool):
        (undisturbed,) = side_by_side(trial, [(program, kind, 0, seed)])
        moments = range(undisturbed["bytes"] - LAST if os.environ.get("WHEN") == "end" else 0, undisturbed["bytes"])
        well.append(tell(kind, side_by_side(trial, [(program, kind, number, seed, KILLS, moments) for number in range(trials)], JOBS)))
    sys.exit(not all(well))


if __name__ == "__main__":
    main()
