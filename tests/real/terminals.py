"""What a person sees at a terminal while files go: one line that moves, which no other standard error has."""
import os
import pty
import re
import signal
import threading
import time
import tty

from lines import Cable, door_at
from resumes import QUICK, cut, ends_with, held
from suite import filler, report, scene, wait_until, write

WIPE = "\r\x1b[K"
# A line that would be too long has no bytes.
PLACE = r"(?:(\d+) of (\d+) bytes, )?(\d+)%, (\d+) B/s(?:, (\d+) s left)?(?:, \d+ repeats)?"


class Terminal:
    """A terminal for standard error. What is written there comes to `seen`."""

    def __init__(self):
        self.master, self.slave = pty.openpty()
        tty.setraw(self.slave)
        # The program that runs behind this has the terminal as its standard error.
        self.front = ("sh", "-c", f'exec "$@" 2>{os.ttyname(self.slave)}', "sh")
        self.pieces = []
        self.reader = threading.Thread(target=self.read, daemon=True)
        self.reader.start()

    def read(self):
        try:
            while piece := os.read(self.master, 4096):
                self.pieces.append(piece)
        except OSError:
            pass

    def seen(self):
        """Returns all that was written. The terminal is gone then."""
        os.close(self.slave)
        self.reader.join(20)
        os.close(self.master)
        return b"".join(self.pieces).decode()


def places_in(seen, job):
    """Returns the places of a file that its line of progress told, each as numbers, and what else was seen of the session."""
    line = re.compile(rf"uucpair: \d+ s: {job}: {PLACE}")
    rest = re.sub("uucpair: waiting on .*\n", "", line.sub("", seen).replace(WIPE, ""))
    return [tuple(int(number or 0) for number in match.groups()) for match in line.finditer(seen)], rest


def seen_over_cable(one, ends, rate, *more):
    """Runs a session over a line of so many bytes a second. Returns what the called end says at a terminal."""
    terminal = Terminal()
    called = ends.answer(one.line, *QUICK, *more, front=terminal.front)
    ends.call(Cable(one, rate=rate).line, *QUICK)
    called.end()
    return terminal.seen()


@scene()
def how_far_a_file_is_at_a_terminal(one):
    """One line, written anew each second, counts the bytes of the whole file, also of one that goes on. With -v there are others."""
    for more in ((), ("-v",)):
        ends = ends_with(one, long=filler("long", 9000))
        cut(one, ends, 5000)
        (start,) = (size for _, size in held(ends, "beta").values())
        seen = seen_over_cable(one, ends, 1000, *more)
        found, rest = places_in(seen, "peer's send long")
        what = " ".join(more) or "without -v"
        one.holds(f"it is written more than once, {what}", len(found) >= 2, seen)
        one.holds(f"what came before counts, {what}",
                all(start <= place <= size == 9000 and part == place * 100 // 9000 for place, size, part, _, _ in found), found)
        one.holds(f"the time left is by the rate, {what}",
                all(rate < 2000 and left == (rate and (9000 - place) // rate) for place, _, _, rate, left in found), found)
        one.holds(f"each is wiped off, {what}", seen.count(WIPE) == len(found), seen)
        told = [re.sub(r"\b\d+ s\b", "N s", line) for line in rest.splitlines() if " send " in line]
        job = "uucpair: N s: peer's send long long"
        lines = [job, f"{job}: resumed at {start}", f"{job}: done {9000 - start} bytes in N s"]
        one.row(f"a line for what becomes of the job, {what}", told, lines if more else [])
        if not more:
            one.row("nothing else, without -v", rest, "")


@scene()
def a_terminal_that_is_the_line(one):
    """An end whose line is its standard streams shows nothing unless it is told to: its standard error may be the same terminal."""
    for more in ((), ("-v",)):
        ends = ends_with(one, long=filler("long", 6000))
        terminal, door = Terminal(), door_at(one, one.line[5:])
        caller = one.start(ends.words("call", Cable(one, rate=1000).line, *QUICK))
        line, _ = door.accept()
        door.close()
        os.remove(one.path(one.line[5:]))
        called = one.start(ends.words("answer", "-", *QUICK, *more), stdin=line, stdout=line, front=terminal.front)
        line.close()
        statuses = [running.end().status for running in (caller, called)]
        found, rest = places_in(terminal.seen(), "peer's send long")
        what = " ".join(more) or "without -v"
        one.row(f"the session is well, {what}", statuses, [0, 0])
        one.row(f"whether it is written, {what}", bool(found), bool(more))
        if not more:
            one.row("the report alone, without -v", rest, report("called"))


def pair_held_up(one, *more):
    """Runs a pair at a terminal, and stops it for a while when its session has begun. Returns its end, and what was seen."""
    terminal = Terminal()
    running = one.start(["pair", "line", "a", "b", *more], front=terminal.front)

    def has_begun():
        try:
            place = f"/proc/{running.process.pid}/fd"
            return sum(os.readlink(f"{place}/{name}").startswith("socket:") for name in os.listdir(place)) >= 2
        except OSError:
            return False

    wait_until(lambda: has_begun() or running.process.poll() is not None)
    running.process.send_signal(signal.SIGSTOP)
    time.sleep(2.5)
    running.process.send_signal(signal.SIGCONT)
    ended = running.end()
    return ended, terminal.seen()


@scene()
def how_far_a_file_of_a_pair_is(one):
    """At a terminal there is such a line, with the size of the file in its folder; the report is what it is without one."""
    size = 1_000_000
    for end in "ab":
        for folder in ("got", "send"):
            os.makedirs(one.path(f"{end}/{folder}"))
        write(one.path(f"{end}/send/long"), filler(f"long of {end}", size))
    for giver, job, struck in (("a", "send long", (1, 0)), ("b", "peer's send long", (0, 1))):
        write(one.path(f"{giver}/jobs"), "send long long me\n")
        ended, seen = pair_held_up(one)
        found, rest = places_in(seen, job)
        one.holds(f"the line is written, of {giver}", found, seen)
        one.holds(f"it has the place in the file, of {giver}",
                all(0 < place <= most == size and part == place * 100 // size for place, most, part, _, _ in found if most), found)
        one.row(f"it is wiped off, of {giver}", (seen.count(WIPE), rest), (len(found), ""))
        printed = report("caller", struck=struck[0]) + report("called", struck=struck[1])
        one.row(f"the report, of {giver}", (ended.status, ended.out), (0, printed))
    write(one.path("a/jobs"), "send long long me\n")
    ended, seen = pair_held_up(one, "-v")
    found, rest = places_in(seen, "send long")
    jobs = ["uucpair: N s: send long long", f"uucpair: N s: send long long: done {size} bytes in N s"]
    one.row("-v has lines for each job", [re.sub(r"\b\d+ s\b", "N s", line) for line in rest.splitlines()], jobs)
    for more in ((), ("-v",)):
        write(one.path("a/jobs"), "send long long me\n")
        one.row(f"without a terminal there is nothing, {' '.join(more) or 'without -v'}", one.run(["pair", "line", "a", "b", *more]).all(),
                (0, report("caller", struck=1) + report("called"), ""))
