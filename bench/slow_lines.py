#!/usr/bin/env python3
"""Whether a file of 20,000 bytes comes over clean slow lines, and how long it takes.

    slow_lines.py [PROGRAM [SCALE]]

Terminal devices (pseudo-terminals) are the line, which takes and gives so many bits a second in each direction, ten for a
byte; a write to the device waits where it has taken no more. `uucpair` with `--speed` and no other option but window and
size: at both ends, and at either end with Taylor UUCP at the other, which has `timeout 300`, since it knows no speed; and two
ends of Taylor. All times are divided by SCALE (10). Prints the seconds, SCALE times as many as were measured, `-` where the
file did not come or an end did not say that it is done. Where Taylor takes the file its windows of 7 x 4,096 are left out:
it stores wrong bytes there. Ends with status 1 where an end of `uucpair` was not done.
"""
import os
import pty
import select
import sys
import termios
import time
import tty

from ends import Ours, Taylor, all_came, load_files, program_named, side_by_side, stop

SCALE = int(sys.argv[2]) if len(sys.argv) > 2 else 10
TICK = 0.01
SPEEDS = [300, 1_200, 4_800, 9_600]
SIZES = [64, 1_024, 4_096]
WINDOWS = [3, 7]
PAIRS = [("ours", "ours"), ("ours", "Taylor"), ("Taylor", "ours"), ("Taylor", "Taylor")]
# As many as a machine carries: a slower line costs less.
SIDE_BY_SIDE = 160 // SCALE


class Device:
    """A terminal device whose other side is here."""

    def __init__(self):
        self.master, self.slave = pty.openpty()
        tty.setraw(self.slave, termios.TCSANOW)
        os.set_blocking(self.master, False)
        self.path = os.ttyname(self.slave)
        os.chmod(self.path, 0o666)

    def wait_for_a_byte(self):
        """Until something was written to the device, which is thrown away: 20 seconds at most."""
        if select.select([self.master], [], [], 20)[0]:
            time.sleep(0.1)
            os.read(self.master, 4096)

    def close(self):
        os.close(self.master)
        os.close(self.slave)


def move(one, other, room):
    """Hands on at most so many bytes. The answer is how many."""
    try:
        piece = os.read(one.master, room)
        return os.write(other.master, piece)
    except (BlockingIOError, OSError):
        return 0


def carry(one, other, bytes_a_second, is_over, until):
    """Hands on what comes at the line's speed. The answer is when the last bytes came."""
    rooms = [0.0, 0.0]
    came = before = time.monotonic()
    over = None
    while (now := time.monotonic()) < until:
        for way, (here, there) in enumerate(((one, other), (other, one))):
            rooms[way] = min(rooms[way] + (now - before) * bytes_a_second, 2 + 2 * TICK * bytes_a_second)
            if rooms[way] >= 1 and (count := move(here, there, int(rooms[way]))):
                rooms[way] -= count
                came = now
        before = now
        if over is None and is_over():
            over = now
        if over is not None and now - max(over, came) > 0.5:
            break
        time.sleep(TICK)
    return came


def end(kind, program, work, names, window, size, speed):
    if kind == "Taylor":
        return Taylor(work, *names, size, window, 300 // SCALE)
    options = ["--window", str(window), "--size", str(size), "--timeout", str(10 // SCALE), "--speed", str(speed * SCALE)]
    return Ours(program, work, *names, options + ["--locks", work])


def run(work, program, pair, window, size, speed):
    """The seconds that the file takes, SCALE times as many as were measured, or None, and what the ends said then."""
    caller = end(pair[0], program, work, ("a", "b"), window, size, speed)
    called = end(pair[1], program, work, ("b", "a"), window, size, speed)
    files = load_files("file")
    caller.queue(files)
    one, other = Device(), Device()
    calling = caller.call(one.path)
    if pair[0] == "Taylor":
        # What came before it has opened the device is lost.
        one.wait_for_a_byte()
    answering = called.answer(other.path)
    began = time.monotonic()
    most = 4 * 20_000 * 10 / (speed * SCALE) + 30

    def is_over():
        return calling.poll() is not None and answering.poll() is not None

    came = carry(one, other, speed * SCALE / 10, is_over, began + most)
    is_done = is_over() and all(
        process.returncode == 0 for kind, process in zip(pair, (calling, answering)) if kind == "ours"
    )
    stop(calling, answering)
    one.close()
    other.close()
    if is_done and all_came(called, files):
        return (came - began) * SCALE, ""
    return None, f"{caller.said()} | {called.said()}"


def main():
    program = program_named()
    cells = [(pair, window, size, speed) for pair in PAIRS for speed in SPEEDS for size in SIZES for window in WINDOWS]
    cells = [cell for cell in cells if (cell[0][1], *cell[1:3]) != ("Taylor", 7, 4_096)]
    taken = {}
    for cell, (seconds, why) in zip(cells, side_by_side(run, [(program, *cell) for cell in cells], SIDE_BY_SIDE)):
        taken[cell] = seconds
        if why:
            print(f"  {cell}: {why}", file=sys.stderr)
    columns = [(window, size) for size in SIZES for window in WINDOWS]
    print("| bit/s | caller, called | " + " | ".join(f"{window} x {size:,}" for window, size in columns) + " |")
    print("|" + "---|" * (len(columns) + 2))
    for speed in SPEEDS:
        for pair in PAIRS:
            row = [taken.get((pair, window, size, speed)) for window, size in columns]
            print(f"| {speed:,} | {', '.join(pair)} | " + " | ".join("-" if cell is None else f"{cell:.0f}" for cell in row) + " |")
    sys.exit(any(seconds is None for cell, seconds in taken.items() if "ours" in cell[0]))


if __name__ == "__main__":
    main()
