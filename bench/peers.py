#!/usr/bin/env python3
"""What ZMODEM and Kermit do with files that the other scripts send by uucpair.

    peers.py [ROUNDS]

ZMODEM is `sz` and `rz` of Debian's package `lrzsz`, Kermit is C-Kermit of the package `ckermit`, at a terminal of its own; both have
their usual settings. A relay joins the two ends, on these lines, of which none loses or garbles a byte:

    bytes        a fast one: how many bytes the sender writes for a file of 20,000
    half duplex  that of half_duplex.py, in real time: the seconds until the last byte has arrived, of that file or of what ends it

(Kermit needs `socat`.) Prints a row for each of ROUNDS (3) rounds. Ends with status 1 where a file did not arrive whole.
"""
import os
import random
import select
import socket
import subprocess
import sys
import tempfile
import time

sys.dont_write_bytecode = True

import half_duplex
from ends import fresh, read, stop

# The line of half_duplex.py, in real time.
half_duplex.BYTES_A_SECOND, half_duplex.TURN, half_duplex.PIECE = 150, 1, 3
FILE_SIZE, MOST = 20_000, 600
KERMIT = ["set file type binary", "set file incomplete keep", "set transfer display none", "set quiet on"]


def file_of(size):
    return random.Random("peers").randbytes(size)


class Zmodem:
    """A sender and a taker, each in a folder of its own."""

    def __init__(self, work, resumes):
        self.work, self.resumes = work, resumes
        for side in ("sends", "takes"):
            os.makedirs(f"{work}/{side}", exist_ok=True)

    def command(self, side):
        resume = ["-r"] if self.resumes else []
        return ["sz", "-b", "-q", *resume, "file"] if side == "sends" else ["rz", "-b", "-q", *resume]

    def start(self, side):
        """The process, and its line."""
        line, its_own = socket.socketpair()
        with its_own, open(f"{self.work}/{side}.said", "ab") as said:
            command, folder = self.command(side), f"{self.work}/{side}"
            return subprocess.Popen(command, cwd=folder, stdin=its_own, stdout=its_own, stderr=said), line

    def took(self):
        return read(f"{self.work}/takes/file")


class Kermit(Zmodem):
    """The same by Kermit, which wants a terminal."""

    def command(self, side):
        sends = "resend file" if self.resumes else "send file"
        with open(f"{self.work}/{side}.ksc", "w", encoding="ascii") as script:
            script.write("\n".join([*KERMIT, sends if side == "sends" else "receive", "exit"]) + "\n")
        return ["socat", "-", f"EXEC:kermit -y {self.work}/{side}.ksc,pty,setsid,ctty,raw,echo=0"]


def carry(one, other, most):
    """Hands on what comes, until a side ends or so many bytes have passed both ways. The answer is how many each side wrote."""
    there, written = {one: other, other: one}, {one: 0, other: 0}
    while sum(written.values()) < most:
        for side in select.select([one, other], [], [])[0]:
            try:
                came = side.recv(min(4096, most - sum(written.values())))
                there[side].sendall(came)
            except OSError:
                came = b""
            written[side] += len(came)
            if not came:
                return list(written.values())
    return list(written.values())


def ended(*processes):
    """Waits for the ends of a line that is gone."""
    until = time.monotonic() + 20
    while time.monotonic() < until and any(process.poll() is None for process in processes):
        time.sleep(0.1)
    stop(*processes)


def session(ends, line):
    """A session over a line, whose answer it gives."""
    sends, one = ends.start("sends")
    takes, other = ends.start("takes")
    with one, other:
        came = line(one, other)
    ended(sends, takes)
    return came


def over(kind, work, line):
    """What a line answers to a session that sends the file, if it has arrived."""
    ends = kind(work, False)
    with open(f"{work}/sends/file", "wb") as file:
        file.write(file_of(FILE_SIZE))
    came = session(ends, line)
    return came if ends.took() == file_of(FILE_SIZE) else None


def row(number):
    """Prints what came of a round, and says whether all files have arrived."""
    whole = True
    for name, kind in (("ZMODEM", Zmodem), ("Kermit", Kermit)):
        with tempfile.TemporaryDirectory() as work:
            written = over(kind, fresh(f"{work}/w"), lambda one, other: carry(one, other, 1 << 30))
            began = time.monotonic()
            came = over(kind, fresh(f"{work}/w"), lambda one, other: half_duplex.channel(one, other, began + MOST)[0])
        told = [written and f"{written[0]} bytes", came and f"{came - began:.0f} s half duplex"]
        whole = whole and all(told)
        print(number, name, *(word or "failed" for word in told), sep=", ", flush=True)
    return whole


def main():
    rounds = int(sys.argv[1]) if len(sys.argv) > 1 else 3
    sys.exit(0 if all([row(number + 1) for number in range(rounds)]) else 1)


if __name__ == "__main__":
    main()
