#!/usr/bin/env python3
"""Tries what `answer --strict` says of a command for which its session ends, over a Unix socket.

    tests/unread.py [PROGRAM]

The caller here speaks the greeting and the start of the link itself, and sends one command. A line says what was not as it ought
to be; the last line counts them, and the status is 1 where one was not. PROGRAM is crates/uucpair/out/uucpair where none is named.
"""
import concurrent.futures
import os
import sys
import tempfile

sys.dont_write_bytecode = True
sys.path.insert(0, os.path.dirname(os.path.abspath(__file__)))

from held import INITA, INITB, INITC, Held, control, data, drain, framed, greet, program_named
from relay import checksum

LONG = b"X " + b"y" * 70


def nothing(number, acked, size=64):
    """A packet with an empty message, which ends a file: its first byte says that none of its bytes counts."""
    field = bytes([size]).ljust(size, b"\0")
    byte = 0xC0 | number << 3 | acked
    return framed(size.bit_length() - 5, (0xAAAA - (checksum(field) ^ byte)) & 0xFFFF, byte) + field


def talk(held, packets):
    """A line whose link is up, at which the caller sends these packets."""
    stream = held.connect()
    greet(stream)
    for packet in [control(INITA, 7) + control(INITB, 1) + control(INITC, 7)] * 2:
        stream.sendall(packet)
        drain(stream, 0.2)
    for packet in packets:
        stream.sendall(packet)
        drain(stream, 0.2)
    stream.close()


def greeting(held, text):
    """A caller that says this, and no more."""
    stream = held.connect()
    drain(stream, 0.2)
    stream.sendall(text)
    drain(stream, 0.5)
    stream.close()


BADTALK = "called badtalk pending 0 struck 0 failed 0\n"
# The report of an end that has let in nobody.
NOBODY = "called gaveup pending 0 struck 0 failed 0\n"

ROWS = [
    # a command that can't be read
    (lambda held: talk(held, [data(1, 0, b"X ~/*.txt ..\0")]), BADTALK, 'can\'t read "X ~/*.txt .."'),
    # what can't be seen of it
    (lambda held: talk(held, [data(1, 0, b"Z \x1b[31m\\\0")]), BADTALK, 'can\'t read "Z \\x1b[31m\\x5c"'),
    # one of two packets, of which 60 bytes are shown, and the first comes twice
    (lambda held: talk(held, [data(1, 0, LONG[:64]), data(1, 0, LONG[:64]), data(2, 0, LONG[64:] + b"\0")]), BADTALK,
     'can\'t read "X ' + "y" * 58 + '"'),
    # one that can be read, and is no turn of the caller's
    (lambda held: talk(held, [data(1, 0, b"SY\0")]), BADTALK, 'out of turn: heard "SY"'),
    # one behind a job that was done: what is said is of the last
    (lambda held: talk(held, [data(1, 0, b"S y ~/y u - y 0644 u\0"), data(2, 1, b"the file"), nothing(3, 1),
                              data(4, 2, b"W y\0")]), BADTALK, 'can\'t read "W y"'),
    # a text of the greeting that is too long
    (lambda held: greeting(held, b"\x10S" + b"a" * 300), NOBODY, 'can\'t read "S' + "a" * 59 + '"'),
]


def faults_of(program, row, report, said):
    """Runs a row. Returns what was printed and said where that is not as it ought to be."""
    with tempfile.TemporaryDirectory() as work:
        held = Held(program, work, "--strict", "--timeout", "2", "--wait", "3", "--report", os.path.join(work, "report"))
        row(held)
        heard = held.end(60)
        with open(os.path.join(work, "report")) as file:
            printed = file.read()
    lines = (heard or "").splitlines()
    well = printed == report and (f"uucpair: {said}" in lines if said else not lines)
    return None if well else f"printed {printed!r} and said {heard!r}"


def main():
    program = program_named()
    # A row waits most of its time, so all run side by side.
    with concurrent.futures.ThreadPoolExecutor(len(ROWS)) as pool:
        faults = list(pool.map(lambda row: faults_of(program, *row), ROWS))
    for number, fault in enumerate(faults):
        if fault:
            print(f"row {number}: {fault}")
    failed = sum(fault is not None for fault in faults)
    print(f"{len(ROWS) - failed} passed, {failed} failed")
    return failed > 0


if __name__ == "__main__":
    sys.exit(main())
