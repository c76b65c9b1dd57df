#!/usr/bin/env python3
"""Tries what `answer` does with a caller that holds it, or storms at it, over a Unix socket.

    tests/held.py [PROGRAM [SCENE..]]

The caller here speaks the greeting and the start of the link itself. Each scene prints a line; the last line says how many
went well, and the status is 1 where one did not. PROGRAM is crates/uucpair/out/uucpair where none is named.
"""
import os
import select
import socket
import subprocess
import sys
import tempfile
import time

ROOT = os.path.dirname(os.path.dirname(os.path.abspath(__file__)))
sys.dont_write_bytecode = True
sys.path.insert(0, os.path.join(ROOT, "interop"))

from relay import checksum
from two_sockets import listening

DLE, CONTROL = 16, 9
RJ, RR, INITC, INITB, INITA = 2, 4, 5, 6, 7
FILE = bytes(range(256)) * 1_024


def program_named():
    """The program that the command line names, or the one that is built here."""
    return os.path.abspath(sys.argv[1]) if len(sys.argv) > 1 else os.path.join(ROOT, "crates/uucpair/out/uucpair")


def control(kind, number):
    byte = kind << 3 | number
    word = (0xAAAA - byte) & 0xFFFF
    return framed(CONTROL, word, byte)


def data(number, acked, message, size=64):
    field = message.ljust(size, b"\0")
    byte = 0x80 | number << 3 | acked
    return framed(size.bit_length() - 5, (0xAAAA - (checksum(field) ^ byte)) & 0xFFFF, byte) + field


def framed(size_code, word, byte):
    low, high = word & 0xFF, word >> 8
    return bytes([DLE, size_code, low, high, byte, size_code ^ low ^ high ^ byte])


class Held:
    """A called end of the program, and what it said."""

    def __init__(self, program, work, *options):
        self.folder = os.path.join(work, "b")
        self.path = os.path.join(work, "line")
        for name in ("send", "got"):
            os.makedirs(os.path.join(self.folder, name))
        with open(os.path.join(self.folder, "send", "x"), "wb") as file:
            file.write(FILE)
        words = ["answer", f"unix:{self.path}", self.folder, "--me", "b", "--peer", "a", *options]
        self.process = subprocess.Popen([program, *words], stdout=subprocess.PIPE, stderr=subprocess.STDOUT)

    def connect(self):
        for _ in range(200):
            stream = socket.socket(socket.AF_UNIX)
            try:
                stream.connect(self.path)
                stream.settimeout(30)
                return stream
            except OSError:
                stream.close()
                time.sleep(0.05)
        raise SystemExit("nobody answers")

    def end(self, seconds):
        """Returns what it said, if it ends in so many seconds."""
        try:
            text, _ = self.process.communicate(timeout=seconds)
            return text.decode()
        except subprocess.TimeoutExpired:
            self.process.kill()
            self.process.communicate()
            return None


def read_text(stream):
    text = b""
    while not text.endswith(b"\0"):
        piece = stream.recv(1)
        if not piece:
            raise SystemExit("the line ended in the greeting")
        text += piece
    return text


def greet(stream):
    read_text(stream)
    stream.sendall(b"\x10Sa\0")
    read_text(stream)
    read_text(stream)
    stream.sendall(b"\x10Ug\0")


def begin(held, size_code=1):
    """A line whose link is up, at which the called end gives its file as fast as it may."""
    stream = held.connect()
    greet(stream)
    stream.sendall(control(INITA, 7) + control(INITB, size_code) + control(INITC, 7))
    stream.sendall(control(INITA, 7) + control(INITB, size_code) + control(INITC, 7))
    stream.sendall(data(1, 0, b"R x ~/x u -\0"))
    return stream


def drain(stream, seconds):
    """Counts the bytes that come until none do for so long."""
    count = 0
    stream.settimeout(seconds)
    try:
        while piece := stream.recv(65536):
            count += len(piece)
    except OSError:
        pass
    return count


def storm(program, work):
    """100,000 RJ, at the largest packets: at most 64 KB go out for each 4 KB that come. It may hang up meanwhile."""
    held = Held(program, work, "--timeout", "2")
    stream = begin(held, 7)
    drain(stream, 0.5)
    piece, came = control(RJ, 0) * 683, 0
    sent = 0
    for _ in range(147):
        stream.settimeout(30)
        try:
            stream.sendall(piece)
        except OSError:
            # It has hung up: rejects are no progress.
            break
        sent += len(piece)
        came += drain(stream, 0.02)
    came += drain(stream, 1)
    stream.close()
    said = held.end(60)
    return said is not None and came <= 16 * sent, f"{sent:,} bytes of RJ made {came:,} go out"


def junk(program, work):
    """A byte that says nothing each half second, after the link stands: the end hangs up after twenty timers."""
    held = Held(program, work, "--timeout", "1")
    return hold(held, begin(held), b"\x55", 40)


def junk_in_greeting(program, work):
    """The same before the greeting is over: the end hangs up after a minute."""
    held = Held(program, work, "--timeout", "1", "--wait", "70")
    stream = held.connect()
    return hold(held, stream, b"x", 90)


def hold(held, stream, byte, most):
    began = time.monotonic()
    while held.process.poll() is None and time.monotonic() - began < most:
        try:
            stream.sendall(byte)
        except OSError:
            break
        time.sleep(0.5)
    lasted = time.monotonic() - began
    stream.close()
    said = held.end(15)
    return said is not None and lasted < most, f"held for {lasted:.0f} s"


def never_reads(program, work):
    """A caller that reads nothing any more: the writes get on no further, and the end hangs up after eight timers."""
    held = Held(program, work, "--timeout", "1")
    stream = held.connect()
    stream.setsockopt(socket.SOL_SOCKET, socket.SO_RCVBUF, 2048)
    greet(stream)
    stream.sendall((control(INITA, 7) + control(INITB, 7) + control(INITC, 7)) * 2)
    stream.sendall(data(1, 0, b"R x ~/x u -\0"))
    time.sleep(1)
    began = time.monotonic()
    stream.settimeout(0.1)
    while held.process.poll() is None and time.monotonic() - began < 60:
        try:
            stream.sendall(control(RJ, 0) * 100)
        except OSError:
            pass
        time.sleep(0.1)
    lasted = time.monotonic() - began
    said = held.end(1)
    stream.close()
    return said is not None and "device fault" not in said, f"{lasted:.0f} s; {said and said.splitlines()[0]}"


def byte_by_byte(program, work):
    """A line that takes and gives one byte at a time: the whole file comes."""
    held = Held(program, work)
    folder = os.path.join(work, "a")
    os.makedirs(os.path.join(folder, "got"))
    with open(os.path.join(folder, "jobs"), "w", encoding="ascii") as file:
        file.write("request x x u\n")
    path = os.path.join(work, "near")
    with listening(path) as door:
        words = ["call", f"unix:{path}", folder, "--me", "a", "--peer", "b"]
        caller = subprocess.Popen([program, *words], stdout=subprocess.PIPE)
        near, _ = door.accept()
    far = held.connect()
    ways = {near: far, far: near}
    for side in ways:
        side.setsockopt(socket.SOL_SOCKET, socket.SO_RCVBUF, 2048)
    passed = 0
    while len(ways) == 2:
        for side in select.select(list(ways), [], [], 30)[0]:
            byte = side.recv(1)
            passed += len(byte)
            if not byte or not hand_on(ways[side], byte):
                ways.pop(side)
                break
    near.close()
    far.close()
    said = [caller.communicate(timeout=15)[0].decode(), held.end(15)]
    with open(os.path.join(folder, "got", "x"), "rb") as file:
        is_whole = file.read() == FILE
    is_done = all(text is not None and " done pending 0 " in text for text in said)
    return is_whole and is_done, f"{passed:,} bytes"


def hand_on(stream, byte):
    try:
        stream.sendall(byte)
        return True
    except OSError:
        return False


SCENES = [storm, junk, junk_in_greeting, never_reads, byte_by_byte]


def main():
    program = program_named()
    wanted = sys.argv[2:] or [scene.__name__ for scene in SCENES]
    good, tried = 0, 0
    for scene in SCENES:
        if scene.__name__ not in wanted:
            continue
        with tempfile.TemporaryDirectory() as work:
            is_good, what = scene(program, work)
        tried, good = tried + 1, good + is_good
        print(f"{'ok ' if is_good else 'BAD'} {scene.__name__}: {what}", flush=True)
    print(f"{good} of {tried} scenes went well")
    sys.exit(good != tried)


if __name__ == "__main__":
    main()
