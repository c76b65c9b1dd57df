#!/usr/bin/env python3
"""Tries what `call` and `answer` tell of a file, and what they do with what they are told, over a Unix socket.

    tests/digests.py [PROGRAM]

The other end here speaks all of it itself: it tells what is not so, and says that another file came. Each row compares what
the program says and does with what is written here. The last line counts the rows, and the status is 1 where one failed.
PROGRAM is crates/uucpair/out/uucpair where none is named.
"""
import hashlib
import os
import subprocess
import sys
import tempfile

sys.dont_write_bytecode = True
sys.path.insert(0, os.path.dirname(os.path.abspath(__file__)))

from held import INITA, INITB, INITC, RR, Held, control, data, framed, greet, program_named, read_text
from relay import HEADER, checksum, size_at
from two_sockets import listening

CLOSE = 1
SIZE = 64
TEXT = b"hello\n"


def telling(contents, size=None):
    """Returns the words that tell of a file of these bytes, or of this size."""
    return b'"" 0x%x sha256:%s' % (len(contents) if size is None else size, hashlib.sha256(contents).hexdigest().encode())


class Peer:
    """The other end of a line whose link is up."""

    def __init__(self, stream):
        self.stream = stream
        self.held = b""
        self.sent = self.taken = 0

    def start(self):
        for kind, value in ((INITA, 7), (INITB, 1), (INITC, 7)):
            self.stream.sendall(control(kind, value))
        heard = set()
        while heard < {INITA, INITB, INITC}:
            heard.add(self.packet()[4] >> 3 & 7)

    def packet(self):
        """The next packet that comes."""
        while True:
            size = size_at(self.held) if self.held else None
            if size:
                packet, self.held = self.held[:size], self.held[size:]
                return packet
            if size == 0:
                self.held = self.held[1:]
                continue
            piece = self.stream.recv(4096)
            if not piece:
                raise SystemExit("the line ended")
            self.held += piece

    def message(self):
        """The next message that comes, which is acknowledged."""
        while True:
            packet = self.packet()
            byte, field = packet[4], packet[HEADER:]
            if byte < 0x80 or byte >> 3 & 7 != (self.taken + 1) % 8:
                continue
            self.taken += 1
            self.stream.sendall(control(RR, self.taken % 8))
            if byte < 0xC0:
                return field
            if field[0] < 0x80:
                return field[1:1 + len(field) - field[0]]
            return field[2:2 + len(field) - (field[0] & 0x7F) - (field[1] << 7)]

    def hear(self):
        """The next text that comes."""
        text = b""
        while b"\0" not in text:
            text += self.message()
        return text[:text.index(b"\0")].decode()

    def take(self):
        """The bytes of a file that comes."""
        file = b""
        while message := self.message():
            file += message
        return file

    def send(self, message):
        self.sent += 1
        number, acked = self.sent % 8, self.taken % 8
        if len(message) == SIZE:
            self.stream.sendall(data(number, acked, message))
            return
        field = (bytes([SIZE - len(message)]) + message).ljust(SIZE, b"\0")
        byte = 0xC0 | number << 3 | acked
        self.stream.sendall(framed(2, (0xAAAA - (checksum(field) ^ byte)) & 0xFFFF, byte) + field)

    def say(self, text):
        text += b"\0"
        for place in range(0, len(text), SIZE):
            self.send(text[place:place + SIZE].ljust(SIZE, b"\0"))

    def give(self, file):
        for place in range(0, len(file), SIZE):
            self.send(file[place:place + SIZE])
        self.send(b"")

    def close(self):
        """The session is over: the link ends, and the line."""
        self.stream.sendall(control(CLOSE, 0))
        while self.packet()[4] >> 3 != CLOSE:
            pass
        self.stream.close()


def sends(peer, told, file):
    """The peer sends a file of which it tells this: what is answered at its end, or in its place."""
    peer.say(b"S y ~/y u - y 0644 " + told)
    answer = peer.hear()
    if answer != "SY":
        return answer
    peer.give(file)
    return peer.hear()


def called(program, work, options, talk):
    """Returns how `answer` ends with a caller that talks so, what it writes, and what it has."""
    held = Held(program, work, "-v", "--log", os.path.join(work, "log"), *options)
    peer = Peer(held.connect())
    greet(peer.stream)
    peer.start()
    said = talk(peer)
    # The peer is master, has no job, and neither has the other end.
    peer.say(b"H")
    assert peer.hear() == "HY"
    peer.say(b"HY")
    peer.close()
    return said, held.end(30), kept_in(os.path.join(work, "b")), read(os.path.join(work, "log"))


def caller(program, work, job, options, talk):
    """Returns how `call` ends with an end that answers so, what it writes, what it has, its log and its jobs."""
    folder, path = os.path.join(work, "a"), os.path.join(work, "line")
    for name in ("send", "got"):
        os.makedirs(os.path.join(folder, name))
    write(os.path.join(folder, "send", "x"), TEXT)
    write(os.path.join(folder, "jobs"), job)
    with listening(path) as door:
        words = ["call", f"unix:{path}", folder, "--me", "a", "--peer", "b", "-v", "--log", os.path.join(work, "log"), *options]
        process = subprocess.Popen([program, *words], stdout=subprocess.PIPE, stderr=subprocess.STDOUT)
        stream, _ = door.accept()
    stream.settimeout(30)
    stream.sendall(b"\x10Shere=b\0")
    read_text(stream)
    stream.sendall(b"\x10ROK\0\x10Pg\0")
    read_text(stream)
    peer = Peer(stream)
    peer.start()
    said = talk(peer)
    assert peer.hear() == "H"
    peer.say(b"HY")
    assert peer.hear() == "HY"
    peer.close()
    printed = process.communicate(timeout=30)[0].decode()
    return said, printed, kept_in(folder), read(os.path.join(work, "log")), read(os.path.join(folder, "jobs"))


def kept_in(folder):
    got = os.path.join(folder, "got")
    return {name: read(os.path.join(got, name)) for name in sorted(os.listdir(got)) if not name.startswith(".")}


def read(path):
    with open(path, "rb") as file:
        return file.read().decode()


def write(path, contents):
    with open(path, "wb") as file:
        file.write(contents)


def taken(peer, answer):
    """The other end's command, where its file is taken and so answered."""
    command = peer.hear()
    peer.say(b"SY")
    peer.take()
    peer.say(answer)
    return command


def given(peer, told, file):
    """Returns the answer to a file that was asked for, of which this was told."""
    assert peer.hear() == "R x y u -"
    peer.say(b"RY 0644 " + told)
    peer.give(file)
    return peer.hear()


def a_file_that_differs(program, work):
    talk = lambda peer: (sends(peer, telling(b"hullo\n"), TEXT), sends(peer, telling(TEXT), TEXT))
    said, printed, kept, log = called(program, work, [], talk)
    return (said == ("CN4", "CY") and kept == {"y": "hello\n"} and "peer's send y ~/y: wrong digest 6 bytes" in printed
            and "ERROR: send y ~/y: wrong digest" in log and "Receiving ~/y (6 bytes)" in log)


def a_size_that_differs(program, work):
    said, _, kept, _ = called(program, work, [], lambda peer: sends(peer, telling(TEXT, 7), TEXT))
    return said == "CN4" and kept == {}


def a_file_that_is_too_large(program, work):
    talk = lambda peer: (sends(peer, telling(TEXT, 1_048_577), TEXT), sends(peer, telling(TEXT), TEXT))
    said, printed, kept, log = called(program, work, ["--file-limit", "1048576"], talk)
    return (said == ("SN2", "CY") and kept == {"y": "hello\n"} and "peer's send y ~/y: refused, maybe for its size 0 bytes" in printed
            and "ERROR: send y ~/y: refused, maybe for its size" in log)


def a_strict_end_takes_what_is_told_too_large(program, work):
    said, _, kept, _ = called(program, work, ["--strict", "--file-limit", "1048576"], lambda peer: sends(peer, telling(TEXT, 1_048_577), TEXT))
    return said == "CN4" and kept == {}


def an_end_that_compares_none(program, work):
    said, _, kept, _ = called(program, work, ["--no-digest"], lambda peer: sends(peer, telling(b"hullo\n"), TEXT))
    return said == "CY" and kept == {"y": "hello\n"}


def a_job_whose_file_came_changed(program, work):
    said, printed, _, log, jobs = caller(program, work, b"send x y u\n", [], lambda peer: taken(peer, b"CN4"))
    return (said == f"S x y u - D.0 0644 \"\" 0x00000006 sha256:{hashlib.sha256(TEXT).hexdigest()}" and jobs == "send x y u\n"
            and "caller done pending 1 struck 0 failed 0\n" in printed and "send x y: wrong digest 6 bytes" in printed
            and "uucpair: send x y u: put off: the other end will take it later, or the digest was wrong there\n" in printed
            and "ERROR: send x y: wrong digest" in log)


def a_job_of_an_end_that_tells_none(program, work):
    said, printed, _, log, jobs = caller(program, work, b"send x y u\n", ["--no-digest"], lambda peer: taken(peer, b"CN4"))
    return (said == "S x y u - D.0 0644" and jobs == "send x y u\n" and "send x y: put off 6 bytes" in printed
            and "uucpair: send x y u: put off: the other end will take it later\n" in printed and "ERROR: send x y: put off" in log)


def a_job_that_is_done(program, work):
    _, printed, _, _, jobs = caller(program, work, b"send x y u\n", [], lambda peer: taken(peer, b"CY"))
    return jobs == "" and "caller done pending 0 struck 1 failed 0\n" in printed and "put off" not in printed


def a_file_that_was_asked_for_differs(program, work):
    talk = lambda peer: given(peer, telling(b"hullo\n"), TEXT)
    said, printed, kept, log, jobs = caller(program, work, b"request x y u\n", [], talk)
    return (said == "CN4" and kept == {} and jobs == "request x y u\n" and "request x y: wrong digest 6 bytes" in printed
            and "uucpair: request x y u: put off: the other end will give it later, or the digest was wrong\n" in printed
            and "ERROR: request x y: wrong digest" in log)


def a_file_that_was_asked_for(program, work):
    said, _, kept, _, jobs = caller(program, work, b"request x y u\n", [], lambda peer: given(peer, telling(TEXT), TEXT))
    return said == "CY" and kept == {"y": "hello\n"} and jobs == ""


def a_file_that_is_given(program, work):
    def talk(peer):
        peer.say(b"R x ~/x u -")
        told, file = peer.hear(), peer.take()
        peer.say(b"CY")
        return told, file

    (told, file), _, _, _ = called(program, work, [], talk)
    return told == f'RY 0644 "" 0x{len(file):08x} sha256:{hashlib.sha256(file).hexdigest()}' and len(file) == 262_144


ROWS = [
    a_file_that_differs,
    a_size_that_differs,
    a_file_that_is_too_large,
    a_strict_end_takes_what_is_told_too_large,
    an_end_that_compares_none,
    a_job_whose_file_came_changed,
    a_job_of_an_end_that_tells_none,
    a_job_that_is_done,
    a_file_that_was_asked_for_differs,
    a_file_that_was_asked_for,
    a_file_that_is_given,
]


def main():
    program = program_named()
    failed = 0
    for row in ROWS:
        with tempfile.TemporaryDirectory() as work:
            well = row(program, work)
        if not well:
            failed += 1
            print(f"{row.__name__}: not as it ought to be")
    print(f"{len(ROWS) - failed} passed, {failed} failed")
    return failed > 0


if __name__ == "__main__":
    sys.exit(main())
