#!/usr/bin/env python3
"""Two commands, and a line between them of the kind that is asked for. For tests/standard_line.sh.

    tests/standard_line.py KIND RECORD NEAR.. -- FAR..

Standard input and output of NEAR are of this kind:

    socket    one socket
    pipes     two pipes
    fifos     two pipes that have names
    terminal  a terminal that is raw, which is standard error, too, and the controlling one, as `ssh -t` and getty give it

Those of FAR are a socket. What NEAR writes also goes to the file RECORD. When both have ended it prints a line: the statuses of
both (124 where one had to be stopped), how many bytes of NEAR's were no text of the protocol and no packet, and whether the
calls of NEAR's streams wait, as they did before.
"""
import contextlib
import fcntl
import os
import select
import socket
import stat
import subprocess
import sys
import tempfile
import termios
import time
import tty

sys.dont_write_bytecode = True
sys.path.insert(0, os.path.join(os.path.dirname(os.path.abspath(__file__)), "../interop"))
from relay import size_at  # noqa: E402

SECONDS = 60
DLE = 16


def streams_of(kind):
    """Makes what NEAR reads and writes, and the other sides of these."""
    if kind == "socket":
        near, ours = (end.detach() for end in socket.socketpair())
        return near, os.dup(near), ours, os.dup(ours)
    if kind == "terminal":
        ours, near = os.openpty()
        tty.setraw(near)
        return near, os.dup(near), ours, os.dup(ours)
    if kind == "pipes":
        near_in, to_near = os.pipe()
        from_near, near_out = os.pipe()
        return near_in, near_out, to_near, from_near
    with tempfile.TemporaryDirectory() as folder:
        sides = []
        for name in ("there", "back"):
            path = os.path.join(folder, name)
            os.mkfifo(path)
            reader = os.open(path, os.O_RDONLY | os.O_NONBLOCK)
            os.set_blocking(reader, True)
            sides += [reader, os.open(path, os.O_WRONLY)]
        return sides[0], sides[3], sides[1], sides[2]


def own_terminal():
    fcntl.ioctl(0, termios.TIOCSCTTY, 0)


def start_near(kind, command, near_in, near_out):
    if kind == "terminal":
        return subprocess.Popen(
            command, stdin=near_in, stdout=near_out, stderr=near_out, start_new_session=True, preexec_fn=own_terminal
        )
    return subprocess.Popen(command, stdin=near_in, stdout=near_out)


def stray_bytes(said):
    """Counts the bytes that are in no text of the protocol and in no packet."""
    stray, place = 0, 0
    while place < len(said):
        size = size_at(said[place:]) or 0
        if not size and said[place] == DLE:
            size = said.find(b"\0", place) + 1 - place
        stray += size <= 0
        place += max(size, 1)
    return stray


def end_input(side):
    """Waits until the reader at the other side of this socket has all of it."""
    with contextlib.suppress(OSError), socket.socket(fileno=os.dup(side)) as shared:
        shared.shutdown(socket.SHUT_WR)


class Joined:
    """NEAR's side and FAR's side, and what is copied between them."""

    def __init__(self, to_near, from_near, far, record):
        self.to_near, self.from_near, self.far, self.record = to_near, from_near, far, record
        self.near_is_open = self.far_is_open = True

    def copy(self, seconds):
        """Copies what has come by then."""
        sources = [self.from_near] * self.near_is_open + [self.far] * self.far_is_open
        if not sources:
            time.sleep(seconds)
        for source in select.select(sources, [], [], seconds)[0]:
            try:
                piece = os.read(source, 4096)
            except OSError:
                piece = b""
            with contextlib.suppress(OSError):
                if source == self.from_near:
                    self.record += piece
                    self.near_is_open = bool(piece)
                    os.write(self.far, piece) if piece else end_input(self.far)
                else:
                    self.far_is_open = bool(piece)
                    os.write(self.to_near, piece)

    def hang_up(self):
        """FAR is gone."""
        if stat.S_ISSOCK(os.fstat(self.to_near).st_mode):
            end_input(self.to_near)
        if os.isatty(self.to_near):
            os.close(self.from_near)
            self.near_is_open = False
        os.close(self.to_near)


def ended(process, end):
    """The status of the process, which is stopped where the time is over."""
    try:
        return process.wait(max(end - time.monotonic(), 0))
    except subprocess.TimeoutExpired:
        process.kill()
        process.wait()
        return 124


def run(kind, path, near_command, far_command):
    near_in, near_out, to_near, from_near = streams_of(kind)
    far_side, far = (end.detach() for end in socket.socketpair())
    near = start_near(kind, near_command, near_in, near_out)
    far_process = subprocess.Popen(far_command, stdin=far_side, stdout=far_side)
    os.close(far_side)
    joined = Joined(to_near, from_near, far, bytearray())
    end = time.monotonic() + SECONDS
    while near.poll() is None and joined.far_is_open and time.monotonic() < end:
        joined.copy(0.05)
    # A terminal whose line is hung up ends its process: the last words are heard before.
    grace = min(time.monotonic() + 2, end)
    while near.poll() is None and time.monotonic() < grace:
        joined.copy(0.05)
    if near.poll() is None:
        joined.hang_up()
    near_status = ended(near, end)
    waits = all(os.get_blocking(stream) for stream in (near_in, near_out))
    os.close(near_in)
    os.close(near_out)
    while joined.near_is_open and time.monotonic() < end:
        joined.copy(0.05)
    os.close(far)
    far_status = ended(far_process, end)
    with open(path, "wb") as file:
        file.write(joined.record)
    print(f"near {near_status} far {far_status} stray {stray_bytes(joined.record)} {'waits' if waits else 'does not wait'}")


def main():
    kind, path, *words = sys.argv[1:]
    split = words.index("--")
    run(kind, path, words[:split], words[split + 1 :])


if __name__ == "__main__":
    main()
