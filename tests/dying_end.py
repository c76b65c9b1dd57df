#!/usr/bin/env python3
"""An end that dies behind its greeting, as one does that is killed: tests/dying_end.py LINE ROLE HOW.

LINE is unix:PATH, tcp:PORT of this machine, or pty:PATH, where a link is made to a terminal whose other side this end has. ROLE is
`call` or `answer`. HOW is what it does before it dies:

  unread    it leaves unread what the other end says
  read      it reads that, until nothing more comes
  speaking  it reads that, and then says what wants an answer
"""
import os
import select
import signal
import socket
import sys
import tty

PATIENCE = 10


def packet(control):
    """A control packet."""
    check = 0xAAAA - control
    return bytes([0x10, 9, check & 255, check >> 8, control, 9 ^ (check & 255) ^ (check >> 8) ^ control])


INITA = packet(0x3F)


class Line:
    """A line that is open for reading and writing at this descriptor."""

    def __init__(self, descriptor):
        self.descriptor = descriptor
        self.heard = b""

    def says(self, seconds):
        """Returns whether the other end says something within this time."""
        return bool(select.select([self.descriptor], [], [], seconds)[0])

    def hear(self, text):
        """Reads until this text has come."""
        while text not in self.heard:
            if not self.says(PATIENCE):
                sys.exit("the other end did not say %r" % text)
            self.heard += os.read(self.descriptor, 4096)

    def hear_all(self):
        """Reads until nothing more comes."""
        while self.says(0.3):
            self.heard += os.read(self.descriptor, 4096)

    def say(self, *texts):
        for text in texts:
            os.write(self.descriptor, text)


def opened(name, role):
    """The line of this name. The second value keeps open what it needs."""
    kind, place = name.split(":")
    if kind == "pty":
        master, slave = os.openpty()
        tty.setraw(slave)
        os.symlink(os.ttyname(slave), place)
        return Line(master), slave
    if kind == "unix":
        door, address = socket.socket(socket.AF_UNIX), place
    else:
        door, address = socket.socket(socket.AF_INET), ("127.0.0.1", int(place))
        door.setsockopt(socket.SOL_SOCKET, socket.SO_REUSEADDR, 1)
    if role == "call":
        door.connect(address)
        return Line(door.fileno()), door
    door.bind(address)
    door.listen()
    stream, _ = door.accept()
    return Line(stream.fileno()), stream


def main():
    name, role, how = sys.argv[1:]
    line, _kept = opened(name, role)
    if role == "call":
        line.hear(b"Shere=far\0")
        line.say(b"\x10Snear\0")
        line.hear(b"Pg\0")
        last = [b"\x10Ug\0", INITA]
    else:
        line.say(b"\x10Shere=far\0")
        line.hear(b"Snear")
        last = [b"\x10ROK\0", b"\x10Pg\0"]
    if how == "speaking":
        line.hear_all()
    line.say(*last)
    if how == "unread" and not line.says(PATIENCE):
        sys.exit("the other end said nothing more")
    if how == "read":
        line.hear_all()
    os.kill(os.getpid(), signal.SIGKILL)


main()
