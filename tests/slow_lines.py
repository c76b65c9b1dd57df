#!/usr/bin/env python3
"""Stands at the other side of a line that is slow, full, or used by somebody else.

    slow_lines.py knock ADDRESS COUNT           connects and closes so often
    slow_lines.py drip ADDRESS SECONDS          sends a byte each two seconds, for so long at most; prints that it has
                                                connected, and then after how many seconds it was hung up on
    slow_lines.py full ADDRESS READY SECONDS [ROOM]
                                                listens, with nobody taken and no room for one more, for so many seconds;
                                                the file READY is there when it is full. After ROOM seconds one of those
                                                who wait is taken
    slow_lines.py hold LISTEN CONNECT SECONDS   hands on what comes between two Unix sockets, but nothing at first, for so
                                                many seconds
    slow_lines.py paced NEAR FAR RATE SECONDS   a serial line with the devices NEAR and FAR, which carries RATE bytes a
                                                second each way, for so many seconds at most

ADDRESS is unix:PATH, or tcp:PORT of this machine; where PORT is 0 the file READY has the one that was found.
"""
import os
import select
import socket
import sys
import time
import tty

sys.dont_write_bytecode = True

from two_sockets import connected, taken


def open_socket(address):
    """A socket, and the address in its family."""
    family, place = address.split(":", 1)
    if family == "unix":
        return socket.socket(socket.AF_UNIX), place
    return socket.socket(socket.AF_INET), ("127.0.0.1", int(place))


def knock(address, count):
    for _ in range(int(count)):
        stranger, place = open_socket(address)
        stranger.connect(place)
        stranger.close()


def drip(address, seconds):
    stranger, place = open_socket(address)
    stranger.connect(place)
    stranger.settimeout(2)
    print("connected", flush=True)
    begun = time.monotonic()
    while time.monotonic() - begun < float(seconds):
        try:
            stranger.sendall(b"x")
            while stranger.recv(4096):
                pass
            break
        except socket.timeout:
            continue
        except OSError:
            break
    print(int(time.monotonic() - begun), flush=True)


def full(address, ready, seconds, room=None):
    listener, place = open_socket(address)
    listener.bind(place)
    listener.listen(0)
    waiting = []
    for _ in range(8):
        one, _ = open_socket(address)
        one.setblocking(False)
        try:
            one.connect(listener.getsockname())
        except BlockingIOError:
            pass
        waiting.append(one)
    with open(ready + ".new", "w", encoding="ascii") as file:
        file.write(str(listener.getsockname()[1]) if address.startswith("tcp:") else "")
    os.rename(ready + ".new", ready)
    begun = time.monotonic()
    taken = []
    while time.monotonic() - begun < float(seconds):
        time.sleep(0.1)
        if room is not None and time.monotonic() - begun >= float(room):
            taken.append(listener.accept()[0])
            room = None


def hold(listen, connect, seconds):
    one, other = taken(listen), connected(connect)
    time.sleep(float(seconds))
    ways = {one: other, other: one}
    while True:
        for side in select.select(list(ways), [], [], 60)[0]:
            came = side.recv(4096)
            if not came:
                return
            ways[side].sendall(came)


class Way:
    """One direction of a serial line: what it may carry by now."""

    def __init__(self, here, there, rate):
        self.here, self.there, self.rate = here, there, rate
        self.may, self.then = 0.0, time.monotonic()

    def carry(self):
        now = time.monotonic()
        self.may = min(self.may + (now - self.then) * self.rate, max(self.rate / 10, 1.0))
        self.then = now
        if self.may >= 1 and select.select([self.here], [], [], 0)[0]:
            came = os.read(self.here, int(self.may))
            self.may -= len(came)
            os.write(self.there, came)


def paced(near, far, rate, seconds):
    masters = []
    for path in (near, far):
        master, slave = os.openpty()
        tty.setraw(slave)
        os.symlink(os.ttyname(slave), path)
        masters.append(master)
    ways = [Way(masters[0], masters[1], float(rate)), Way(masters[1], masters[0], float(rate))]
    until = time.monotonic() + float(seconds)
    while time.monotonic() < until:
        time.sleep(0.02)
        for way in ways:
            way.carry()


if __name__ == "__main__":
    {"knock": knock, "drip": drip, "full": full, "hold": hold, "paced": paced}[sys.argv[1]](*sys.argv[2:])
