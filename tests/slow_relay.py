#!/usr/bin/env python3
"""A slow line between two Unix sockets.

    slow_relay.py LISTEN CONNECT [RATE [SECONDS]]

Takes the first that connects to the socket LISTEN, which it makes, connects to the socket CONNECT, and hands on what
comes from either side, RATE bytes (6,000) in a second each way, for at most SECONDS (120). Where one side ends, what it
has written goes on to the other one, and then the line is gone for both.
"""
import selectors
import sys
import time

sys.dont_write_bytecode = True

from two_sockets import joined

STEP = 0.01


class Way:
    """One direction: what may pass by now, and has not."""

    def __init__(self, here, there, rate):
        self.here, self.there, self.rate = here, there, rate
        self.may = 0.0
        self.then = time.monotonic()

    def earn(self):
        """Time has passed. A line that was silent saves nothing up."""
        now = time.monotonic()
        self.may = min(self.may + (now - self.then) * self.rate, max(self.rate * STEP * 5, 1.0))
        self.then = now

    def pass_on(self):
        """Hands on what may pass. Whether the side is still there."""
        if self.may < 1:
            return True
        try:
            came = self.here.recv(int(self.may))
            self.there.sendall(came)
        except OSError:
            return False
        self.may -= len(came)
        return bool(came)


def relay(one, other, rate, until):
    """Hands on what comes, until one side ends or the time is over."""
    ways = {one: Way(one, other, rate), other: Way(other, one, rate)}
    ready = selectors.DefaultSelector()
    for side in ways:
        ready.register(side, selectors.EVENT_READ)
    while time.monotonic() < until:
        came = ready.select(1)
        for way in ways.values():
            way.earn()
        for key, _ in came:
            if not ways[key.fileobj].pass_on():
                return
        if came:
            time.sleep(STEP)


def main(listen, connect, rate=6000, seconds=120):
    until = time.monotonic() + float(seconds)
    with joined(listen, connect, float(seconds), 10) as (one, other):
        relay(one, other, float(rate), until)


if __name__ == "__main__":
    main(*sys.argv[1:])
