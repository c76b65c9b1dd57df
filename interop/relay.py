#!/usr/bin/env python3
"""A bad line between two Unix sockets: loses, doubles and damages packets.

    relay.py LISTEN CONNECT [EVERY [SECONDS]]

Takes the first that connects to the socket LISTEN, which it makes, connects to the socket CONNECT, and hands on what
comes from either side, for at most SECONDS (300). Packets are counted over both directions: each one of number EVERY
(50) is lost, the next such one goes twice, the next is damaged, and so on. All that is no packet goes on as it is. A
packet is damaged so that its checksum tells: what no checksum tells no end can notice.
"""
import os
import selectors
import sys
import time

sys.dont_write_bytecode = True
sys.path.insert(0, os.path.join(os.path.dirname(os.path.abspath(__file__)), "../tests"))

from two_sockets import joined

DLE, CONTROL = 16, 9
HEADER = 6


def checksum(field):
    """The checksum of a field, by the rules of the Taylor UUCP manual."""
    high, low = 0xFFFF, 0
    for left, byte in zip(range(len(field), 0, -1), field):
        high = (high << 1 | high >> 15) & 0xFFFF
        before = high
        high = (high + byte) & 0xFFFF
        low = (low + (high ^ left)) & 0xFFFF
        if byte == 0 or high < before:
            high ^= low
    return high


def size_at(held):
    """How many bytes the packet at the front has, 0 where none begins there, None where more have to come."""
    if held[0] != DLE or len(held) > 1 and not 1 <= held[1] <= CONTROL:
        return 0
    if len(held) < HEADER:
        return None
    if held[1] ^ held[2] ^ held[3] ^ held[4] != held[5]:
        return 0
    size = HEADER + (0 if held[1] == CONTROL else 16 << held[1])
    return size if len(held) >= size else None


def damaged(packet):
    """The packet with a bit of it turned over: of its field where it has one, else of its header."""
    changed = bytearray(packet)
    if len(packet) == HEADER:
        changed[4] ^= 64
        return bytes(changed)
    for place in range(HEADER + len(packet) // 2, len(packet)):
        changed[place] ^= 1
        if checksum(changed[HEADER:]) != checksum(packet[HEADER:]):
            return bytes(changed)
        changed[place] ^= 1
    return b""


class Line:
    """What has passed over the line."""

    def __init__(self, every):
        self.every = every
        self.packets = self.lost = self.doubled = self.damaged = 0

    def pass_on(self, packet):
        """What goes on of a packet."""
        self.packets += 1
        if self.packets % self.every:
            return packet
        turn = self.packets // self.every % 3
        if turn == 1:
            self.lost += 1
            return b""
        if turn == 2:
            self.doubled += 1
            return packet + packet
        self.damaged += 1
        return damaged(packet)

    def take(self, held):
        """What goes on of the bytes that were held, and what is held still."""
        out = bytearray()
        while held:
            size = size_at(held)
            if size is None:
                break
            if size:
                out += self.pass_on(bytes(held[:size]))
            else:
                out += held[:1]
            del held[: size or 1]
        return out


def relay(line, one, other, until):
    """Hands on what comes, until one side ends or the time is over."""
    ways = {one: (other, bytearray()), other: (one, bytearray())}
    ready = selectors.DefaultSelector()
    for side in ways:
        ready.register(side, selectors.EVENT_READ)
    while time.monotonic() < until:
        for key, _ in ready.select(1):
            to, held = ways[key.fileobj]
            try:
                came = key.fileobj.recv(4096)
                held += came
                out = line.take(held) if came else held
                to.sendall(out)
            except OSError:
                return "broken"
            if not came:
                return "ended"
    return "time over"


def main(listen, connect, every=50, seconds=300):
    line = Line(int(every))
    until = time.monotonic() + float(seconds)
    with joined(listen, connect, float(seconds), 60) as (one, other):
        how = relay(line, one, other, until)
    print(f"relay: {how}; {line.packets} packets, {line.lost} lost, {line.doubled} doubled, {line.damaged} damaged")


if __name__ == "__main__":
    main(*sys.argv[1:])
