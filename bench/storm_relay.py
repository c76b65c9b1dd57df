#!/usr/bin/env python3
"""Relays one call between two Unix sockets, with faults: bench/storm_relay.py NEAR FAR FAULT.

It makes the socket NEAR, takes one call there, calls FAR for it, and passes on what comes, packet by packet. FAULT is of
the data packets that the caller sends: none; doubled-once (the 100th comes twice); early (from the 100th on the answers
are held for 1.5 seconds); doubled, lost, damaged (each 50th); all (each 50th, one fault after the other, and each 50th
answer is lost). When the call is over it prints how many data packets the caller has sent.
"""
import os
import select
import sys
import time

sys.dont_write_bytecode = True
sys.path.insert(0, os.path.join(os.path.dirname(os.path.abspath(__file__)), "../tests"))

from two_sockets import connected, taken

EVERY = 50
ONCE = 100
HELD = 1.5
DATA_KINDS = range(1, 9)
CONTROL_KIND = 9
DLE = 0x10


def packet_length(held):
    """The length of the packet that these bytes begin with: 0 where they begin with none, None where more are needed."""
    if held[0] != DLE or (len(held) > 1 and held[1] not in range(1, 10)):
        return 0
    if len(held) < 6:
        return None
    kind = held[1]
    if kind ^ held[2] ^ held[3] ^ held[4] != held[5]:
        return 0
    return 6 if kind == CONTROL_KIND else 6 + (1 << (kind + 4))


class Way:
    """One direction of the line."""

    def __init__(self, pass_on):
        self.held = b""
        self.pass_on = pass_on

    def take(self, piece):
        self.held += piece
        while self.held:
            length = packet_length(self.held)
            if length is None or len(self.held) < length:
                return
            count = length or 1
            packet, self.held = self.held[:count], self.held[count:]
            self.pass_on(packet, length != 0)


class Relay:
    def __init__(self, near, far, fault):
        self.near, self.far, self.fault = near, far, fault
        self.data = self.answers = self.faults = 0
        self.waits, self.until = b"", 0.0
        self.out, self.back = Way(self.send_out), Way(self.send_back)

    def fault_now(self):
        if self.fault == "doubled-once":
            return "doubled" if self.data == ONCE else "none"
        if self.fault == "early":
            if self.data == ONCE:
                self.until = time.monotonic() + HELD
            return "none"
        if self.data % EVERY or self.fault == "none":
            return "none"
        if self.fault != "all":
            return self.fault
        self.faults += 1
        return ("lost", "doubled", "damaged")[self.faults % 3]

    def send_out(self, packet, is_packet):
        if not is_packet or packet[1] == CONTROL_KIND:
            return self.far.sendall(packet)
        self.data += 1
        fault = self.fault_now()
        if fault == "damaged":
            packet = packet[:-1] + bytes([packet[-1] ^ 0x40])
        if fault != "lost":
            self.far.sendall(packet * (2 if fault == "doubled" else 1))

    def send_back(self, packet, is_packet):
        if is_packet and packet[1] == CONTROL_KIND and self.data > 0:
            self.answers += 1
            if self.fault == "all" and self.answers % EVERY == 0:
                return
        self.waits += packet

    def release(self):
        if self.waits and time.monotonic() >= self.until:
            self.near.sendall(self.waits)
            self.waits = b""

    def run(self):
        ways = {self.near: self.out, self.far: self.back}
        while True:
            ready, _, _ = select.select(list(ways), [], [], 0.05)
            for end in ready:
                piece = end.recv(65536)
                if not piece:
                    return
                ways[end].take(piece)
            self.release()


def main():
    near_path, far_path, fault = sys.argv[1:]
    near = taken(near_path)
    far = connected(far_path)
    relay = Relay(near, far, fault)
    try:
        relay.run()
        relay.until = 0.0
        relay.release()
    except OSError:
        pass
    near.close()
    far.close()
    print(relay.data)


main()
