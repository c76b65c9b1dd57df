#!/usr/bin/env python3
"""Writes random bytes: tools/seen_bytes.py SIZE.

One in about 1,460 packets of random bytes passes its checksum with the last bit turned over, which no end can see. So
each piece that travels in a packet of 64 bytes is one of which the checksum tells it.
"""
import os
import sys

FIELD = 64


def check(field):
    first, second = 0xFFFF, 0
    for place, byte in enumerate(field):
        first = (((first << 1) | (first >> 15)) + byte) & 0xFFFF
        second = (second + (first ^ (len(field) - place))) & 0xFFFF
        if byte == 0 or first < byte:
            first ^= second
    return first


def is_seen(piece):
    missing = FIELD - len(piece)
    field = piece if missing == 0 else bytes([missing]) + piece + bytes(missing - 1)
    return check(field) != check(field[:-1] + bytes([field[-1] ^ 1]))


def main():
    left = int(sys.argv[1])
    while left > 0:
        piece = os.urandom(min(left, FIELD))
        if is_seen(piece):
            sys.stdout.buffer.write(piece)
            left -= len(piece)


main()
