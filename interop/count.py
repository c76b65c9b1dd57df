#!/usr/bin/env python3
"""A line between two Unix sockets that counts what goes over it.

    count.py LISTEN CONNECT [SECONDS]

Takes the first that connects to the socket LISTEN, which it makes, connects to the socket CONNECT, and hands on what
comes from either side as it is, until both have hung up, for at most SECONDS (60). Prints how many bytes came from the
first and from the second.
"""
import os
import selectors
import socket
import sys
import time

sys.dont_write_bytecode = True
sys.path.insert(0, os.path.join(os.path.dirname(os.path.abspath(__file__)), "../tests"))

from two_sockets import connected, taken


def main():
    listen, path = sys.argv[1:3]
    seconds = float(sys.argv[3] if len(sys.argv) > 3 else 60)
    until = time.monotonic() + seconds
    near = taken(listen)
    far = connected(path, seconds)
    other = {near: far, far: near}
    counted = {near: 0, far: 0}
    with selectors.DefaultSelector() as waiting:
        for stream in other:
            waiting.register(stream, selectors.EVENT_READ)
        while waiting.get_map() and time.monotonic() < until:
            for key, _ in waiting.select(1):
                came = b""
                try:
                    came = key.fileobj.recv(1 << 16)
                    other[key.fileobj].sendall(came)
                except OSError:
                    pass
                counted[key.fileobj] += len(came)
                if not came:
                    waiting.unregister(key.fileobj)
                    try:
                        other[key.fileobj].shutdown(socket.SHUT_WR)
                    except OSError:
                        pass
    print(counted[near], counted[far])


main()
