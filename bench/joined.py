#!/usr/bin/env python3
"""Runs two commands that are joined by a Unix socket, which is standard input and output of each, and prints the seconds that
they took: on the clock, of the processor's time their own, and the system's on their behalf.

    joined.py COMMAND.. -- COMMAND..
"""
import resource
import socket
import subprocess
import sys
import time


def main():
    middle = sys.argv.index("--")
    began = time.monotonic()
    processes = []
    for words, stream in zip((sys.argv[1:middle], sys.argv[middle + 1 :]), socket.socketpair()):
        with stream:
            processes.append(subprocess.Popen(words, stdin=stream, stdout=stream))
    for process in processes:
        process.wait()
    used = resource.getrusage(resource.RUSAGE_CHILDREN)
    print(f"{time.monotonic() - began:.3f} {used.ru_utime:.3f} {used.ru_stime:.3f}")


if __name__ == "__main__":
    main()
