"""Unix sockets that a relay joins: for the scripts here, in `bench` and in `interop`."""
import contextlib
import os
import socket
import time


@contextlib.contextmanager
def listening(path):
    """A socket at this path, to which every user may connect as soon as it is there. The path is removed behind the block."""
    with socket.socket(socket.AF_UNIX) as door:
        door.bind(path + ".new")
        os.chmod(path + ".new", 0o666)
        door.listen(1)
        os.rename(path + ".new", path)
        yield door
    os.remove(path)


def taken(path, seconds=None):
    """The stream of the first that connects to the socket at this path, which is made here, within so many seconds."""
    with listening(path) as door:
        door.settimeout(seconds)
        stream, _ = door.accept()
    return stream


def connected(path, seconds=20):
    """A stream to the socket at this path, which may not be there yet for so many seconds."""
    until = time.monotonic() + seconds
    while True:
        stream = socket.socket(socket.AF_UNIX)
        try:
            stream.connect(path)
            return stream
        except OSError:
            stream.close()
            if time.monotonic() > until:
                raise
            time.sleep(0.02)


@contextlib.contextmanager
def joined(listen, connect, seconds, patience):
    """The first that connects to the socket LISTEN, which is made here, within so many seconds, and a connection to the
    socket CONNECT. A read or a write of either fails where it has to wait longer than the patience."""
    one = taken(listen, seconds)
    other = connected(connect)
    with one, other:
        for side in (one, other):
            side.settimeout(patience)
        yield one, other
