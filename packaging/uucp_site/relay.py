"""A session whose greeting is heard, and said, by this program as well, which then carries the bytes between it and the line."""
from __future__ import annotations

import contextlib
import os
import select
import socket
import time
from collections.abc import Callable, Iterator

from .lines import Line
from .sessions import start_session

TEXT_MAX, TEXT_SECONDS = 256, 60
# Who has ended gets so long to have what it wrote read.
END_SECONDS = 10
PIECE = 8192


class NoText(Exception):
    """Nothing was said that can be understood."""


class Texts:
    """Puts bytes together to texts of a greeting: from 020 to a zero byte or a line feed, of seven bits each."""

    def __init__(self) -> None:
        self.text = b""

    def take(self, byte: bytes) -> bytes | None:
        """Returns the text that this byte ends, without the 020. What comes before a text is passed over."""
        if self.text and byte in b"\0\n":
            text, self.text = bytes(one & 0x7F for one in self.text[1:]), b""
            return text
        if self.text or byte == b"\x10":
            self.text += byte
        if len(self.text) > TEXT_MAX:
            raise NoText("the greeting is too long")
        return None


def spelled(text: bytes) -> bytes:
    return b"\x10" + text + b"\0"


def read_text(line: Line) -> bytes:
    """Returns the first text that is said at a line."""
    until, texts = time.monotonic() + TEXT_SECONDS, Texts()
    while True:
        left = until - time.monotonic()
        if left <= 0 or not select.select([line.reads], [], [], left)[0]:
            raise NoText("nothing is said in the greeting")
        byte = os.read(line.reads, 1)
        if not byte:
            raise NoText("the line ended in the greeting")
        text = texts.take(byte)
        if text is not None:
            return text


@contextlib.contextmanager
def relayed(words: list[str], status: list[int]) -> Iterator[socket.socket]:
    """Starts a session, and lends the socket that is its line. Its status is appended when it has ended."""
    ours, theirs = socket.socketpair()
    with ours, start_session(words, theirs.fileno(), theirs.fileno()) as session:
        theirs.close()
        try:
            yield ours
        except Exception:
            # the session tells that its line has ended
            ours.close()
            session.wait()
            raise
        except BaseException:
            session.terminate()
            raise
        ours.close()
        status.append(session.wait())


def pass_text(line: Line, session: socket.socket, from_line: bool, edit: Callable[[bytes], bytes]) -> bool:
    """Carries bytes both ways until one end, the line or the session, has said a text, which is edited before it goes on. Returns
    whether it was said before one of them ended."""
    texts = Texts()
    while ready := select.select([line.reads, session], [], [], TEXT_SECONDS)[0]:
        at_line = line.reads in ready
        byte = read_piece(line.reads if at_line else session.fileno(), 1)
        if not byte:
            return False
        text = texts.take(byte) if at_line is from_line else None
        if text is not None:
            byte = spelled(edit(text))
        elif at_line is from_line:
            continue
        if at_line:
            to_session(session, byte)
        else:
            line.write(byte)
        if text is not None:
            return True
    return False


def to_session(session: socket.socket, text: bytes) -> None:
    """Gives a session bytes of its greeting. One that has ended takes none."""
    with contextlib.suppress(OSError):
        session.sendall(text)


def carry(line: Line, session: socket.socket) -> None:
    """Carries bytes both ways until the session has ended, and all of its bytes are written."""
    to_line, to_session = b"", b""
    hears, session_lives, is_shut, ended = True, True, False, 0.0
    session.setblocking(False)
    while session_lives or to_line:
        if not session_lives and time.monotonic() > ended:
            return
        reads = [line.reads] * (hears and session_lives and len(to_session) < PIECE) + [session] * (
            session_lives and len(to_line) < PIECE
        )
        writes = [line.writes] * bool(to_line) + [session] * bool(to_session and session_lives)
        ready, free, _ = select.select(reads, writes, [], END_SECONDS)
        if line.reads in ready:
            piece = read_piece(line.reads)
            to_session += piece
            hears = bool(piece)
        if session in ready:
            piece = read_piece(session.fileno())
            to_line += piece
            session_lives = bool(piece)
            ended = time.monotonic() + END_SECONDS
        if line.writes in free:
            try:
                # one that takes few bytes at a time holds nobody
                to_line = to_line[os.write(line.writes, to_line[:512]) :]
            except OSError:
                return
        if session in free and to_session:
            with contextlib.suppress(OSError):
                to_session = to_session[session.send(to_session) :]
        if not hears and not to_session and not is_shut:
            is_shut = True
            with contextlib.suppress(OSError):
                session.shutdown(socket.SHUT_WR)


def read_piece(file: int, size: int = PIECE) -> bytes:
    try:
        return os.read(file, size)
    except OSError:
        return b""
