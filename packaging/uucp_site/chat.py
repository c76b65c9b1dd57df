"""Chat scripts, as the manual of Taylor UUCP has them."""
from __future__ import annotations

import os
import re
import shlex
import subprocess
import time
from collections.abc import Callable, Iterator

import pexpect
from pexpect import fdpexpect

from .configuration import Alternate, Chat
from .faults import SiteError
from .lines import Line

ESCAPES = {"b": b"\b", "n": b"\n", "N": b"\0", "r": b"\r", "s": b" ", "t": b"\t", "\\": b"\\"}
TOKENS = re.compile(r"\\x[0-9a-fA-F]+|\\[0-7]{1,3}|\\.|BREAK|EOT|[^\\BE]+|.", re.S)
DELAY_SECONDS, PAUSE_SECONDS = 1.5, 0.3
HEARD_MAX = 200
# What a send string does besides writing bytes.
Action = tuple[str, bytes | float | bool]


class ChatFailed(Exception):
    """Why a chat script failed, and what was heard."""


class Ear(fdpexpect.fdspawn):
    """Reads a line byte by byte, so that it takes nothing that is for those who read it next."""

    def __init__(self, line: Line, strips: bool) -> None:
        super().__init__(line.reads)
        self.strips, self.heard = strips, b""

    def read_nonblocking(self, size: int = 1, timeout: float | None = -1) -> bytes:
        piece = super().read_nonblocking(1, timeout)
        if self.strips:
            piece = bytes(byte & 0x7F for byte in piece)
        self.heard += piece
        return piece


def escaped(token: str) -> bytes | None:
    """Returns the bytes of an escape that each string may have, or of plain text; none where it is another one."""
    if not token.startswith("\\"):
        return token.encode(errors="surrogateescape")
    if token[1:2] == "x" and len(token) > 2:
        return bytes([int(token[2:], 16) & 0xFF])
    if token[1:2].isdigit():
        return bytes([int(token[1:], 8) & 0xFF])
    return ESCAPES.get(token[1:])


def unescaped(text: str) -> bytes:
    """Returns the bytes that a string stands for which is expected, or is a login name or a password."""
    parts = []
    for token in TOKENS.findall(text):
        part = escaped(token)
        # an escape that is none is the character
        parts.append(token[1:].encode(errors="surrogateescape") if part is None else part)
    return b"".join(parts)


def actions(text: str, values: dict[str, bytes]) -> Iterator[Action]:
    """Yields what is done for a send string. BREAK and EOT, as \\c, leave out the carriage return at its end."""
    returns = True
    special: dict[str, Action] = {
        "BREAK": ("break", b""),
        "\\K": ("break", b""),
        "EOT": ("write", b"\4"),
        "\\c": ("none", b""),
        "\\d": ("sleep", DELAY_SECONDS),
        "\\p": ("sleep", PAUSE_SECONDS),
        "\\E": ("echo", True),
        "\\e": ("echo", False),
        "\\M": ("carrier", False),
        "\\m": ("carrier", True),
    }
    for token in TOKENS.findall(text):
        returns &= token not in ("BREAK", "EOT", "\\c")
        if token in special:
            yield special[token]
        elif token[:1] == "\\" and token[1:] in values:
            yield "write", values[token[1:]]
        else:
            part = escaped(token)
            if part is None:
                raise SiteError("chat", f"{token} is not known in this script", "correct the chat script")
            yield "write", part
    if returns:
        yield "write", b"\r"


def values_of(alternate: Alternate) -> dict[str, bytes]:
    """Returns the escapes of a login: its name and its password, where the configuration has them."""
    found = {"L": alternate.login, "P": alternate.password}
    return {letter: unescaped(text) for letter, text in found.items() if text is not None}


def secrets_of(chat: Chat, values: dict[str, bytes]) -> list[bytes]:
    """Returns what no log may have of a login chat: the password, and what is sent, as a password may be written there."""
    sent = [re.sub(r"\\[cdpeEMmKLPZ]", "", text) for text in chat.script[1::2]]
    return [values.get("P", b""), *(unescaped(text) for text in sent if len(text) > 2 and text != '""')]


class Talk:
    """Runs chat scripts over a line. `values` are those of the escapes as \\L; `secrets` are never shown."""

    def __init__(
        self,
        line: Line,
        values: dict[str, bytes],
        secrets: list[bytes] | None = None,
        sleep: Callable[[float], None] = time.sleep,
    ) -> None:
        self.line, self.values, self.sleep = line, values, sleep
        self.secrets = [secret for secret in secrets or [] if secret]

    def run(self, chat: Chat) -> None:
        """Runs the program of a chat, and then its script."""
        if chat.program:
            self.run_program(chat.program)
        self.chat, self.ear = chat, Ear(self.line, chat.strips)
        expects, sends = chat.script[::2], chat.script[1::2]
        for number, expected in enumerate(expects):
            self.expect(expected)
            if number < len(sends):
                self.send(sends[number])

    def expect(self, text: str) -> None:
        """Waits for a string; where it does not come, sends what is between hyphens, and waits for what is after it."""
        if text == '""':
            return
        first, *others = text.split("-")
        why = self.wait_for(first)
        for number in range(0, len(others), 2):
            if why is None:
                return
            self.send(others[number])
            why = self.wait_for(others[number + 1]) if number + 1 < len(others) else None
        if why:
            raise ChatFailed(f"{why}, heard {self.shown()}")

    def wait_for(self, text: str) -> str | None:
        """Returns none where the string came in time, or else what was waited for."""
        text, _, seconds = text.partition("\\W")
        wanted = unescaped("" if text == '""' else text)
        if not wanted:
            return None
        return self.listen(wanted, float(seconds) if seconds.isdigit() else self.chat.timeout)

    def listen(self, wanted: bytes, seconds: float) -> str | None:
        fail = [unescaped(one) for one in self.chat.fail]
        try:
            found = self.ear.expect_exact([*fail, wanted, pexpect.TIMEOUT], timeout=seconds)
        except (pexpect.EOF, OSError) as fault:
            raise ChatFailed(f"the line ended, heard {self.shown()}") from fault
        if found < len(fail):
            raise ChatFailed(f"heard {self.shown()}")
        return None if found == len(fail) else f"no {self.hidden(wanted)} in {seconds:g} seconds"

    def send(self, text: str) -> None:
        if text == '""':
            return
        echoes = False
        try:
            for kind, value in actions(text, self.values):
                if kind == "write":
                    self.write_echoed(value) if echoes else self.line.write(value)
                elif kind == "break":
                    self.line.send_break()
                elif kind == "sleep":
                    self.sleep(value)
                elif kind == "echo":
                    echoes = value
                elif kind == "carrier":
                    self.line.need_carrier(value)
        except OSError as fault:
            raise ChatFailed(f"the line ended ({fault.strerror}), heard {self.shown()}") from fault

    def write_echoed(self, text: bytes) -> None:
        for byte in text:
            self.line.write(bytes([byte]))
            why = self.listen(bytes([byte]), self.chat.timeout)
            if why:
                raise ChatFailed(f"no echo, heard {self.shown()}")

    def run_program(self, text: str) -> None:
        """Runs a program that has the line as its standard input and output."""
        words = [self.in_argument(word) for word in shlex.split(text.replace("\\", "\\\\"))]
        try:
            done = subprocess.run(words, stdin=self.line.reads, stdout=self.line.writes, stderr=subprocess.PIPE, check=False)
        except OSError as fault:
            raise ChatFailed(f"{words[0]}: {fault.strerror}") from fault
        if done.returncode:
            raise ChatFailed(f"{words[0]} ended with status {done.returncode}, and said {self.hidden(done.stderr.strip())}")

    def in_argument(self, word: str) -> str:
        """Returns a word of a program with its escapes. A password is none: each user sees the arguments of a program."""

        def value(found: re.Match[str]) -> str:
            if found[1] == "P":
                raise SiteError("chat-program", "\\P would show the password to each user", "use a chat script")
            known = {"\\": b"\\", "S": str(self.line.speed).encode(), "Y": self.device().encode(), **self.values}
            return os.fsdecode(known.get(found[1], found[0].encode()))

        return re.sub(r"\\(.)", value, word)

    def device(self) -> str:
        return self.line.device.name if self.line.device is not None else self.line.name

    def shown(self) -> str:
        """Returns the end of what was heard, for a log."""
        return self.hidden(self.ear.heard) if self.ear.heard else "nothing"

    def hidden(self, text: bytes) -> str:
        for secret in self.secrets:
            text = text.replace(secret, b"***")
        return '"' + "".join(chr(byte) if 0x20 <= byte < 0x7F else f"\\{byte:03o}" for byte in text[-HEARD_MAX:]) + '"'
