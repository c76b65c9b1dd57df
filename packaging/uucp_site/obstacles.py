"""What of a configuration stops a call."""
from __future__ import annotations

from collections.abc import Iterator
from dataclasses import dataclass

from .configuration import Alternate, Chat, Port


@dataclass(frozen=True)
class Obstacle:
    """A keyword that can't be honoured, why, and what to do."""

    keyword: str
    why: str
    remedy: str
    port: str | None = None

    def __str__(self) -> str:
        return f"{self.keyword}: {self.why}: {self.remedy}"


def of_chat(keyword: str, chat: Chat) -> Iterator[Obstacle]:
    if chat.program and "\\P" in chat.program:
        yield Obstacle(f"{keyword}-program", "\\P would show the password to each user", "use a chat script")


def of_system(protocols: str | None) -> Iterator[Obstacle]:
    """Yields what stops both calls to a system and calls from it."""
    if protocols and "g" not in protocols:
        yield Obstacle("protocol", f"{protocols} has no g", "the other end must offer g, and this line name it")


def of_call(alternate: Alternate, port: Port) -> Iterator[Obstacle]:
    """Yields what stops a call to a system at this port."""
    yield from of_system(alternate.protocols or port.protocols)
    yield from of_chat("chat", alternate.chat)
    for keyword, why, remedy in of_port(port):
        yield Obstacle(keyword, why, remedy, port.name)


def of_port(port: Port) -> Iterator[tuple[str, str, str]]:
    if port.seven_bit:
        yield "seven-bit", "g needs eight bits", "write `seven-bit false` if the line has eight"
    if port.kind not in ("tcp", "pipe", "direct", "modem", "stdin"):
        yield "type", f"{port.kind} can't be used here", "use tcp, pipe, direct, modem or stdin"
    for name in port.missing:
        yield "dialer", f"there is no dialer {name}", "add it to the dial file"
    if port.kind == "modem" and not port.dialers and not port.missing:
        yield "dialer", f"port {port.name} has none", "name one in the port file"


def of_answer(alternate: Alternate) -> Iterator[Obstacle]:
    """Yields what stops a call from a system."""
    yield from of_system(alternate.protocols)
    yield from of_chat("called-chat", alternate.called_chat)
