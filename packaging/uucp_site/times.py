"""When a system may be called: the times of its configuration, and `.Status`."""
from __future__ import annotations

import os
import re
import time
from dataclasses import dataclass
from pathlib import Path

from .faults import SiteError

DAYS = ("Sun", "Mon", "Tue", "Wed", "Thu", "Fri", "Sat")
DAY, WEEK = 24 * 60, 7 * 24 * 60
SPAN = re.compile(
    r"(?:At any time|From (\w{3}) (\d\d):(\d\d) to (\w{3}) (\d\d):(\d\d)|(\w{3}) from (\d\d):(\d\d) to (\d\d):(\d\d))"
    r" (may call if|may accept|will send) (?:any work|work grade (.) or higher)(?: \(retry (\d+)\))?"
)
# From the highest to the lowest, as their codes are ordered.
GRADES = "0123456789ABCDEFGHIJKLMNOPQRSTUVWXYZabcdefghijklmnopqrstuvwxyz"
DAY_SECONDS = 24 * 60 * 60
RETRY_SECONDS = 600
COMPLETE, NO_PORT, DIAL, LOGIN, HANDSHAKE, FAILED, TALKING, WRONG_TIME = range(8)
TEXTS = (
    "Conversation complete",
    "Port unavailable",
    "Dial failed",
    "Login failed",
    "Handshake failed",
    "Call failed",
    "Talking",
    "Wrong time to call",
)


@dataclass(frozen=True)
class Span:
    """Minutes of a week, from Sunday, in which jobs of a grade or a higher one are a reason to call, or go."""

    begin: int
    end: int
    grade: str = "z"
    retry: int = 0

    def has(self, minute: int) -> bool:
        return self.begin <= minute < self.end


def span_of(line: str) -> tuple[str, Span] | None:
    """Returns the span of a line that `uuchk` prints, behind what it is of, or none where it is no span."""
    found = SPAN.fullmatch(line)
    if not found:
        return None
    (
        from_day,
        from_hour,
        from_minute,
        to_day,
        to_hour,
        to_minute,
        day,
        hour,
        minute,
        end_hour,
        end_minute,
        what,
        grade,
        retry,
    ) = found.groups()
    begin, end = 0, WEEK
    if day:
        begin, end = minute_of(day, hour, minute), minute_of(day, end_hour, end_minute)
    elif from_day:
        begin, end = minute_of(from_day, from_hour, from_minute), minute_of(to_day, to_hour, to_minute)
    # the end of a week is the beginning of the next
    return what, Span(begin, end or WEEK, grade or "z", int(retry or 0))


def minute_of(day: str, hour: str, minute: str) -> int:
    return DAYS.index(day) * DAY + int(hour) * 60 + int(minute)


def span_at(spans: list[Span], now: float) -> Span | None:
    """Returns the span in which this time is. `uuchk` prints spans of which only one has a minute."""
    at = time.localtime(now)
    minute = (at.tm_wday + 1) % 7 * DAY + at.tm_hour * 60 + at.tm_min
    return next((span for span in spans if span.has(minute)), None)


@dataclass(frozen=True)
class Status:
    """How the last call went: a line of `.Status`."""

    code: int = COMPLETE
    tries: int = 0
    time: int = 0
    wait: int = 0


def read_status(spool: Path, system: str) -> Status:
    """Returns the status of a system. One that is missing, or that can't be read, holds no call back."""
    try:
        return Status(*map(int, (spool / ".Status" / system).read_text().split()[:4]))
    except (OSError, ValueError, TypeError):
        return Status()


def write_status(spool: Path, system: str, status: Status) -> None:
    """Replaces the status of a system, whole."""
    path = spool / ".Status" / system
    part = path.with_name(f"{path.name}.{os.getpid()}")
    text = f"{status.code} {status.tries} {status.time} {status.wait} {TEXTS[status.code]} {system}\n"
    try:
        path.parent.mkdir(mode=0o777, parents=True, exist_ok=True)
        part.write_text(text)
        part.chmod(0o644)
        part.replace(path)
    except OSError as fault:
        raise SiteError(str(path), fault.strerror or "can't be written", "let the user uucp write there") from fault


def why_not_due(status: Status, now: float, retries_max: int, success_wait: int) -> str | None:
    """Returns why the system may not be called again yet, in Taylor UUCP's words, or none. A time in the future is an error's."""
    if status.time > now:
        return None
    if 0 < retries_max <= status.tries and status.time + DAY_SECONDS > now:
        return "ERROR: Too many retries"
    wait = success_wait if status.code == COMPLETE else status.wait
    return "Retry time not reached" if status.time + wait > now else None


def after_failure(status: Status, code: int, now: float, span: Span, counts: bool = True) -> Status:
    """Returns the status after another failed call. Taylor UUCP waits ten minutes more after each; that a port is in use does not
    count as one."""
    tries = status.tries + counts
    return Status(code, tries, int(now), wait_after(tries, span))


def wait_after(tries: int, span: Span) -> int:
    return span.retry * 60 or RETRY_SECONDS * tries
