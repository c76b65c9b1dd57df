"""The log, in the form of Taylor UUCP's, that `uulog` reads."""
from __future__ import annotations

import contextlib
import datetime
import os
import sys
from pathlib import Path


class Journal:
    """Appends lines of one system to a log. Where that can't be written they go to standard error."""

    def __init__(self, log: Path, system: str = "-") -> None:
        self.log, self.system = log, system

    def say(self, text: str) -> None:
        now = datetime.datetime.now().strftime("%Y-%m-%d %H:%M:%S.%f")[:-4]
        line = f"uucico {self.system} - ({now} {os.getpid()}) {text}\n".encode(errors="surrogateescape")
        try:
            file = os.open(self.log, os.O_WRONLY | os.O_APPEND | os.O_CREAT, 0o644)
        except OSError:
            with contextlib.suppress(OSError, ValueError):
                sys.stderr.buffer.write(line)
                sys.stderr.flush()
            return
        try:
            os.write(file, line)
        finally:
            os.close(file)

    def size(self) -> int:
        with contextlib.suppress(OSError):
            return self.log.stat().st_size
        return 0

    def since(self, size: int) -> str:
        """Returns the lines of the system that came after so many bytes."""
        with contextlib.suppress(OSError), self.log.open("rb") as file:
            file.seek(size)
            lines = file.read().decode(errors="replace").splitlines()
            return "\n".join(line for line in lines if line.split(" ")[1:2] == [self.system])
        return ""

    def fail(self, text: object) -> None:
        self.say(f"ERROR: {text}")
