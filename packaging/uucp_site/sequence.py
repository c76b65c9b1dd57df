"""The numbers of conversations, in `.Sequence` of the spool, as Taylor UUCP keeps them."""
from __future__ import annotations

import fcntl
import os
import re
from pathlib import Path

from .faults import SiteError

REMEDY = "write the same number to the files of both ends"


def next_number(spool: Path, system: str) -> int:
    """Returns the number of the next conversation with a system, which is on the disk then."""
    path = spool / ".Sequence" / system
    try:
        path.parent.mkdir(mode=0o755, parents=True, exist_ok=True)
        folder = os.open(path.parent, os.O_RDONLY | os.O_DIRECTORY)
        try:
            fcntl.flock(folder, fcntl.LOCK_EX)
            number = number_in(path) + 1
            replace(path, f"{number}\n")
            os.fsync(folder)
        finally:
            os.close(folder)
    except OSError as fault:
        raise SiteError(str(path), fault.strerror or "can't be kept", "let the user uucp write there") from fault
    return number


def number_in(path: Path) -> int:
    """Returns the number of the last conversation, 0 where there was none. Only who runs this may read it."""
    if not path.exists():
        return 0
    if path.stat().st_mode & 0o077:
        raise SiteError(str(path), "others may read or write it", f"chmod 600, and {REMEDY}")
    found = re.match(r"\s*(\d+)", path.read_text())
    if not found:
        raise SiteError(str(path), "is no number", REMEDY)
    return int(found[1])


def replace(path: Path, text: str) -> None:
    part = path.with_name(f".{path.name}.{os.getpid()}")
    file = os.open(part, os.O_WRONLY | os.O_CREAT | os.O_TRUNC, 0o600)
    try:
        os.write(file, text.encode())
        os.fsync(file)
    finally:
        os.close(file)
    part.replace(path)
