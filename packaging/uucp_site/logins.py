"""Who may log in, and as which systems: `passwd`, and `called-login`."""
from __future__ import annotations

import hmac
import os
import pwd
import re
import select
import time
from dataclasses import dataclass

from .chat import unescaped
from .configuration import Alternate, Site, System, with_lines, words_of
from .lines import Line

TRIES_MAX = 3
PROMPT_SECONDS = 60
WORD_MAX = 128
# The names that a system may have of which no file knows: those of folders, and of words in a file.
UNKNOWN = r"[A-Za-z0-9][A-Za-z0-9_.-]{0,63}"


class NoLogin(Exception):
    """Nobody has logged in."""


def read_word(line: Line, prompt: bytes, strips: bool, until: float) -> bytes:
    """Returns what comes before the end of a line: a carriage return, a line feed, or both. An empty line is prompted again."""
    line.write(prompt)
    word = b""
    while True:
        left = until - time.monotonic()
        if left <= 0 or not select.select([line.reads], [], [], left)[0]:
            raise NoLogin("nobody has logged in in time")
        byte = os.read(line.reads, 1)
        if not byte:
            raise NoLogin("the line ended before the login")
        byte = bytes([byte[0] & 0x7F]) if strips else byte
        if byte in b"\r\n":
            if word:
                return word
            if byte == b"\r":
                line.write(b"\r\n" + prompt)
        elif byte in b"\b\x7f":
            word = word[:-1]
        else:
            word += byte
        if len(word) > WORD_MAX:
            raise NoLogin("a login or password is too long")


def password_of(site: Site, login: bytes) -> bytes | None:
    """Returns the password of a login, of the first password file that has it."""
    for path in site.files.get("passwd", []):
        for _, words in words_of(path):
            if ":" in words[0]:
                words = words[0].split(":")
            if len(words) >= 2 and unescaped(words[0]) == login:
                return unescaped(words[1])
    return None


def is_right(expected: bytes | None, said: bytes) -> bool:
    """Returns whether this is the password, in the same time for a login that there is not."""
    return hmac.compare_digest(said, expected or b"\0" * len(said)) and bool(expected)


def log_in(line: Line, site: Site, login: str | None, seconds: float = PROMPT_SECONDS) -> str:
    """Asks for a login, where none is given, and a password. Returns the login whose password was right, of three tries."""
    until = time.monotonic() + seconds
    for _ in range(TRIES_MAX):
        name = login.encode() if login else b""
        if not name:
            name = read_word(line, b"login: ", site.strips_logins, until)
        said = read_word(line, b"Password:", site.strips_logins, until)
        line.write(b"\r\n")
        if is_right(password_of(site, name), said):
            return name.decode(errors="backslashreplace")
        # the same for a wrong login and a wrong password
        line.write(b"Login incorrect\r\n")
    raise NoLogin("Bad login")


def own_login() -> str:
    """Returns the name of who has started this: of several that share a number, the one of LOGNAME."""
    try:
        name = os.environ.get("LOGNAME", "")
        if name and pwd.getpwnam(name).pw_uid == os.getuid():
            return name
    except KeyError:
        pass
    try:
        return pwd.getpwuid(os.getuid()).pw_name
    except KeyError:
        return str(os.getuid())


@dataclass(frozen=True)
class Admission:
    """A system that may call by a login, and what holds for it then."""

    system: str
    alternate: Alternate


def lists_of(site: Site) -> dict[str, set[str]]:
    """Returns the systems that `called-login` names for a login, of all sys files: `uuchk` doesn't print them."""
    found: dict[str, set[str]] = {}
    for path in site.files.get("sys", []):
        for _, words in words_of(path):
            if words[0] == "called-login" and len(words) > 2:
                found.setdefault(words[1], set()).update(words[2:])
    return found


def admission_of(system: System, login: str, listed: set[str] | None) -> Admission | None:
    """Returns what holds for a system that calls by a login, which may be free only for some; none where it may not."""
    is_free = listed is None or system.name in listed
    # an alternate without a login is for calls alone
    named = (one for one in system.alternates if one.called_login == login or is_free and one.called_login == "ANY")
    return next((Admission(system.name, one) for one in named), None)


def admitted(site: Site, login: str) -> dict[str, Admission]:
    """Returns the systems that may call by a login, by their names and aliases."""
    listed = lists_of(site).get(login)
    found = {}
    for system in site.systems.values():
        admission = admission_of(system, login, listed)
        for name in (system.name, *system.aliases) if admission else ():
            found[name] = admission
    return found


def unknown_one(site: Site, name: str, login: str) -> Admission | None:
    """Returns what `unknown` of the main file says of a system that no other file has, and that calls by a login."""
    known = {one for system in site.systems.values() for one in (system.name, *system.aliases)}
    if not site.unknown or name in known or not re.fullmatch(UNKNOWN, name):
        return None
    system = with_lines(site, [f"system {name}", *site.unknown]).systems[name]
    return admission_of(system, login, lists_of(site).get(login))


def local_name(site: Site, login: str) -> str:
    """Returns the name of this system for who comes by a login."""
    for system in site.systems.values():
        for one in system.alternates:
            if one.called_login == login and one.myname:
                return one.myname
    return site.me
