"""Sessions of `uucpair` over a line, and what follows them."""
from __future__ import annotations

import contextlib
import os
import subprocess

from . import paths
from .configuration import Alternate, Port, Site, is_taken
from .faults import SiteError
from .folders import folder_words
from .lines import Line

# Below this speed the timer has to leave time for what is on the way.
SLOW_BELOW, SPEED_MIN = 57600, 300
ENVIRONMENT = ("TZ", "HOME", "LOGNAME", "USER")


def parameters_of(alternate: Alternate, port: Port | None) -> dict[str, str]:
    """Returns the parameters of g: those of a dialer come before those of its port, and these before those of the system."""
    found = dict(alternate.parameters.get("g", {}))
    for thing in [port, *reversed(port.dialers)] if port else []:
        found.update(thing.parameters.get("g", {}))
    return found


def options_of(alternate: Alternate, port: Port | None, speed: int) -> list[str]:
    """Returns the options of a session that the configuration asks for."""
    found = parameters_of(alternate, port)
    words = []
    for name, option in (("window", "--window"), ("packet-size", "--size"), ("timeout", "--timeout")):
        if is_taken(name, found.get(name, "")):
            words += [option, found[name]]
    if found.get("short-packets", "true")[:1] in "fFnN":
        words.append("--fill-commands")
    if SPEED_MIN <= speed < SLOW_BELOW:
        words += ["--speed", str(speed)]
    return words


def grade_words(grade: str, sends: bool) -> list[str]:
    """Returns the option for jobs of a grade and higher ones, or for none."""
    return ["--grade", grade] if sends and grade != "z" else [] if sends else ["--grade=-"]


def words_of_session(site: Site, tool: str, me: str, system: str, alternate: Alternate, line: Line) -> list[str]:
    public = alternate.public or str(site.public)
    return [
        paths.UUCPAIR,
        tool,
        "-",
        str(site.spool),
        "--spool",
        "--me",
        me,
        "--peer",
        system,
        "--public",
        public,
        "--locks",
        str(site.locks),
        "--log",
        str(site.log),
        "--stats",
        str(site.stats),
        "--port-name",
        line.logged,
        *folder_words(alternate, public),
    ]


def environment() -> dict[str, str]:
    kept = {name: os.environ[name] for name in ENVIRONMENT if name in os.environ}
    return {"PATH": "/usr/sbin:/usr/bin:/sbin:/bin", "LC_ALL": "C", **kept}


def start_session(words: list[str], reads: int, writes: int) -> subprocess.Popen[bytes]:
    """Starts a session, to which a line that nobody reads is a fault, and no signal."""
    try:
        return subprocess.Popen(words, stdin=reads, stdout=writes, env=environment(), restore_signals=False)
    except OSError as fault:
        raise SiteError(words[0], fault.strerror or "can't be run", "install uucpair") from fault


def run_session(words: list[str], reads: int, writes: int) -> int:
    """Runs a session over a line, and returns its status. It ends with this process."""
    with start_session(words, reads, writes) as session:
        try:
            return session.wait()
        except BaseException:
            session.terminate()
            raise


def run_uuxqt(site: Site, system: str | None) -> None:
    """Has what arrived run."""
    words = [paths.UUXQT, *site.config_words(), *(["-s", system] if system else [])]
    with contextlib.suppress(OSError):
        subprocess.run(
            words, stdin=subprocess.DEVNULL, stdout=subprocess.DEVNULL, stderr=subprocess.DEVNULL, env=environment(), check=False
        )
