"""Goes through a whole configuration and says what of it is honoured, what is ignored without harm, and what stops a call."""
from __future__ import annotations

from collections.abc import Iterator
from dataclasses import dataclass
from pathlib import Path

from . import obstacles, paths
from .configuration import SECONDS_MAX, Site, System, is_taken, read_site, words_of
from .folders import is_honoured

HONOURED, IGNORED, STOPS = "honoured", "ignored", "stops the call"
SECRET = ("call-password",)
UUXQT = "uuxqt does it"
FOLDERS = ("remote-send", "remote-receive")
NOT_OPENED = "what is above the public folder opens that alone, and a path with a hidden part nothing: name the folders"
# What is done with each keyword; where nothing is said, as with `time`, it is honoured. What stops a call is in `obstacles`.
KEYWORDS = {
    "sys": {
        **dict.fromkeys(
            "system alternate default-alternates alias myname time timegrade call-timegrade called-timegrade max-retries "
            "success-wait speed baud port phone address "
            "chat chat-timeout chat-fail chat-seven-bit chat-program call-login call-password called-login callback "
            "protocol pubdir sequence called-chat called-chat-timeout called-chat-fail called-chat-seven-bit "
            "called-chat-program".split(),
            (HONOURED, ""),
        ),
        **dict.fromkeys("commands command-path forward forward-to forward-from".split(), (HONOURED, UUXQT)),
        **dict.fromkeys("request send-request receive-request transfer call-transfer called-transfer".split(), (HONOURED, "")),
        **dict.fromkeys("debug max-remote-debug".split(), (IGNORED, "-x has uucpair say more")),
        **dict.fromkeys(
            "call-local-size call-remote-size called-local-size called-remote-size".split(),
            (IGNORED, "files of all sizes go at any time"),
        ),
        "free-space": (IGNORED, "a full disk ends the session, and no job is lost"),
        "max-file-time": (IGNORED, "g sends one file at a time"),
        "local-send": (HONOURED, "uucp does it"),
        "local-receive": (IGNORED, "what is asked for goes to the public folder, and a job for elsewhere is given up"),
        **dict.fromkeys(FOLDERS, (HONOURED, "the public folder, and folders below it and elsewhere")),
    },
    "port": {
        **dict.fromkeys(
            "port type protocol seven-bit device speed baud speed-range baud-range carrier hardflow dial-device dialer "
            "dialer-sequence lockname service version command".split(),
            (HONOURED, ""),
        ),
        **dict.fromkeys("reliable half-duplex".split(), (IGNORED, "g needs neither")),
        **dict.fromkeys("push stream server-address".split(), (STOPS, "Linux has no TLI: use tcp")),
    },
    "dial": {
        **dict.fromkeys("dialer dialtone pause carrier carrier-wait dtr-toggle complete abort".split(), (HONOURED, "")),
        **{
            f"{front}chat{part}": (HONOURED, "")
            for front in ("", "complete-", "abort-")
            for part in ("", "-timeout", "-fail", "-seven-bit", "-program")
        },
        **dict.fromkeys("reliable half-duplex seven-bit".split(), (IGNORED, "g needs eight bits and nothing else")),
    },
    "config": {
        **dict.fromkeys(
            "nodename hostname uuname spool pubdir lockdir logfile statfile debugfile sysfile portfile dialfile dialcodefile "
            "callfile passwdfile strip-login timetable v2-files hdb-files bnu-files".split(),
            (HONOURED, ""),
        ),
        "max-uuxqts": (HONOURED, UUXQT),
        "run-uuxqt": (HONOURED, "uuxqt runs after each call, unless this is `never`"),
        "unknown": (HONOURED, ""),
        "strip-proto": (IGNORED, "greetings are stripped"),
        "debug": (IGNORED, "-x has uucpair say more"),
    },
}
OPENERS = {"sys": "system", "port": "port"}
# What is taken of g's parameters.
PARAMETERS = {"window": "1 to 7", "packet-size": "a power of two, 32 to 4096", "timeout": f"1 to {SECONDS_MAX}"}


@dataclass(frozen=True)
class Row:
    where: str
    text: str
    verdict: str
    note: str = ""


def verdict_of(kind: str, words: list[str]) -> tuple[str, str]:
    """Returns what is done with a line of a file of this kind, and why."""
    keyword = words[0]
    if keyword == "protocol-parameter" and kind != "config":
        if words[1:2] != ["g"]:
            return IGNORED, "only g is spoken"
        if words[2:3] == ["short-packets"]:
            return IGNORED, "packets may be short; with false commands are filled up"
        return verdict_of_parameter(*(words[2:4] + ["", ""])[:2])
    if kind == "sys" and keyword == "port" and len(words) > 2:
        return verdict_of("port", words[1:])
    if kind == "port" and keyword == "dialer" and len(words) > 2:
        return verdict_of("dial", words[1:])
    if kind == "config" and keyword == "unknown" and len(words) > 1:
        return verdict_of("sys", words[1:])
    return KEYWORDS[kind].get(keyword, (STOPS, "this keyword is not known: correct it"))


def verdict_of_parameter(name: str, value: str) -> tuple[str, str]:
    """Returns what is done with a parameter of g, and why."""
    if name in PARAMETERS and not is_taken(name, value):
        return IGNORED, f"it is {PARAMETERS[name]}: the default stays"
    return (HONOURED if name in PARAMETERS else IGNORED), ""


def lines_of(site: Site, kind: str, path: str) -> Iterator[Row]:
    publics = {one.public for system in site.systems.values() for one in system.alternates if one.public} or {str(site.public)}
    for number, words in words_of(path):
        text = " ".join([words[0], "..."] if words[0] in SECRET and words[1:] != ["*"] else words)
        verdict = verdict_of(kind, words)
        shut = [word for word in words[1:] if words[0] in FOLDERS and not is_honoured(word, publics)]
        if shut:
            verdict = IGNORED, f"{' '.join(shut)}: {NOT_OPENED}"
        yield Row(f"{path}:{number}", text, *verdict)


def places(site: Site, kind: str, keywords: tuple[str, ...]) -> Iterator[tuple[str | None, str]]:
    """Yields where the files of a kind have one of these keywords, each after the system, port or dialer whose it is."""
    for path in site.files.get(kind, []):
        owner = None
        for number, words in words_of(path):
            if words[0] == OPENERS[kind] and len(words) == 2:
                owner = words[1]
            elif words[0] in keywords or words[0] == "port" and words[1:2] and words[1] in keywords:
                yield owner, f"{path}:{number}"


def place_of(site: Site, system: str, obstacle: obstacles.Obstacle) -> str:
    """Returns the file and line that have an obstacle: of the system itself, of what holds for all, or of its port."""
    keywords = (obstacle.keyword,)
    found = list(places(site, "sys", keywords))
    for owner in (system, None):
        for there, place in reversed(found):
            if there == owner:
                return place
    for owner, place in places(site, "port", keywords):
        if obstacle.port in (None, owner):
            return place
    return next(
        (f"{path}:{number}" for path in others_of(site) for number, words in words_of(path) if words[0] == system), system
    )


def others_of(site: Site) -> list[str]:
    """Returns the files of HDB and V2 that name systems."""
    return [path for kind in ("Systems", "L.sys") for path in site.files.get(kind, []) if Path(path).exists()]


def stops_of(system: System) -> Iterator[obstacles.Obstacle]:
    """Yields what stops a call to a system, or from it."""
    for alternate in system.alternates:
        if alternate.may_call and alternate.is_used:
            if not alternate.ports:
                yield obstacles.Obstacle("port", "no port can be used", "name one that the port file has")
            for port in alternate.ports:
                yield from obstacles.of_call(alternate, port)
        yield from obstacles.of_answer(alternate)


def rows_of(site: Site) -> Iterator[Row]:
    """Yields a row for each line of a configuration, and for what stops the calls of a system."""
    stops: dict[str, list[Row]] = {}
    for system in site.systems.values():
        for obstacle in dict.fromkeys(stops_of(system)):
            where = place_of(site, system.name, obstacle)
            stops.setdefault(where, []).append(Row(where, f"system {system.name}", STOPS, str(obstacle)))
    for kind in ("config", "sys", "port", "dial"):
        for path in [site.config or paths.CONFIG] if kind == "config" else site.files.get(kind, []):
            for row in lines_of(site, kind, path):
                yield from stops.pop(row.where, [row])
    for rows in stops.values():
        yield from rows


def check(config: str | None) -> int:
    """Prints the table of a configuration. Returns 1 where something stops a call."""
    site = read_site(config)
    rows = list(rows_of(site))
    if not site.systems:
        rows.append(Row(" ".join(site.files.get("sys", ["sys"])), "", STOPS, "no systems found"))
    for row in rows:
        print(f"{row.where}  {row.text}  {row.verdict}" + (f": {row.note}" if row.note else ""))
    for path in others_of(site):
        print(f"{path}  read by uuchk: each system of it was looked at")
    count = sum(row.verdict == STOPS for row in rows)
    print(f"{len(site.systems)} systems, {count} lines stop a call")
    return 1 if count else 0
