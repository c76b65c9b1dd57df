"""The configuration of Taylor UUCP, of HDB or of V2, as `uuchk` prints it."""
from __future__ import annotations

import os
import re
import subprocess
import tempfile
from collections.abc import Iterable, Iterator
from dataclasses import dataclass, field
from pathlib import Path
from typing import Any

from . import paths
from .faults import SiteError
from .times import Span, span_of

SIZES = {str(2**power) for power in range(5, 13)}
SECONDS_MAX = 600


def is_taken(name: str, value: str) -> bool:
    """Returns whether `uucpair` takes this value of a parameter of g. With another one its default stays."""
    if name == "packet-size":
        return value in SIZES
    last = {"window": 7, "timeout": SECONDS_MAX}.get(name, 0)
    return value.isascii() and value.isdigit() and 0 < int(value) <= last


@dataclass
class Chat:
    script: list[str] = field(default_factory=list)
    program: str | None = None
    timeout: int = 60
    fail: list[str] = field(default_factory=list)
    strips: bool = False

    def __bool__(self) -> bool:
        return bool(self.script or self.program)


@dataclass
class Dialer:
    name: str
    token: str | None = None
    chat: Chat = field(default_factory=Chat)
    complete: Chat = field(default_factory=Chat)
    abort: Chat = field(default_factory=Chat)
    dialtone: str = ","
    pause: str = ","
    carrier: bool = True
    carrier_wait: int = 60
    toggles: bool = False
    waits: bool = False
    parameters: dict[str, dict[str, str]] = field(default_factory=dict)


@dataclass
class Port:
    name: str
    kind: str = "modem"
    device: str = ""
    dial_device: str | None = None
    speed: int = 0
    carrier: bool = False
    hardflow: bool = False
    service: str = "uucp"
    version: str = "0"
    command: list[str] = field(default_factory=list)
    lock: str | None = None
    protocols: str | None = None
    seven_bit: bool = False
    dialers: list[Dialer] = field(default_factory=list)
    sequence: list[str] = field(default_factory=list)
    missing: list[str] = field(default_factory=list)
    parameters: dict[str, dict[str, str]] = field(default_factory=dict)


@dataclass
class Alternate:
    """One of the ways to call a system, or to be called by it."""

    name: str = ""
    called_login: str | None = None
    myname: str | None = None
    callback: bool = False
    port_name: str | None = None
    speed: int | None = None
    ports: list[Port] = field(default_factory=list)
    phone: str | None = None
    chat: Chat = field(default_factory=Chat)
    called_chat: Chat = field(default_factory=Chat)
    login: str | None = field(default=None, repr=False)
    password: str | None = field(default=None, repr=False)
    # When it may be called, of which grades work is taken from it then, and given to it where it calls.
    spans: list[Span] = field(default_factory=list)
    accepts: list[Span] = field(default_factory=list)
    sends: list[Span] = field(default_factory=list)
    retries_max: int = 0
    success_wait: int = 0
    counts: bool = False
    may_call: bool = False
    calls_send: bool = True
    called_send: bool = True
    gives: list[str] = field(default_factory=list)
    takes: list[str] = field(default_factory=list)
    public: str = ""
    protocols: str | None = None
    is_used: bool = True
    parameters: dict[str, dict[str, str]] = field(default_factory=dict)


@dataclass
class System:
    name: str
    aliases: list[str] = field(default_factory=list)
    alternates: list[Alternate] = field(default_factory=list)


@dataclass
class Site:
    """What holds for all systems, and the systems that were asked for."""

    config: str | None
    me: str = field(default_factory=lambda: os.uname().nodename.partition(".")[0])
    spool: Path = Path("/var/spool/uucp")
    public: Path = Path("/var/spool/uucppublic")
    locks: Path = Path("/var/lock")
    log: Path = Path("/var/log/uucp/Log")
    stats: Path = Path("/var/log/uucp/Stats")
    debug: Path = Path(paths.ERRORS)
    strips_logins: bool = False
    runs_uuxqt: bool = True
    files: dict[str, list[str]] = field(default_factory=dict)
    systems: dict[str, System] = field(default_factory=dict)
    # What the main file has behind `unknown`.
    unknown: list[str] = field(default_factory=list)

    def config_words(self) -> list[str]:
        return ["-I", self.config] if self.config else []


# The lines that `uuchk` prints of a site, an alternate, a port and a dialer, and the fields that they set: one with a group to the
# group, any other to the value that is given.
RULES: dict[type, list[tuple[str, str, Any]]] = {
    Site: [
        (r"Local node name (\S+)", "me", str),
        (r"Spool directory (.+)", "spool", Path),
        (r"Public directory (.+)", "public", Path),
        (r"Lock directory (.+)", "locks", Path),
        (r"Log file (.+)", "log", Path),
        (r"Statistics file (.+)", "stats", Path),
        (r"Debug file (.+)", "debug", Path),
        (r"uucico -l will strip login names and passwords", "strips_logins", True),
        (r"Never start uuxqt", "runs_uuxqt", False),
    ],
    Alternate: [
        (r"Caller must log in as (\S+)", "called_login", str),
        (r"When called using login name (\S+)", "called_login", str),
        (r"When called using any login name", "called_login", "ANY"),
        (r"Will use (\S+) as name of local system", "myname", str),
        (r"If called, will call back", "callback", True),
        (r"(?:Call out|This alternate applies when calling) using port (\S+).*", "port_name", str),
        (r"(?:Call out|This alternate applies when calling).* at speed (\d+)", "speed", int),
        (r"(?:Phone number|Remote address) (.+)", "phone", str),
        (r"Login name (.+)", "login", str),
        (r"Password (.+)", "password", str),
        (r"May retry the call up to (\d+) times", "retries_max", int),
        (r"Will wait (\d+) seconds after a successful call", "success_wait", int),
        (r"Sequence numbers are used", "counts", True),
        (r"May not make local requests when calling", "calls_send", False),
        (r"May not make local requests when called", "called_send", False),
        (r"May send by remote request: (.+)", "gives", str.split),
        (r"May receive by remote request: (.+)", "takes", str.split),
        (r"Public directory is (.+)", "public", str),
        (r"Will use protocols (\S+)", "protocols", str),
        (r"This alternate is never used", "is_used", False),
    ],
    Port: [
        (r"Port type (\S+)", "kind", str),
        (r"Device (\S+)", "device", str),
        (r"Dial device (\S+)", "dial_device", str),
        (r"Speed (\d+)", "speed", int),
        (r"Carrier available", "carrier", True),
        (r"Hardware flow control available", "hardflow", True),
        (r"TCP service (\S+)", "service", str),
        (r"IP version (\S+)", "version", str),
        (r"Command (.+)", "command", str.split),
        (r"Will use lockname (\S+)", "lock", str),
        (r"Will use protocols (\S+)", "protocols", str),
        (r"Characteristics: not-eight-bit-clean.*", "seven_bit", True),
        (r"Dialer sequence (.+)", "sequence", str.split),
    ],
    Dialer: [
        (r"Wait for dialtone (\S+)", "dialtone", str),
        (r"Pause while dialing (\S+)", "pause", str),
        (r"Carrier not available", "carrier", False),
        (r"Wait (\d+) seconds for carrier", "carrier_wait", int),
        (r"Toggle DTR.*", "toggles", True),
        (r"Toggle DTR and wait", "waits", True),
    ],
}
CHATS = {"": "chat", "when called, ": "called_chat", "when complete ": "complete", "when aborting ": "abort"}
CHAT_LINE = re.compile(
    r"(when called, |when complete |when aborting |)chat "
    r"(script timeout|script incoming bytes stripped|failure strings|program|script)(?: (.*))?",
    re.I,
)
PARAMETERS = re.compile(r"( *)For protocol (.) will use the following parameters")
FILE_LINE = re.compile(r"(?:HDB |V2 )?(\S+) files?:(?: (.+))?")


def set_by_rules(thing: Any, line: str) -> None:
    """Sets the fields of which this line speaks."""
    for pattern, name, kind in RULES[type(thing)]:
        found = re.fullmatch(pattern, line)
        if found:
            setattr(thing, name, kind(found[1]) if found.re.groups else kind)


def set_chat(thing: Any, line: str) -> bool:
    """Sets a part of one of the chats of an alternate or a dialer. Returns whether the line speaks of one."""
    found = CHAT_LINE.fullmatch(line)
    name = CHATS.get(found[1].lower()) if found else None
    if not name or not hasattr(thing, name):
        return False
    chat: Chat = getattr(thing, name)
    text = found[3] or ""
    field_name, value = {
        "script": ("script", text.split()),
        "program": ("program", text),
        "failure strings": ("fail", text.split()),
        "script timeout": ("timeout", int(text) if text.isdigit() else 0),
        "script incoming bytes stripped": ("strips", True),
    }[found[2].lower()]
    setattr(chat, field_name, value)
    return True


class Reader:
    """Reads the lines of `uuchk` one after the other: each belongs to the last system, alternate, port or dialer."""

    def __init__(self, site: Site) -> None:
        self.site = site
        self.system: System | None = None
        self.things: list[Any] = []
        self.files: list[str] | None = None
        self.parameters: tuple[int, dict[str, str]] | None = None

    def read(self, lines: Iterable[str]) -> None:
        for line in lines:
            indent = len(line) - len(line.lstrip(" "))
            if self.system is None and not line.startswith("System: "):
                self.read_site(line.strip(), indent)
            elif not self.is_parameter(line.strip(), indent):
                self.read_system(line.strip(), indent)

    def read_site(self, line: str, indent: int) -> None:
        found = FILE_LINE.fullmatch(line)
        if found:
            self.files = self.site.files[found[1]] = [found[2]] if found[2] else []
        elif indent and self.files is not None:
            self.files.append(line)
        else:
            set_by_rules(self.site, line)

    def is_parameter(self, line: str, indent: int) -> bool:
        """Returns whether the line is one of a protocol's parameters, and keeps that."""
        if self.parameters and indent == self.parameters[0]:
            name, _, value = line.partition(" ")
            self.parameters[1][name] = value
            return True
        self.parameters = None
        found = PARAMETERS.fullmatch(" " * indent + line)
        if found:
            # of a dialer it is one deeper than of its port
            thing = self.things[0] if indent == 1 else self.things[-1] if indent > 3 else self.port()
            self.parameters = (indent + 1, thing.parameters.setdefault(found[2], {}))
        return bool(found)

    def port(self) -> Any:
        return next((thing for thing in reversed(self.things) if isinstance(thing, Port)), self.things[0])

    def read_system(self, line: str, indent: int) -> None:
        if found := re.fullmatch(r"System: (\S+)(?: \((.*)\))?", line):
            self.system = System(found[1], (found[2] or "").split(), [Alternate()])
            self.site.systems[self.system.name] = self.system
            self.things = [self.system.alternates[0]]
        elif found := re.fullmatch(r"Alternate (\d+)(?: \((.*)\))?", line):
            if found[1] != "0":
                self.system.alternates.append(Alternate())
            self.system.alternates[-1].name = found[2] or ""
            self.things = [self.system.alternates[-1]]
        elif indent <= 1:
            self.things = self.things[:1]
            self.read_alternate(line)
        else:
            self.read_port(line, indent)

    def read_alternate(self, line: str) -> None:
        alternate: Alternate = self.things[0]
        found = span_of(line)
        if found:
            spans = {"may call if": alternate.spans, "may accept": alternate.accepts, "will send": alternate.sends}
            spans[found[0]].append(found[1])
        elif not set_chat(alternate, line):
            set_by_rules(alternate, line)
        alternate.may_call |= bool(re.match("Call out|This alternate applies when calling", line))

    def read_port(self, line: str, indent: int) -> None:
        if found := re.fullmatch(r"Port name (.+)", line):
            port = Port(found[1])
            self.things[0].ports.append(port)
            self.things = [self.things[0], port]
        elif found := re.fullmatch(r"Dialer (?!sequence )(\S+)|Specially defined dialer", line):
            dialer = Dialer(found[1] or "")
            self.port().dialers.append(dialer)
            self.things.append(dialer)
        elif found := re.fullmatch(r"\*\*\* No dialer (\S+)", line):
            self.port().missing.append(found[1])
        elif (found := re.fullmatch(r"Token (.+)", line)) and self.port().dialers:
            self.port().dialers[-1].token = found[1]
        elif indent > 3 and isinstance(self.things[-1], Dialer):
            if not set_chat(self.things[-1], line):
                set_by_rules(self.things[-1], line)
        else:
            set_by_rules(self.port(), line)


def run_uuchk(words: list[str]) -> tuple[str, str]:
    """Returns what `uuchk` says, and its complaint where it fails."""
    try:
        done = subprocess.run(
            [paths.UUCHK, *words],
            stdin=subprocess.DEVNULL,
            capture_output=True,
            encoding="utf-8",
            errors="surrogateescape",
            check=False,
        )
    except OSError as fault:
        raise SiteError(
            paths.UUCHK, fault.strerror or "can't be run", "install Debian's package uucp, and run this as root or uucp"
        ) from fault
    complaint = done.stderr.strip().removeprefix(f"{paths.UUCHK}:") if done.returncode or done.stderr else ""
    return done.stdout, complaint


def read_site(config: str | None, name: str | None = None) -> Site:
    """Returns the site, with the system of this name, or with all of them."""
    site = Site(config)
    words = site.config_words()
    text, complaint = run_uuchk(words)
    Reader(site).read(text.splitlines())
    site.unknown = [" ".join(words[1:]) for _, words in words_of(config or paths.CONFIG) if words[0] == "unknown"]
    if not site.files:
        raise SiteError(config or paths.CONFIG, complaint or "can't be read", "correct it; uuchk says the same")
    if name is not None:
        text, complaint = run_uuchk([*words, "-s", name])
        site.systems.clear()
        Reader(site).read(text.splitlines())
        if not site.systems:
            what = complaint.removeprefix(f"{name}: ") or "system not found"
            is_absent = what == "system not found"
            raise SiteError(name, what, "add it to the sys file" if is_absent else "correct that line; uuchk says the same")
    elif complaint and "no systems found" not in complaint:
        where, _, what = complaint.rpartition(": ")
        raise SiteError(where, what, "correct that line; uuchk says the same")
    return site


def with_lines(site: Site, lines: Iterable[str]) -> Site:
    """Returns what `uuchk` makes of a sys file with these lines, beside the other files of the site."""
    with tempfile.TemporaryDirectory() as folder:
        config = Path(site.config or paths.CONFIG)
        kept = (
            [line for line in config.read_text(errors="surrogateescape").splitlines() if not line.lstrip().startswith("sysfile")]
            if config.exists()
            else []
        )
        Path(folder, "sys").write_text("".join(f"{line}\n" for line in lines))
        Path(folder, "config").write_text("\n".join([*kept, f"sysfile {folder}/sys", ""]), errors="surrogateescape")
        return read_site(f"{folder}/config")


def port_named(site: Site, name: str) -> list[Port]:
    """Returns the ports of this name."""
    found = with_lines(site, ["system port", "time any", f"port {name}"]).systems["port"].alternates[0].ports
    if not found:
        raise SiteError(f"port {name}", "not found", f"add it to {' '.join(site.files.get('port', ['the port file']))}")
    return found


def dialer_named(site: Site, name: str) -> Dialer:
    """Returns the dialer of this name, of which `uuchk` says only the name where a port that is no modem has it."""
    lines = ["system dialer", "time any", "port type modem", f"port dialer {name}"]
    found = with_lines(site, lines).systems["dialer"].alternates[0].ports
    if not found or not found[0].dialers:
        raise SiteError(f"dialer {name}", "not found", f"add it to {' '.join(site.files.get('dial', ['the dial file']))}")
    return found[0].dialers[0]


def words_of(path: str) -> Iterator[tuple[int, list[str]]]:
    """Yields the words of each line of a file of Taylor UUCP, with the line's number. A file that is missing has none."""
    try:
        text = Path(path).read_text(errors="surrogateescape")
    except FileNotFoundError:
        return
    except OSError as fault:
        raise SiteError(path, fault.strerror or "can't be read", "run this as the user uucp") from fault
    held, begun = "", 0
    for number, line in enumerate(text.splitlines(), 1):
        begun = begun if held else number
        if line.endswith("\\"):
            held += line[:-1]
            continue
        # a number sign after a backslash begins no comment
        words = re.sub(r"(?<!\\)#.*", "", held + line).replace("\\#", "#").split()
        held = ""
        if words:
            yield begun, words
