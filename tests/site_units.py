#!/usr/bin/python3
"""The modules of packaging/uucp_site, each function by rows: what it is given, and what it returns.

    tests/site_units.py [NAME..]

NAME is a function of this file without `rows_of_`. Nothing is connected or called, and no clock is waited for. It needs Debian's
packages uucp (for `uuchk`), python3-serial and python3-pexpect. The last line counts the rows, and the status is 1 where one
failed.
"""
from __future__ import annotations

import contextlib
import os
import pwd
import socket
import subprocess
import sys
import tempfile
import threading
import time
from collections.abc import Callable, Iterator
from pathlib import Path

sys.dont_write_bytecode = True
ROOT = Path(__file__).resolve().parent.parent
sys.path.insert(0, str(ROOT / "packaging"))

from uucp_site import (  # noqa: E402
    answers,
    calls,
    chat,
    check,
    configuration,
    folders,
    journal,
    lines,
    logins,
    obstacles,
    options,
    program,
    relay,
    sequence,
    sessions,
    times,
)
from uucp_site.configuration import Alternate, Chat, Dialer, Port, Site, System  # noqa: E402
from uucp_site.faults import SiteError, Unavailable  # noqa: E402

# A name, what was found, and what was expected.
Row = tuple[str, object, object]
FILES = ("sys", "port", "dial", "dialcode", "call", "passwd")


def site_of(folder: Path, **texts: str) -> Site:
    """Returns what is read of a configuration with these files; `config` has more lines of the main one."""
    for name in FILES:
        (folder / name).write_text(texts.get(name, ""))
    lines_of_config = [f"{name}file {folder / name}" for name in FILES]
    (folder / "config").write_text("\n".join(["nodename here", *lines_of_config, texts.get("config", "")]) + "\n")
    return configuration.read_site(str(folder / "config"))


def fault_of(function: Callable[[], object]) -> str:
    """Returns what a function says that fails, or nothing."""
    try:
        function()
    except (SiteError, chat.ChatFailed, logins.NoLogin, relay.NoText) as fault:
        return str(fault)
    return ""


SYS = (
    ("alias other", lambda one: one, None),
    ("myname mine", lambda one: one.myname, "mine"),
    ("time any 7", lambda one: one.spans[0].retry, 7),
    ("time Never", lambda one: (one.spans, one.may_call), ([], False)),
    ("timegrade C any", lambda one: one.spans[0].grade, "C"),
    ("max-retries 3", lambda one: one.retries_max, 3),
    ("max-retries 0", lambda one: one.retries_max, 0),
    ("time Any", lambda one: one.retries_max, 26),
    ("call-timegrade B Any", lambda one: [span.grade for span in one.accepts], ["B"]),
    ("called-timegrade C Any", lambda one: [span.grade for span in one.sends], ["C"]),
    ("success-wait 9", lambda one: one.success_wait, 9),
    ("speed 300", lambda one: one.speed, 300),
    ("baud 1200", lambda one: one.speed, 1200),
    ("port line", lambda one: (one.port_name, one.ports[0].device), ("line", "/dev/ttyS9")),
    ("phone 55-5", lambda one: one.phone, "55-5"),
    ("address a.example", lambda one: one.phone, "a.example"),
    ("chat a b-c-d e", lambda one: one.chat.script, ["a", "b-c-d", "e"]),
    ("chat-timeout 4", lambda one: one.chat.timeout, 4),
    ("chat-fail NO\\sWAY", lambda one: one.chat.fail, ["NO\\sWAY"]),
    ("chat-seven-bit false", lambda one: one.chat.strips, False),
    ("chat-seven-bit true", lambda one: one.chat.strips, True),
    ("chat-program /bin/x \\L", lambda one: one.chat.program, "/bin/x \\L"),
    ("call-login U\\sx", lambda one: one.login, "U\\sx"),
    ("call-password p", lambda one: one.password, "p"),
    ("call-login *", lambda one: (one.login, one.password), ("Ustar", "secret")),
    ("called-login Ufar", lambda one: one.called_login, "Ufar"),
    ("called-login ANY", lambda one: one.called_login, "ANY"),
    ("callback true", lambda one: one.callback, True),
    ("called-chat x y", lambda one: one.called_chat.script, ["x", "y"]),
    ("protocol gt", lambda one: one.protocols, "gt"),
    ("protocol-parameter g window 3", lambda one: one.parameters, {"g": {"window": "3"}}),
    ("sequence true", lambda one: one.counts, True),
    ("send-request false", lambda one: one.gives, []),
    ("receive-request false", lambda one: one.takes, []),
    ("request false", lambda one: one.gives, []),
    ("call-transfer false", lambda one: (one.calls_send, one.called_send), (False, True)),
    ("called-transfer false", lambda one: (one.calls_send, one.called_send), (True, False)),
    ("transfer false", lambda one: (one.calls_send, one.called_send), (False, False)),
    ("remote-send /a ~", lambda one: one.gives, ["/a", "~"]),
    ("remote-receive !/b", lambda one: one.takes, ["!/b"]),
    ("pubdir /srv/pub", lambda one: one.public, "/srv/pub"),
)
PORTS = (
    ("type tcp\nservice 99\nversion 6", lambda one: (one.kind, one.service, one.version), ("tcp", "99", "6")),
    ("type pipe\ncommand /bin/x -a \\H", lambda one: one.command, ["/bin/x", "-a", "\\H"]),
    ("type stdin", lambda one: one.kind, "stdin"),
    ("type direct\ndevice /dev/ttyS7\nspeed 2400", lambda one: (one.device, one.speed), ("/dev/ttyS7", 2400)),
    ("type direct\ncarrier true\nhardflow false", lambda one: (one.carrier, one.hardflow), (True, False)),
    ("type direct\nbaud 300\nlockname LCK..x", lambda one: (one.speed, one.lock), (300, "LCK..x")),
    ("type direct\nprotocol gi", lambda one: one.protocols, "gi"),
    ("type direct\nseven-bit true", lambda one: one.seven_bit, True),
    ("type direct\nprotocol-parameter g window 2", lambda one: one.parameters, {"g": {"window": "2"}}),
    (
        "type modem\ndialer hayes\ndial-device /dev/cua1",
        lambda one: (one.dial_device, one.dialers[0].name),
        ("/dev/cua1", "hayes"),
    ),
    (
        "type modem\ndialer-sequence hayes one other \\T",
        lambda one: [(each.name, each.token) for each in one.dialers],
        [("hayes", "one"), ("other", "\\T")],
    ),
    ("type modem\ndialer nobody", lambda one: one.missing, ["nobody"]),
    ("type tcp\ndialer-sequence hayes 1", lambda one: one.sequence, ["hayes", "1"]),
    ('type modem\ndialer chat "" AT', lambda one: one.dialers[0].chat.script, ['""', "AT"]),
)
DIALERS = (
    ("chat a b", lambda one: one.chat.script, ["a", "b"]),
    ("chat a\nchat-timeout 7", lambda one: one.chat.timeout, 7),
    ("chat a\nchat-fail X", lambda one: one.chat.fail, ["X"]),
    ("chat-program /bin/d \\D", lambda one: one.chat.program, "/bin/d \\D"),
    ("dialtone W", lambda one: one.dialtone, "W"),
    ("pause P", lambda one: one.pause, "P"),
    ("carrier false", lambda one: one.carrier, False),
    ("carrier-wait 5", lambda one: one.carrier_wait, 5),
    ("dtr-toggle true", lambda one: (one.toggles, one.waits), (True, False)),
    ("dtr-toggle true true", lambda one: (one.toggles, one.waits), (True, True)),
    ("complete +++", lambda one: one.complete.script, ['""', "+++"]),
    ("abort-chat x y", lambda one: one.abort.script, ["x", "y"]),
    ("complete a\ncomplete-chat-timeout 3", lambda one: one.complete.timeout, 3),
    ("protocol-parameter g packet-size 64", lambda one: one.parameters, {"g": {"packet-size": "64"}}),
)


def rows_of_keywords(folder: Path) -> Iterator[Row]:
    """Each keyword, as `uuchk` prints it."""
    base, port = "system far\ntime any\nport line\n", "port line\ntype direct\ndevice /dev/ttyS9\n"
    for text, get, expected in SYS:
        lines_of_sys = base.replace("time any\n", "") + text if text.startswith("time") else base + text
        site = site_of(
            folder,
            sys=f"{lines_of_sys}\n",
            port=f"{port}speed {text.split()[-1] if text.split()[0] in ('speed', 'baud') else 9600}\n",
            call="far Ustar secret\n",
        )
        yield f"sys {text}", get(site.systems["far"].alternates[0]) if expected is not None else site.systems["far"].aliases, [
            "other"
        ] if expected is None else expected
    dial = 'dialer hayes\nchat "" ATZ\ndialer other\nchat a b\n'
    for text, get, expected in PORTS:
        site = site_of(folder, sys=base, port=f"port line\n{text}\n", dial=dial)
        yield f"port {text!r}", get(site.systems["far"].alternates[0].ports[0]), expected
    for text, get, expected in DIALERS:
        site = site_of(folder, sys=base, port="port line\ntype modem\ndialer new\n", dial=f"dialer new\n{text}\n")
        yield f"dial {text}", get(site.systems["far"].alternates[0].ports[0].dialers[0]), expected
    for text, get, expected in (
        ("nodename me", lambda site: site.me, "me"),
        ("spool /s", lambda site: site.spool, Path("/s")),
        ("pubdir /p", lambda site: site.public, Path("/p")),
        ("lockdir /l", lambda site: site.locks, Path("/l")),
        ("logfile /L", lambda site: site.log, Path("/L")),
        ("statfile /S", lambda site: site.stats, Path("/S")),
        ("debugfile /D", lambda site: site.debug, Path("/D")),
        ("strip-login false", lambda site: site.strips_logins, False),
        ("run-uuxqt never", lambda site: site.runs_uuxqt, False),
        ("run-uuxqt percall", lambda site: site.runs_uuxqt, True),
    ):
        yield f"config {text}", get(site_of(folder, sys=base, port=port, config=text)), expected


def rows_of_configuration(folder: Path) -> Iterator[Row]:
    text = (
        "protocol-parameter g window 5\nsystem far\ntime any\nport one\nphone 1\nalternate second\nport type tcp\nphone 2\n"
        "protocol-parameter g timeout 3\nsystem near\ncalled-login Un\n"
    )
    site = site_of(folder, sys=text, port="port one\ntype direct\nport one\ntype direct\ndevice x\n")
    far = site.systems["far"]
    yield "alternates", [(one.name, one.phone, len(one.ports)) for one in far.alternates], [("", "1", 2), ("second", "2", 1)]
    yield "parameters of each", [one.parameters["g"] for one in far.alternates], [{"window": "5"}, {"timeout": "3"}]
    yield "a system that is not called", (
        site.systems["near"].alternates[0].may_call,
        site.systems["near"].alternates[0].called_login,
    ), (False, "Un")
    yield "its files", site.files["sys"], [str(folder / "sys")]
    yield "one system", list(configuration.read_site(site.config, "near").systems), ["near"]
    yield "a system that there is not", fault_of(
        lambda: configuration.read_site(site.config, "zeta")
    ), "zeta: system not found: add it to the sys file"
    yield "a port by its name", [one.device for one in configuration.port_named(site, "one")], ["", "x"]
    yield "a port that there is not", fault_of(
        lambda: configuration.port_named(site, "two")
    ), f"port two: not found: add it to {folder}/port"
    (folder / "dial").write_text("dialer hayes\nchat a b\n")
    yield "a dialer by its name", configuration.dialer_named(site, "hayes").chat.script, ["a", "b"]
    yield "a dialer that there is not", fault_of(
        lambda: configuration.dialer_named(site, "x")
    ), f"dialer x: not found: add it to {folder}/dial"
    (folder / "sys").write_text("system far\nnonsense\n")
    yield "a bad line", fault_of(
        lambda: configuration.read_site(site.config)
    ), f"{folder}/sys:2: syntax error: correct that line; uuchk says the same"
    yield "a bad line of the one system", fault_of(
        lambda: configuration.read_site(site.config, "far")
    ), f"far: {folder}/sys:2: syntax error: correct that line; uuchk says the same"
    (folder / "config").write_text(f"sysfile {folder}/none\n")
    yield "without a nodename it is the host's", configuration.read_site(str(folder / "config")).me, os.uname().nodename.split(
        "."
    )[0]
    yield "a config that there is not", "/none" in fault_of(lambda: configuration.read_site("/none")), True
    (folder / "words").write_text("# a comment\none two # more\n\nthree \\\nfour\nfive\\#six\n")
    yield "words", list(configuration.words_of(str(folder / "words"))), [
        (2, ["one", "two"]),
        (4, ["three", "four"]),
        (6, ["five#six"]),
    ]
    yield "words of no file", list(configuration.words_of(str(folder / "none"))), []
    yield "no secret where a system is printed", "pass" in repr(Alternate(login="login", password="pass")), False


def at(text: str) -> float:
    """Returns a time of a week that begins on Sunday, 1 November 2026."""
    return time.mktime(time.strptime(f"2026-11-0{times.DAYS.index(text[:3]) + 1} {text[4:]}", "%Y-%m-%d %H:%M"))


def rows_of_times(folder: Path) -> Iterator[Row]:
    for text, span in (
        (" At any time may call if any work", ("may call if", times.Span(0, 10080))),
        ("Sun from 00:00 to 16:55 may call if any work (retry 30)", ("may call if", times.Span(0, 1015, "z", 30))),
        ("From Sat 10:00 to Sun 00:00 may call if work grade M or higher", ("may call if", times.Span(9240, 10080, "M"))),
        ("At any time may accept work grade B or higher", ("may accept", times.Span(0, 10080, "B"))),
        ("Mon from 00:00 to 01:00 will send work grade 0 or higher", ("will send", times.Span(1440, 1500, "0"))),
        ("(At other times will send any work)", None),
        ("May retry the call up to 3 times", None),
    ):
        yield f"span of {text}", times.span_of(text.strip()), span
    site = site_of(folder, sys="system far\nport type stdin\ntime Wk2305-0855,Sa,Su2305-1655 3\n")
    spans = site.systems["far"].alternates[0].spans
    for text, has in (
        ("Mon 08:54", True),
        ("Mon 08:55", False),
        ("Mon 23:04", False),
        ("Mon 23:05", True),
        ("Sat 12:00", True),
        ("Sun 16:54", True),
        ("Sun 17:00", False),
        ("Sun 23:30", True),
        ("Sun 00:00", True),
    ):
        yield f"night rates at {text}", times.span_at(spans, at(text)) is not None, has
    graded = site_of(folder, sys="system far\nport type stdin\ntimegrade C Su0000-0140\ntimegrade z Mo\n")
    for text, grade in (("Sun 00:10", "C"), ("Sun 03:10", None), ("Mon 03:10", "z")):
        span = times.span_at(graded.systems["far"].alternates[0].spans, at(text))
        yield f"the grade at {text}", span.grade if span else None, grade
    for status, wait, why in (
        (times.Status(0, 0, 1000, 0), 0, None),
        (times.Status(0, 0, 1000, 0), 600, "Retry time not reached"),
        (times.Status(2, 1, 1000, 600), 0, "Retry time not reached"),
        (times.Status(2, 1, 300, 600), 0, None),
        (times.Status(2, 26, 1000, 0), 0, "ERROR: Too many retries"),
        # a clock that was wrong
        (times.Status(2, 26, 5000, 600), 0, None),
        (times.Status(0, 0, 5000, 0), 600, None),
        (times.Status(2, 26, 1000 - 86500, 0), 0, None),
    ):
        yield f"due after {status}, {wait}", times.why_not_due(status, 1000.0 + 5, 26, wait), why
    yield "no limit of retries", times.why_not_due(times.Status(2, 99, 1000, 0), 1005, 0, 0), None
    yield "the first failure", times.after_failure(times.Status(), 3, 50, times.Span(0, 1)), times.Status(3, 1, 50, 600)
    yield "the third", times.after_failure(times.Status(2, 2, 1, 1), 2, 50, times.Span(0, 1)), times.Status(2, 3, 50, 1800)
    yield "with a retry time", times.after_failure(times.Status(2, 2, 1, 1), 2, 50, times.Span(0, 1, "z", 7)), times.Status(
        2, 3, 50, 420
    )
    for tries, span, wait in ((2, times.Span(0, 1), 1200), (0, times.Span(0, 1), 0), (2, times.Span(0, 1, "z", 7), 420)):
        busy = times.after_failure(times.Status(3, tries, 1, 1), 1, 50, span, counts=False)
        yield f"a port in use after {tries}, {span.retry}", busy, times.Status(1, tries, 50, wait)
    times.write_status(folder, "far", times.Status(2, 3, 50, 420))
    yield "a status on the disk", (folder / ".Status/far").read_text(), "2 3 50 420 Dial failed far\n"
    yield "and read", times.read_status(folder, "far"), times.Status(2, 3, 50, 420)
    (folder / ".Status/far").write_text("garbage\n")
    yield "one that can't be read", times.read_status(folder, "far"), times.Status()


class Peer:
    """The other end of a line, which says each text when it has heard the one before it."""

    def __init__(self, *says: tuple[bytes, bytes]) -> None:
        self.ours, self.theirs = socket.socketpair()
        self.heard, self.says = b"", says
        self.thread = threading.Thread(target=self.talk, daemon=True)
        self.line = lines.Line("port test", self.ours.fileno(), self.ours.fileno())
        self.thread.start()

    def talk(self) -> None:
        for wanted, said in self.says:
            while wanted not in self.heard:
                piece = self.theirs.recv(1)
                if not piece:
                    return
                self.heard += piece
            self.theirs.sendall(said)
        while piece := self.theirs.recv(100):
            self.heard += piece

    def end(self) -> bytes:
        """Returns all that was heard."""
        self.ours.shutdown(socket.SHUT_WR)
        self.thread.join(10)
        self.ours.close()
        self.theirs.close()
        return self.heard


def chat_of(
    script: str,
    *says: tuple[bytes, bytes],
    fail: str = "",
    timeout: float = 5,
    strips: bool = True,
    values: dict[str, bytes] | None = None,
    slept: list[float] | None = None,
) -> tuple[bytes, str]:
    """Returns what a peer hears of a chat, and why it failed."""
    peer = Peer(*says)
    talk = chat.Talk(
        peer.line, values or {"L": b"Ume", "P": b"sec ret"}, [b"sec ret"], (slept if slept is not None else []).append
    )
    why = fault_of(lambda: talk.run(Chat(script.split(), None, timeout, fail.split(), strips)))
    return peer.end(), why


def rows_of_chat(folder: Path) -> Iterator[Row]:
    for script, says, heard in (
        ('"" \\r\\c ogin: \\L word: \\P', ((b"\r", b"login: "), (b"Ume\r", b"Password:")), b"\rUme\rsec ret\r"),
        # as Taylor UUCP's uucico writes it
        ('"" a\\x41\\101\\sb\\c "" -x-y "" EOT "" xEOTy "" BREAK "" fooBREAKbar "" \\Kz', (), b"aAA b-x-y\r\4x\4yfoobarz\r"),
        ('"" done\\n\\\\\\t\\b\\N\\dE', (), b"done\n\\\t\b\0E\r"),
        ('"" ""', (), b""),
        ("ogin: x", ((b"", b"login: "),), b"x\r"),
    ):
        yield f"chat {script}", chat_of(script, *says), (heard, "")
    slept: list[float] = []
    chat_of('"" \\d\\p\\c', slept=slept)
    yield "\\d and \\p", slept, [chat.DELAY_SECONDS, chat.PAUSE_SECONDS]
    yield "subsends", chat_of("one--one-BREAK-one-x-one ok", (b"\r", b""), (b"x\r", b"one"), timeout=0.05), (b"\rx\rok\r", "")
    yield "a string that does not come", chat_of("one-a-two", (b"", b"three"), timeout=0.05), (
        b"a\r",
        'no "two" in 0.05 seconds, heard "three"',
    )
    yield "its own seconds", chat_of("one\\W0", timeout=60)[1], 'no "one" in 0 seconds, heard nothing'
    yield "a string that fails", chat_of("CONNECT x", (b"", b"RING\r\nNO CARRIER\r\n"), fail="BUSY NO\\sCARRIER"), (
        b"",
        'heard "RING\\015\\012NO CARRIER"',
    )
    yield "seven bits", chat_of("abc x", (b"", bytes(one | 0x80 for one in b"abc"))), (b"x\r", "")
    yield "eight bits", chat_of("abc x", (b"", bytes(one | 0x80 for one in b"abc")), strips=False, timeout=0.05)[0], b""
    yield "a password that is heard is hidden", chat_of('"" \\P never', (b"ret\r", b"wrong: sec ret!"), timeout=0.05)[
        1
    ], 'no "never" in 0.05 seconds, heard "wrong: ***!"'
    yield "an escape that is not known", "\\Q is not known" in chat_of('"" \\Q')[1], True
    yield "echoes", chat_of('"" \\Eab\\ec', (b"a", b"a"), (b"b", b"b")), (b"abc\r", "")
    yield "no echo", chat_of('"" \\Eab', (b"a", b"x"), timeout=0.05)[1], 'no echo, heard "x"'
    peer = Peer((b"", b"one"))
    peer.theirs.shutdown(socket.SHUT_WR) if peer.thread.join(0.2) is None else None
    yield "a line that ends", fault_of(lambda: chat.Talk(peer.line, {}).run(Chat(["two"], None, 5))).startswith(
        "the line ended, heard"
    ), True
    yield "what comes after a string is left on the line", rest_of_line(), b"Shere"
    for text, expected in (("a\\sb", b"a b"), ("\\x41G", b"AG"), ("\\101\\\\", b"A\\"), ("\\q", b"q")):
        yield f"unescaped {text}", chat.unescaped(text), expected
    yield from rows_of_programs(folder)


def rest_of_line() -> bytes:
    peer = Peer((b"", b"word:Shere"))
    chat.Talk(peer.line, {}).run(Chat(["word:"], None, 5))
    found = peer.ours.recv(100)
    peer.end()
    return found


def rows_of_programs(folder: Path) -> Iterator[Row]:
    program = folder / "program"
    program.write_text('#!/bin/sh\necho "$@"\nread said\necho "$said" >&2\nexit "$3"\n')
    program.chmod(0o755)
    for status, why in ((0, ""), (3, f'{program} ended with status 3, and said "yes"')):
        peer = Peer((b"\n", b"yes\n"))
        talk = chat.Talk(peer.line, {"L": b"Ume"})
        found = fault_of(lambda: talk.run(Chat([], f"{program} \\L \\Y {status}")))
        yield f"a program that ends with {status}", (peer.end(), found), (f"Ume port test {status}\n".encode(), why)
    peer = Peer()
    yield "a program never gets the password", "show the password" in fault_of(
        lambda: chat.Talk(peer.line, {"P": b"p"}).run(Chat([], f"{program} \\P"))
    ), True
    yield "nor is it run", peer.end(), b""


def rows_of_lines(folder: Path) -> Iterator[Row]:
    lock = folder / "LCK..x"
    with lines.locked(lock, "x"):
        yield "a lock on the disk", lock.read_text(), f"{os.getpid():10d}\n"
        yield "a lock that is held", fault_of(
            lambda: lines.locked(lock, "x").__enter__()
        ), f"x: is locked by {lock} of process {os.getpid()}"
    yield "a lock that was let go", lock.exists(), False
    dead = subprocess.Popen(["true"])
    dead.wait()
    gone = dead.pid
    # the last is of an earlier process that had the number of this one
    for text, taken in ((f"{gone:10d}\n", True), ("garbage\n", False), ("         1\n", False), (f"{os.getpid():10d}\n", True)):
        lock.write_text(text)
        yield f"a lock file with {text.strip()}", (lines.take_lock(lock), sorted(path.name for path in folder.glob("LCK*"))), (
            taken,
            ["LCK..x"],
        )
        lock.unlink()
    lock.write_text("         1\n")
    lines.drop_lock(lock)
    yield "another's lock stays", lock.exists(), True
    yield "a folder that there is not", type(fault(lambda: lines.take_lock(folder / "none/LCK"))), Unavailable
    yield "a file in the folder's place", type(fault(lambda: lines.take_lock(lock / "LCK"))), Unavailable
    for port, path in (
        (Port("p", "direct", "/dev/ttyS5"), "/l/LCK..ttyS5"),
        (Port("ttyS6", "modem"), "/l/LCK..ttyS6"),
        (Port("p", "tcp"), None),
        (Port("p", "direct", "/dev/ttyS5", lock="LCK..y"), "/l/LCK..y"),
    ):
        yield f"the lock of {port.name}, {port.device}", lines.lock_of(port, Path("/l")), Path(path) if path else None
    yield "a service", (lines.service_of("99"), lines.service_of("uucp")), (99, 540)
    yield "one that there is not", fault_of(
        lambda: lines.service_of("nosuch")
    ), "service nosuch: not found: write its number into the port file"
    yield "a type that can't be used", "use tcp" in fault_of(lambda: lines.open_line(Port("p", "tli"), "", 0, folder, {})), True
    with lines.pipe_line(Port("p", "pipe", command=["/bin/echo", "\\H", "\\Z"]), {"H": "host", "Z": "far"}) as line:
        yield "a pipe", os.read(line.reads, 100), b"host far\n"
    lines.END_SECONDS = 0.05
    with lines.pipe_line(Port("p", "pipe", command=["/bin/sh", "-c", "echo\t$$;exec\tsleep\t60"]), {}) as line:
        process = int(os.read(line.reads, 100))
    yield "a command is ended with its line", Path(f"/proc/{process}").exists(), False
    yield "a command that there is not", "correct `command`" in fault_of(
        lambda: lines.pipe_line(Port("p", "pipe", command=["/none"]), {}).__enter__()
    ), True
    yield from rows_of_devices(folder)


def rows_of_devices(folder: Path) -> Iterator[Row]:
    """A pseudo-terminal in the place of a device."""
    import pty
    import termios

    far, near = pty.openpty()
    path = os.ttyname(near)
    os.write(far, b"login: ")
    with lines.device_line(Port("p", "direct", path, hardflow=True), 2400, folder) as line:
        state = termios.tcgetattr(line.reads)
        yield "its speed and flow control", (
            state[5] == termios.B2400,
            bool(state[2] & termios.CRTSCTS),
            bool(state[2] & termios.CLOCAL),
        ), (True, True, True)
        yield "what it said before", os.read(line.reads, 100), b"login: "
        yield "its lock", [one.name for one in folder.glob("LCK..[0-9]*")], [f"LCK..{os.path.basename(path)}"]
        yield "a second opener", "locked" in fault_of(
            lambda: lines.device_line(Port("q", "direct", path), 0, folder).__enter__()
        ), True
        line.has_carrier = True
        line.need_carrier(True)
        yield "its carrier is needed", bool(termios.tcgetattr(line.reads)[2] & termios.CLOCAL), False
        line.send_break()
        line.wait_for_carrier(0)
        os.write(far, b"OOOOOO")
        line.forget()
        os.write(far, b"next")
        yield "what came before a call is dropped", os.read(line.reads, 100), b"next"
    os.close(far)
    os.close(near)
    yield "a device that there is not", "check the device" in fault_of(
        lambda: lines.device_line(Port("p", "direct", "/none"), 300, folder).__enter__()
    ), True
    yield "its lock is let go", (folder / "LCK..none").exists(), False


def fault(function: Callable[[], object]) -> BaseException | None:
    try:
        function()
    except SiteError as found:
        return found
    return None


def rows_of_logins(folder: Path) -> Iterator[Row]:
    texts = {
        "passwd": "Ufar pass\\sword\nUcolon:x:y:z\nUshort\nUempty \n",
        "sys": "system far\ncalled-login Ufar\nalias distant\nsystem open\nsystem listed\nsystem lister\ncalled-login Umany listed lister\n"
        "system two\ncalled-login Utwo\nmyname second\nalternate\ncalled-login Ufar\n",
    }
    site = site_of(folder, **texts)
    for login, password in ((b"Ufar", b"pass word"), (b"Ucolon", b"x"), (b"Ushort", None), (b"Unone", None)):
        yield f"the password of {login!r}", logins.password_of(site, login), password
    for expected, said, is_right in (
        (b"a", b"a", True),
        (b"a", b"b", False),
        (None, b"", False),
        (b"", b"", False),
        (None, b"\0", False),
        (b"ab", b"a", False),
    ):
        yield f"{said!r} for {expected!r}", logins.is_right(expected, said), is_right
    for login, names in (
        ("Ufar", ["distant", "far", "listed", "open", "two"]),
        ("Umany", ["listed", "lister"]),
        ("Uother", ["listed", "open"]),
        ("Utwo", ["listed", "open", "two"]),
    ):
        yield f"who may log in as {login}", sorted(logins.admitted(site, login)), names
    site.systems["hdb"] = System("hdb", [], [Alternate(), Alternate(called_login="Uhdb")])
    for login in ("Uhdb", "Uother"):
        yield f"an alternate without a login, and {login}", "hdb" in logins.admitted(site, login), login == "Uhdb"
    del site.systems["hdb"]
    site.unknown = ["called-login Uanon", "pubdir /anonymous"]
    for name, login, public in (
        ("zeta", "Uanon", "/anonymous"),
        ("zeta", "Ufar", None),
        ("far", "Uanon", None),
        ("distant", "Uanon", None),
        ("../x", "Uanon", None),
        (".x", "Uanon", None),
        ("a#b", "Uanon", None),
        ("a" * 65, "Uanon", None),
    ):
        found = logins.unknown_one(site, name, login)
        yield f"an unknown {name[:9]} by {login}", found and (found.system, found.alternate.public), public and (name, public)
    site.unknown = []
    yield "none is let in", logins.unknown_one(site, "zeta", "Uanon"), None
    yield "an alias is the system", logins.admitted(site, "Ufar")["distant"].system, "far"
    yield "the local name", (logins.local_name(site, "Utwo"), logins.local_name(site, "Umany")), ("second", "here")
    for said, login, right in (
        (b"Ufar\rpass word\r", None, "Ufar"),
        (b"Ufar\npass word\n", None, "Ufar"),
        (b"Uf\x7far\rx\rUfar\r\npass word\r\n", None, "Ufar"),
        (b"pass word\r", "Ufar", "Ufar"),
        (b"Ufar\rx\r" * 3, None, "Bad login"),
        (b"Ufar\r", None, "the line ended before the login"),
        (b"U" * 200, None, "a login or password is too long"),
    ):
        peer = Peer((b"", said))
        peer.thread.join(0.05)
        peer.theirs.shutdown(socket.SHUT_WR)
        try:
            found = logins.log_in(peer.line, site, login, 5)
        except logins.NoLogin as why:
            found = str(why)
        yield f"{said[:30]!r} logs in", found, right
        peer.end()
    peer = Peer()
    yield "who says nothing", fault_of(lambda: logins.log_in(peer.line, site, None, 0.01)), "nobody has logged in in time"


def rows_of_obstacles(folder: Path) -> Iterator[Row]:
    good = dict(gives=["~"], takes=["~"], public="/srv/pub")
    for change, keywords in (
        ({}, []),
        ({"protocols": "t"}, ["protocol"]),
        ({"protocols": "tg"}, []),
        ({"counts": True}, []),
        ({"gives": []}, []),
        ({"takes": ["/x"]}, []),
        ({"takes": ["~", "!~/x"]}, []),
        ({"calls_send": False}, []),
        ({"chat": Chat([], "/x \\P")}, ["chat-program"]),
    ):
        yield f"a call with {change}", [
            one.keyword for one in obstacles.of_call(Alternate(**{**good, **change}), Port("p", "tcp"))
        ], keywords
    for port, keywords in (
        (Port("p", "modem"), ["dialer"]),
        (Port("p", "modem", dialers=[Dialer("d")]), []),
        (Port("p", "tli"), ["type"]),
        (Port("p", "tcp", seven_bit=True), ["seven-bit"]),
        (Port("p", "modem", missing=["d"]), ["dialer"]),
        (Port("p", "tcp", protocols="i"), ["protocol"]),
    ):
        yield f"a call at {port.kind}", [one.keyword for one in obstacles.of_call(Alternate(**good), port)], keywords
    for change, keywords in (
        ({}, []),
        ({"called_send": False}, []),
        ({"called_chat": Chat(["x"])}, []),
        ({"called_chat": Chat([], "/x \\P")}, ["called-chat-program"]),
    ):
        yield f"an answer with {change}", [one.keyword for one in obstacles.of_answer(Alternate(**{**good, **change}))], keywords


def rows_of_folders(folder: Path) -> Iterator[Row]:
    for word, rule, honoured in (
        ("~", "~", True),
        ("~/", "~", True),
        ("/srv/pub", "~", True),
        ("/srv/pub/", "~", True),
        ("/srv", "~", False),
        ("/", "~", False),
        ("!~", "!~", True),
        ("!/", "!~", True),
        ("~/x", "~/x", True),
        ("~/x/", "~/x", True),
        ("/srv/pub/x", "~/x", True),
        ("~/x/y", "~/x/y", True),
        ("!~/x", "!~/x", True),
        ("!/srv/pub/x", "!~/x", True),
        ("!~/x/y", "!~/x/y", True),
        ("/srv/pu", "/srv/pu", True),
        ("/home/ftp/", "/home/ftp", True),
        ("!/etc", "!/etc", True),
        ("~/../x", "/srv/x", True),
        ("/home/.ftp", None, False),
        ("/home/~ftp/x", None, False),
        ("~nobody-has-this-name/x", None, False),
    ):
        yield f"the rule of {word}", folders.rule_of(word, "/srv/pub/"), rule
        yield f"{word} is honoured", folders.is_honoured(word, ["/srv/pub/"]), honoured
    yield "of another public folder", folders.is_honoured("/home/ftp", ["/srv/pub", "/home/ftp"]), True
    for gives, takes, words in (
        (["~"], ["/"], []),
        ([], ["~"], ["--give", "none"]),
        (["/p"], ["/x"], ["--take", "/x"]),
        (["/", "!~"], [], ["--give", "~ !~", "--take", "none"]),
        (["~", "!~/x", "!/etc"], ["~/in", "/home/ftp"], ["--give", "~ !~/x !/etc", "--take", "~/in /home/ftp"]),
    ):
        one = Alternate(public="/p/", gives=gives, takes=takes)
        yield f"folders {gives}, {takes}", folders.folder_words(one, one.public), words


def rows_of_sessions(folder: Path) -> Iterator[Row]:
    for g, speed, words in (
        ({}, 0, []),
        ({"window": "3", "packet-size": "512", "timeout": "20"}, 0, ["--window", "3", "--size", "512", "--timeout", "20"]),
        ({"window": "9", "packet-size": "100", "timeout": "0"}, 0, []),
        ({"short-packets": "false"}, 0, ["--fill-commands"]),
        ({"window": ""}, 0, []),
        ({}, 9600, ["--speed", "9600"]),
        ({}, 57600, []),
        ({}, 110, []),
    ):
        yield f"options of {g}, {speed}", sessions.options_of(Alternate(parameters={"g": g}), None, speed), words
    alternate = Alternate(parameters={"g": {"window": "1", "timeout": "1", "errors": "1"}})
    port = Port("p", parameters={"g": {"window": "2", "timeout": "2"}}, dialers=[Dialer("d", parameters={"g": {"window": "3"}})])
    yield "those of a dialer come first", sessions.parameters_of(alternate, port), {"window": "3", "timeout": "2", "errors": "1"}
    none = ["--grade=-"]
    for grade, sends, words in (("z", True, []), ("C", True, ["--grade", "C"]), ("C", False, none), ("z", False, none)):
        yield f"work of {grade}, {sends}", sessions.grade_words(grade, sends), words
    one = Alternate(public="/p", gives=["~"], takes=["~"])
    words = sessions.words_of_session(Site(None, "me"), "call", "me", "far", one, lines.Line("port p", 0, 1, logged="ttyS0"))
    yield "the name of the line", words[-2:], ["--port-name", "ttyS0"]
    yield "words of a session", words[1:9] + words[9:11], [
        "call",
        "-",
        "/var/spool/uucp",
        "--spool",
        "--me",
        "me",
        "--peer",
        "far",
        "--public",
        "/p",
    ]
    os.environ["SECRET_OF_TEST"] = "x"
    yield "the environment of a session", "SECRET_OF_TEST" in sessions.environment(), False


def rows_of_options(folder: Path) -> Iterator[Row]:
    for text, fields in (
        ("-r1", {"is_master": True}),
        ("-r 0", {}),
        ("-sfar", {"system": "far", "is_master": True}),
        ("-S far", {"system": "far", "is_master": True, "is_forced": True}),
        ("-Csfar", {"system": "far", "is_master": True, "only_work": True}),
        ("-fDqzc", {"is_forced": True, "stays": True, "no_uuxqt": True, "tries_next": True, "is_quiet": True}),
        ("-l", {"asks": True}),
        ("-e -p door", {"asks": True, "loops": True, "port": "door"}),
        ("-w", {"asks": True, "loops": True, "is_master": True}),
        ("-u Ufar -x4 -I conf", {"login": "Ufar", "debug": "4", "config": "conf"}),
        ("--system far --force", {"system": "far", "is_master": True, "is_forced": True}),
        ("--master --nouuxqt --ifwork", {"is_master": True, "no_uuxqt": True, "only_work": True}),
        ("--check", {"tool": "--check"}),
        ("-v", {"tool": "-v"}),
        ("--prompt --port=door", {"asks": True, "port": "door"}),
        ("-Xchat", {"debug": "chat"}),
    ):
        yield f"options {text}", options.options_of(text.split()), options.Options(**fields)
    for text in ("-y", "-r2", "-s", "word", "-i TLI", "-t", "-g C", "--none"):
        yield f"options {text}", fault_of(lambda text=text: options.options_of(text.split())).startswith("uucico: "), True


def rows_of_program(folder: Path) -> Iterator[Row]:
    for user, login in ((0, "Ufar"), (program.owner_of_package(), "Ufar"), (54321, None)):
        yield f"-u of user {user}", program.forced_login("Ufar", user), login
    uucp = pwd.getpwuid(program.owner_of_package())
    groups = sorted(os.getgrouplist(uucp.pw_name, uucp.pw_gid))
    yield "root goes on as uucp", ids_of_root(), f"{(uucp.pw_uid,) * 3} {(uucp.pw_gid,) * 3} {groups}\n"


def ids_of_root() -> str:
    """Returns the numbers with which root goes on, in a process of its own."""
    shows = "print(os.getresuid(), os.getresgid(), sorted(os.getgroups()))"
    text = f"import os; from uucp_site import program; program.become_uucp(); {shows}"
    words = [sys.executable, "-B", "-c", text]
    return subprocess.run(words, cwd=ROOT / "packaging", stdout=subprocess.PIPE, text=True, check=True).stdout


def rows_of_calls(folder: Path) -> Iterator[Row]:
    site = Site(None, "me", spool=folder)
    (folder / "dialcodes").write_text("home 07\nNY 1212\n")
    site.files["dialcode"] = [str(folder / "dialcodes")]
    for phone, translates, expected in (
        ("55=1-2", False, b"55W1P2"),
        ("NY55", True, b"121255"),
        ("NY55", False, b"NY55"),
        ("LA1", True, b"LA1"),
        ("", True, b""),
    ):
        yield f"the number {phone}", calls.phone_of(site, Dialer("d", dialtone="W", pause="P"), phone, translates), expected
    (folder / "far/C.").mkdir(parents=True)
    for name in ("C.NCBAQ", "C.ACBAQ", "TMP1", "C."):
        (folder / "far/C." / name).write_text("")
    jobs = calls.jobs_of(folder, "far")
    yield "jobs", sorted(path.name for path in jobs), ["C.", "C.ACBAQ", "C.NCBAQ"]
    found = chat.secrets_of(Chat(["ogin:", "\\dUser\\c", "word:", "se\\scret", ">", "\\P", "x", "ok"]), {"P": b"p"})
    yield "secrets of a chat", found, [b"p", b"User", b"se cret"]
    yield "the best grade", (calls.best_grade(jobs), calls.best_grade([])), ("A", None)
    yield "queued since", (calls.queued_since(jobs, time.time() + 60), calls.queued_since(jobs, time.time() - 60)), (False, True)
    yield from rows_of_repeats(folder)
    yield from rows_of_windows(folder)


def rows_of_repeats(folder: Path) -> Iterator[Row]:
    """A call is repeated where a job was queued meanwhile, but not where `success-wait` holds it back."""
    (folder / "soon/C.").mkdir(parents=True)
    (folder / "soon/C./C.Nx").write_text("")
    os.utime(folder / "soon/C./C.Nx", (time.time() + 600,) * 2)
    for wait, grade, count in ((0, "z", 5), (60, "z", 1), (0, "N", 5), (0, "C", 1), (0, "", 1)):
        made = []
        caller = calls.Caller(
            Site(None, "me", spool=folder, runs_uuxqt=False),
            System("soon", [], [Alternate(success_wait=wait)]),
            options.Options(),
        )
        caller.grade, caller.call_once = grade, lambda made=made: not made.append(grade)
        yield f"calls with success-wait {wait}, of grade {grade!r}", (caller.call(), len(made)), (True, count)


def rows_of_sequence(folder: Path) -> Iterator[Row]:
    path = folder / ".Sequence/far"
    yield "numbers", [sequence.next_number(folder, "far") for _ in range(3)], [1, 2, 3]
    yield "a number on the disk", (path.read_text(), path.stat().st_mode & 0o777), ("3\n", 0o600)
    # as Taylor UUCP writes it
    path.write_text("41")
    yield "one of Taylor UUCP's", sequence.next_number(folder, "far"), 42
    yield "no other file stays", [one.name for one in path.parent.iterdir()], ["far"]
    path.write_text("x\n")
    yield "one that can't be read", fault_of(
        lambda: sequence.next_number(folder, "far")
    ), f"{path}: is no number: write the same number to the files of both ends"
    path.chmod(0o644)
    yield "one that others may read", "others may read" in fault_of(lambda: sequence.next_number(folder, "far")), True


def rows_of_relay(folder: Path) -> Iterator[Row]:
    for said, texts in (
        (b"\x10Sfar\0", [b"Sfar"]),
        (b"noise\x10Sfar -R\n\x10Ug\0", [b"Sfar -R", b"Ug"]),
        (bytes([0x10, *(one | 0x80 for one in b"Sfar"), 0]), [b"Sfar"]),
        (b"\x10\0", [b""]),
        (b"Sfar\0", []),
    ):
        reader = relay.Texts()
        found = [reader.take(bytes([byte])) for byte in said]
        yield f"texts in {said!r}", [text for text in found if text is not None], texts
    for from_line, texts, passed, said in (
        (True, (b"\r\n\x10Ug\0rest", b"\x10ROK\0"), True, (b"\x10ROK\0", b"\x10UG\0")),
        (False, (b"\x10ROK\0", b"\x10Sme\0rest"), True, (b"\x10SME\0", b"\x10ROK\0")),
        (True, (b"\x10U", b""), False, (b"", b"")),
    ):
        yield f"a text from the line {from_line}: {texts}", passed_text(from_line, *texts), (passed, *said)


def passed_text(from_line: bool, at_line: bytes, at_session: bytes) -> tuple[bool, bytes, bytes]:
    """Returns whether a text was passed of what both ends say, and what each end hears; the text is in capitals then."""
    line_end, far = socket.socketpair()
    ours, near = socket.socketpair()
    with line_end, far, ours, near:
        speaks, text = (far, at_line) if from_line else (near, at_session)
        (near if from_line else far).sendall(at_session if from_line else at_line)
        threading.Timer(0.05, lambda: (speaks.sendall(text), speaks.shutdown(socket.SHUT_WR))).start()
        line = lines.Line("x", line_end.fileno(), line_end.fileno())
        passed = relay.pass_text(line, ours, from_line, bytes.upper)
        for one in (far, near):
            one.settimeout(0.1)
        heard = []
        for one in (far, near):
            try:
                heard.append(one.recv(100))
            except TimeoutError:
                heard.append(b"")
    return passed, heard[0], heard[1]


def rows_of_windows(folder: Path) -> Iterator[Row]:
    """A call of which the clock is an argument, to a port that can't be had: what is refused before that, and what is written."""
    site = Site(None, "me", spool=folder, locks=folder, log=folder / "log", runs_uuxqt=False)
    alternate = Alternate(
        spans=[times.Span(0, 60, "z", 5)],
        may_call=True,
        ports=[Port("none", "direct", "/none")],
        gives=["~"],
        takes=["~"],
        public="/p",
    )
    asked = options.Options(system="far", is_master=True)
    for text, code, said in (
        ("Sun 00:30", times.NO_PORT, "No such file"),
        ("Sun 00:33", times.NO_PORT, "Retry time not reached"),
        ("Sun 00:36", times.NO_PORT, "No such file"),
        ("Sun 01:30", times.WRONG_TIME, "Wrong time to call"),
    ):
        (folder / "log").write_text("")
        calls.Caller(site, System("far", [], [alternate]), asked, lambda text=text: at(text), lambda _: None).call()
        status = times.read_status(folder, "far")
        yield f"called at {text}", (status.code, said in (folder / "log").read_text()), (code, True)
        if text == "Sun 00:36":
            yield "tries, and the wait of `time`", (status.tries, status.wait, status.time), (2, 300, int(at(text)))
    yield from rows_of_work(folder, site, alternate)


def rows_of_work(folder: Path, site: Site, alternate: Alternate) -> Iterator[Row]:
    """When a call is made for work alone, and what is written of one that is not made."""
    (folder / "far/C.").mkdir(parents=True, exist_ok=True)
    for path in (folder / "far/C.").iterdir():
        path.unlink()
    (folder / "far/C./C.NCBAQ").write_text("")
    high = Alternate(**{**vars(alternate), "spans": [times.Span(0, 60, "C")]})
    mute = Alternate(**{**vars(alternate), "calls_send": False})
    none = Alternate(**{**vars(alternate), "spans": []})
    for what, one, change, when, expected in (
        ("-C with work", alternate, {"only_work": True}, "Sun 00:30", (False, times.NO_PORT, "No such file")),
        ("-C with work of a low grade", high, {"only_work": True}, "Sun 00:30", (True, times.COMPLETE, "No work")),
        ("-C where it may not send", mute, {"only_work": True}, "Sun 00:30", (True, times.COMPLETE, "No work")),
        ("all, with work of a low grade", high, {"system": None}, "Sun 00:30", (True, times.COMPLETE, "No work")),
        ("that is quiet", high, {"system": None, "is_quiet": True}, "Sun 00:30", (True, times.COMPLETE, "")),
        ("one by its name", high, {}, "Sun 00:30", (False, times.NO_PORT, "No such file")),
        ("a wrong time", high, {}, "Sun 02:30", (False, times.WRONG_TIME, "Wrong time to call")),
        ("one that is quiet", high, {"is_quiet": True}, "Sun 02:30", (False, times.WRONG_TIME, "")),
        ("never", none, {}, "Sun 00:30", (False, times.COMPLETE, "Wrong time to call")),
    ):
        (folder / "log").write_text("")
        times.write_status(folder, "far", times.Status())
        asked = options.Options(**{"system": "far", "is_master": True, **change})
        done = calls.Caller(site, System("far", [], [one]), asked, lambda when=when: at(when), lambda _: None).call()
        said = (folder / "log").read_text()
        is_said = expected[2] in said if expected[2] else not said
        yield f"{what} at {when}", (done, times.read_status(folder, "far").code, is_said or said), (*expected[:2], True)
    named = [Alternate(port_name="one", may_call=True), Alternate(port_name="two", may_call=True), Alternate(may_call=True)]
    for port, found in ((None, named), ("two", named[1:2]), ("three", named)):
        caller = calls.Caller(site, System("far", [], named), options.Options(port=port))
        yield f"the alternates for -p {port}", caller.usable() == found, True
    yield from rows_of_locks(folder, site, alternate)


def rows_of_locks(folder: Path, site: Site, alternate: Alternate) -> Iterator[Row]:
    """A port that is in use is no failure of the other end."""
    (folder / "LCK..held").write_text("         1\n")
    busy = Alternate(**{**vars(alternate), "ports": [Port("held", "direct", "/none", lock="LCK..held")]})
    for tries, wait in ((0, 300), (3, 300)):
        times.write_status(folder, "far", times.Status(times.DIAL, tries, 1, 0))
        asked = options.Options(system="far", is_master=True)
        calls.Caller(site, System("far", [], [busy]), asked, lambda: at("Sun 00:30"), lambda _: None).call()
        status = times.read_status(folder, "far")
        yield f"a port in use after {tries} tries", (status.code, status.tries, status.wait), (times.NO_PORT, tries, wait)


def rows_of_answers(folder: Path) -> Iterator[Row]:
    site = site_of(
        folder,
        sys="system far\ncalled-login Ufar\nsystem back\ncallback true\nsystem open\nsystem bad\nprotocol t\n",
        config=f"logfile {folder}/log",
    )
    for said, heard in (
        (b"\x10Sfar -R\0", b"LOGIN"),
        (b"\x10Sback\0", b"CB"),
        (b"\x10Szeta\0", b"You are unknown to me"),
        (b"\x10Sbad\0", b"LOGIN"),
        (b"\r\n\x10Sfar\n", b"LOGIN"),
        (bytes([0x10, *(one | 0x80 for one in b"Sfar"), 0]), b"LOGIN"),
    ):
        peer = Peer((b"\0", said))
        called = answers.Answer(site, peer.line, "Uother", options.Options())
        status = called.run()
        yield f"a caller says {said!r}", (status, called.calls_back, peer.end()), (
            1,
            "back" if b"back" in said else None,
            b"\x10Shere=here\0\x10R" + heard + b"\0",
        )
    for said, why in (
        (b"", "the line ended in the greeting"),
        (b"\x10" + b"x" * 300, "the greeting is too long"),
        (b"\x10X\0", "the caller's greeting can't be read"),
    ):
        peer = Peer((b"\0", said))
        peer.thread.join(0.01)
        threading.Timer(0.1, peer.theirs.shutdown, [socket.SHUT_WR]).start()
        yield f"a caller says {said[:4]!r}..", fault_of(
            lambda: answers.Answer(site, peer.line, "Uother", options.Options()).run()
        ), why
    yield "a program that there is not", fault_of(
        lambda: sessions.start_session(["/none"], 0, 1)
    ), "/none: No such file or directory: install uucpair"
    sessions.paths.UUCPAIR, kept = "/none", sessions.paths.UUCPAIR
    peer = Peer((b"\0", b"\x10Sfar\0"))
    alone = site_of(folder, sys="system far\ncalled-login Ufar\n", config=f"logfile {folder}/log\nspool {folder}")
    said = answers.answer(alone, peer.line, options.Options(login="Ufar", no_uuxqt=True))
    sessions.paths.UUCPAIR = kept
    log = (folder / "log").read_text()
    yield "an answer without it", (said, "ERROR: /none: " in log, peer.end()), (False, True, b"\x10Shere=here\0")
    yield from rows_of_numbers(folder)
    yield from rows_of_carry()


def rows_of_numbers(folder: Path) -> Iterator[Row]:
    """A caller of a system with `sequence` says the next number; one that calls back leaves a reason to."""
    site = site_of(folder, sys="system far\nsequence true\nsystem near\n", config=f"logfile {folder}/log\nspool {folder}")
    (folder / ".Sequence").mkdir()
    for options_of_call, said, why, number in (
        (b" -R -N07", "BADSEQ", "No sequence number (call rejected)", "4"),
        (b" -Q4 -R", "BADSEQ", "Out of sequence call rejected", "5\n"),
        (b" -Q5", "", "", "5\n"),
        (b" -N07 -Q 05 -R", "", "", "5\n"),
    ):
        (folder / "log").write_text("")
        (folder / ".Sequence/far").write_text("4")
        (folder / ".Sequence/far").chmod(0o600)
        called = answers.Answer(site, Peer().line, "Uany", options.Options())
        refusal = called.refusal("far", called.admitted["far"], options_of_call)
        log = (folder / "log").read_text()
        yield f"a caller says {options_of_call!r}", (refusal, why in log and bool(log) is bool(why)), (said, True)
        yield f"the number after {options_of_call!r}", (folder / ".Sequence/far").read_text(), number
    yield "the status of one that is out of sequence", times.read_status(folder, "far").code, times.FAILED
    for _ in range(2):
        answers.leave_poll(folder, "far")
    site.systems["near"].alternates[0].sends = []
    for said, spans, sends, words in (
        (b" -R -N07", [], True, []),
        (b" -pC -vgrade=C -R", [], True, ["--grade", "C"]),
        (b" -R -v grade=B", [], True, ["--grade", "B"]),
        (b" -pC", [times.Span(0, times.WEEK, "A")], True, ["--grade", "A"]),
        (b" -pC", [], False, ["--grade=-"]),
    ):
        one = Alternate(sends=spans, called_send=sends, public="/p", gives=["~"], takes=["~"])
        found = answers.Answer(site, Peer().line, "Uany", options.Options()).words(logins.Admission("near", one), said)
        yield f"the grade for who says {said!r}, {sends}", [word for word in found[found.index("--port-name") + 2 :]], words
    for what, one, texts in (
        ("a number", Alternate(counts=True), b"\x10Sme -Q1 -R\0"),
        ("a grade", Alternate(accepts=[times.Span(0, times.WEEK, "C")]), b"\x10Sme -pC -vgrade=C -R\0"),
    ):
        yield f"who calls says {what}", greeting_of(site, one), texts
    yield "a reason to call back", [path.name for path in calls.jobs_of(folder, "far")], ["C.0poll"]


def greeting_of(site: Site, alternate: Alternate) -> bytes:
    """Returns what a called system hears of a session that greets, and ends."""
    program = Path(site.config).parent / "greets"
    program.write_text("#!/bin/sh\nhead -c 12 >/dev/null\nprintf '\\020Sme -R\\0'\n")
    program.chmod(0o755)
    peer = Peer((b"\0", b""))
    peer.theirs.sendall(b"\x10Shere=near\0")
    caller = calls.Caller(site, System("near", [], [alternate]), options.Options())
    caller.relay([str(program)], peer.line, alternate, caller.asked(alternate))
    return peer.end()


def rows_of_carry() -> Iterator[Row]:
    """Bytes go both ways, until the session has ended and all of its bytes are written."""
    line_end, far = socket.socketpair()
    session, near = socket.socketpair()
    # a session that takes less at a time than a read brings
    session.setsockopt(socket.SOL_SOCKET, socket.SO_SNDBUF, 2048)
    long = bytes(range(256)) * 4000
    answer: list[bytes] = []

    def caller() -> None:
        far.sendall(long)
        got = b""
        while piece := far.recv(65536):
            got += piece
        answer.append(got)

    def called() -> None:
        near.settimeout(20)
        with contextlib.closing(near), contextlib.suppress(TimeoutError):
            got = b""
            while len(got) < len(long):
                got += near.recv(65536)
            answer.append(got)
            near.sendall(long[::-1])

    threads = [threading.Thread(target=caller), threading.Thread(target=called)]
    for thread in threads:
        thread.start()
    relay.carry(lines.Line("x", line_end.fileno(), line_end.fileno()), session)
    line_end.close()
    for thread in threads:
        thread.join(20)
    yield "a megabyte each way", answer, [long, long[::-1]]
    line_end, far = socket.socketpair()
    session, near = socket.socketpair()
    far.close()
    closer = threading.Thread(target=lambda: (near.recv(10), near.close()))
    closer.start()
    relay.carry(lines.Line("x", line_end.fileno(), line_end.fileno()), session)
    closer.join(10)
    yield "a caller that is gone ends the session", closer.is_alive(), False


def rows_of_check(folder: Path) -> Iterator[Row]:
    for kind, text, verdict in (
        ("sys", "time any", "honoured"),
        ("sys", "debug all", "ignored"),
        ("sys", "nonsense", "stops the call"),
        ("sys", "port type tcp", "honoured"),
        ("sys", "port push x", "stops the call"),
        ("port", "dialer chat x y", "honoured"),
        ("port", "half-duplex true", "ignored"),
        ("port", "dial-device x", "honoured"),
        ("port", "push x", "stops the call"),
        ("dial", "carrier false", "honoured"),
        ("config", "unknown called-login Uanon", "honoured"),
        ("config", "unknown nonsense", "stops the call"),
        ("config", "spool /x", "honoured"),
        ("sys", "protocol-parameter g window 3", "honoured"),
        ("sys", "protocol-parameter g errors 3", "ignored"),
        ("sys", "protocol-parameter i window 3", "ignored"),
        ("sys", "protocol-parameter g window 9", "ignored"),
        ("sys", "protocol-parameter g packet-size 100", "ignored"),
        ("port", "protocol-parameter g timeout 0", "ignored"),
        ("port", "protocol-parameter g timeout", "ignored"),
        ("dial", "protocol-parameter g timeout 3", "honoured"),
    ):
        yield f"verdict of {kind} {text}", check.verdict_of(kind, text.split())[0], verdict
    yield "why a parameter is ignored", check.verdict_of("sys", "protocol-parameter g window 9".split())[1], "it is 1 to 7: the default stays"
    site = site_of(
        folder,
        sys="protocol t\nsystem far\ntime any\nport line\nsystem near\nport line\ntime any\nprotocol g\nremote-receive ~ !~/x\n"
        "call-password secret\n",
        port="port line\ntype direct\nseven-bit true\n",
    )
    rows = [row for row in check.rows_of(site) if row.verdict == "stops the call"]
    (folder / "often").mkdir()
    often = site_of(
        folder / "often",
        sys="protocol t\nsystem near\ntime any\nsystem far\nprotocol g\nprotocol t\nsystem last\nprotocol t\n",
    )
    yield "what stops calls, and where", [(row.where.rpartition("/")[2], row.text, row.note.split(":")[0]) for row in rows], [
        ("sys:1", "system far", "protocol"),
        ("port:3", "system far", "seven-bit"),
        ("port:3", "system near", "seven-bit"),
    ]
    (folder / "lists").mkdir()
    lists = site_of(folder / "lists", sys="system far\ntime any\nremote-send ~ !~/x ~/y\nremote-receive / ~ /home/.ftp ~/a/b\n")
    said = [(row.verdict, row.note.split(":")[0]) for row in check.rows_of(lists) if row.text.startswith("remote-")]
    yield "lists of folders", said, [
        ("honoured", "the public folder, and folders below it and elsewhere"),
        ("ignored", "/ /home/.ftp"),
    ]
    yield "a keyword that is there often", [
        check.place_of(often, name, obstacles.Obstacle("protocol", "", "")).rpartition("/")[2] for name in ("far", "near")
    ], ["sys:6", "sys:1"]
    yield "no password in a table", [row.text for row in check.rows_of(site) if "password" in row.text], ["call-password ..."]
    yield "each keyword of `uuchk` has a verdict", sorted(
        word for word in KEYWORDS.split() if all(word not in check.KEYWORDS[kind] for kind in check.KEYWORDS)
    ), ["protocol-parameter"]


# The keywords of the manual.
KEYWORDS = """nodename spool pubdir lockdir unknown strip-login strip-proto max-uuxqts run-uuxqt timetable v2-files hdb-files
sysfile portfile dialfile dialcodefile callfile passwdfile logfile statfile debugfile debug system alternate
default-alternates alias myname time timegrade max-retries success-wait call-timegrade called-timegrade speed baud
port phone address chat chat-timeout chat-fail chat-seven-bit chat-program call-login call-password called-login
callback called-chat called-chat-timeout called-chat-fail called-chat-seven-bit called-chat-program protocol
protocol-parameter send-request receive-request request call-transfer called-transfer transfer call-local-size
call-remote-size called-local-size called-remote-size local-send remote-send local-receive remote-receive forward-to
forward-from forward max-file-time sequence command-path commands free-space max-remote-debug type seven-bit reliable
half-duplex device speed-range baud-range carrier hardflow dial-device dialer dialer-sequence lockname service version
push stream server-address command dialtone pause carrier-wait dtr-toggle complete-chat complete-chat-timeout
complete-chat-fail complete-chat-seven-bit complete-chat-program complete abort-chat abort-chat-timeout
abort-chat-fail abort-chat-seven-bit abort-chat-program abort"""


def rows_of_journal(folder: Path) -> Iterator[Row]:
    journal.Journal(folder / "log").say("one")
    journal.Journal(folder / "log").say("two")
    yield "lines are appended", [line.split()[-1] for line in (folder / "log").read_text().splitlines()], ["one", "two"]
    size = journal.Journal(folder / "log").size()
    for system in ("far", "near"):
        journal.Journal(folder / "log", system).say(f"of {system}")
    said = journal.Journal(folder / "log", "near").since(size)
    yield "what came since, of one system", ("of near" in said, "of far" in said, "two" in said), (True, False, False)
    yield "of no log", (journal.Journal(folder / "none").size(), journal.Journal(folder / "none").since(0)), (0, "")
    (folder / "log").unlink()
    journal.Journal(folder / "log", "far").fail(SiteError("port x", "is gone", "look"))
    text = (folder / "log").read_text()
    yield "a line of the log", (
        text.startswith("uucico far - (20"),
        text.endswith(f" {os.getpid()}) ERROR: port x: is gone: look\n"),
    ), (True, True)


def main() -> int:
    os.environ["TZ"] = "UTC"
    time.tzset()
    passed = failed = 0
    for name, function in list(globals().items()):
        if not name.startswith("rows_of_") or name in (
            "rows_of_programs",
            "rows_of_devices",
            "rows_of_windows",
            "rows_of_repeats",
            "rows_of_carry",
            "rows_of_numbers",
            "rows_of_work",
            "rows_of_locks",
        ):
            continue
        if sys.argv[1:] and name.removeprefix("rows_of_") not in sys.argv[1:]:
            continue
        with tempfile.TemporaryDirectory() as folder, contextlib.ExitStack():
            for what, found, expected in function(Path(folder)):
                passed += found == expected
                failed += found != expected
                if found != expected:
                    print(f"{name}: {what}: expected {expected!r}, found {found!r}", file=sys.stderr)
    print(f"{passed} passed, {failed} failed")
    return 1 if failed or not passed else 0


if __name__ == "__main__":
    sys.exit(main())
