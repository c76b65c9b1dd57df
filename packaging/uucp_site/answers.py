"""Answers a call: a login, the names that it may have, and the session."""
from __future__ import annotations

import contextlib
import os
import re
import socket
import subprocess
import sys
import time
from pathlib import Path

from . import obstacles, sequence, times
from .chat import ChatFailed, Talk, secrets_of, values_of
from .configuration import Port, Site, port_named
from .faults import SiteError
from .journal import Journal
from .lines import Line, open_line, service_of, standard_line
from .logins import Admission, NoLogin, admitted, local_name, log_in, own_login, unknown_one
from .options import Options
from .relay import TEXT_MAX, NoText, carry, pass_text, read_text, relayed, spelled, to_session
from .sessions import grade_words, options_of, run_uuxqt, words_of_session

GREETING = re.compile(rb"S([!-~]+)(| [ -~]*)")
NUMBER = re.compile(rb" -Q *(\d+)")
GRADE = re.compile(rb" -(?:p *|v *grade=)([0-9A-Za-z])")
# A line that ends at once is opened again after so long.
REOPEN_SECONDS = 2
# Who is to be called back has so long to let go of its lock, by which it would refuse the call.
CALL_BACK_SECONDS = 2
FOREVER = 365 * 24 * 60 * 60


def answer_at(site: Site, options: Options) -> bool:
    """Answers at the port that the options name, or at standard input and output: one call, or all where they are to loop."""
    if options.port is None:
        if options.loops:
            raise SiteError("uucico", "there is no port to wait at", "name one with -p")
        with standard_line() as line:
            return answer(site, line, options)
    port = port_named(site, options.port)[0]
    if port.kind == "tcp":
        return answer_tcp(site, port, options)
    while True:
        with open_line(port, "", port.speed, site.locks, {}) as line:
            line.wait_for_carrier(FOREVER)
            if line.device is not None:
                line.forget()
            done = answer(site, line, options)
        if not options.loops:
            return done
        time.sleep(0 if done else REOPEN_SECONDS)


def answer_tcp(site: Site, port: Port, options: Options) -> bool:
    """Answers whoever connects, each by a process of its own."""
    with door_at(port) as door:
        while True:
            connection, _ = door.accept()
            reap()
            with connection:
                if not options.loops:
                    return answer(site, Line("port TCP", connection.fileno(), connection.fileno(), logged="TCP"), options)
                if os.fork() == 0:
                    # Another daemon may take the port while this call goes on.
                    door.close()
                    done = answer(site, Line("port TCP", connection.fileno(), connection.fileno(), logged="TCP"), options)
                    os._exit(0 if done else 1)


def door_at(port: Port) -> socket.socket:
    """Returns the socket at which callers connect to a TCP port."""
    both = socket.has_dualstack_ipv6()
    family = socket.AF_INET6 if both else socket.AF_INET
    try:
        return socket.create_server(("", service_of(port.service)), family=family, dualstack_ipv6=both)
    except OSError as fault:
        raise SiteError(f"port {port.name}", f"no callers can be awaited: {os.strerror(fault.errno or 0)}", "see which program has it: ss -ltnp") from fault


def reap() -> None:
    """Waits for those that have ended."""
    with contextlib.suppress(ChildProcessError):
        while os.waitpid(-1, os.WNOHANG)[0]:
            pass


def answer(site: Site, line: Line, options: Options) -> bool:
    """Answers a call at a line. Returns whether all went well."""
    journal = Journal(site.log)
    try:
        login = log_in(line, site, options.login) if options.asks else options.login or own_login()
        journal.say(f"Incoming call (login {login} port {line.logged})")
        called = Answer(site, line, login, options)
        status = called.run()
    except (NoLogin, NoText, SiteError) as fault:
        journal.fail(fault)
        return False
    except OSError as fault:
        journal.fail(f"{line.name}: {fault.strerror}")
        return False
    if site.runs_uuxqt and not options.no_uuxqt:
        run_uuxqt(site, None)
    if called.calls_back:
        call_back(site, line, called.calls_back)
    return status == 0


def call_back(site: Site, line: Line, system: str) -> None:
    """Has a system be called, at once, and as long as that fails by who calls where work waits: an empty job waits for it."""
    times.write_status(site.spool, system, times.Status(times.COMPLETE, 0, int(time.time()), 0))
    leave_poll(site.spool, system)
    line.hang_up()
    time.sleep(CALL_BACK_SECONDS)
    subprocess.Popen(
        [sys.argv[0], *site.config_words(), "-r1", "-S", system],
        stdin=subprocess.DEVNULL,
        stdout=subprocess.DEVNULL,
        start_new_session=True,
    )


def leave_poll(spool: Path, system: str) -> None:
    """Leaves a command file without a line, as Taylor UUCP does. A session removes it."""
    path = spool / system / "C." / "C.0poll"
    try:
        path.parent.mkdir(mode=0o755, parents=True, exist_ok=True)
        path.touch(mode=0o600)
    except OSError as fault:
        raise SiteError(str(path), fault.strerror or "can't be made", "let the user uucp write there") from fault


class Answer:
    """A call by a login, whose caller says its name before the session begins."""

    def __init__(self, site: Site, line: Line, login: str, options: Options) -> None:
        self.site, self.line, self.login, self.options = site, line, login, options
        self.admitted = admitted(site, login)
        self.me = local_name(site, login)
        self.calls_back: str | None = None

    def words(self, admission: Admission, options: bytes) -> list[str]:
        """Returns the words of the session with a caller who says these options, by which it may ask for work of a grade."""
        grade = (GRADE.findall(options) or [b"z"])[-1].decode()
        one = admission.alternate
        words = words_of_session(self.site, "answer", self.me, admission.system, one, self.line)
        span = times.span_at(one.sends, time.time())
        words += options_of(one, None, 0) + grade_words(span.grade if span else grade, one.called_send)
        return [*words, *(["-v"] if self.options.debug else [])]

    def run(self) -> int:
        """Greets the caller, hears its name, and refuses it or begins the session."""
        self.line.write(spelled(b"Shere=%s" % self.me.encode()))
        greeting = GREETING.fullmatch(read_text(self.line))
        if not greeting:
            raise NoText("the caller's greeting can't be read")
        name = greeting[1].decode()
        admission = self.admitted.get(name) or unknown_one(self.site, name, self.login)
        refusal = self.refusal(name, admission, greeting[2])
        if refusal or admission is None:
            self.line.write(spelled(b"R%s" % refusal.encode()))
            return 1
        return self.relay(admission, greeting[2])

    def refusal(self, name: str, admission: Admission | None, options: bytes) -> str:
        """Returns the text by which a caller is refused, and logs why; an empty one where it is not."""
        known = {one for system in self.site.systems.values() for one in (system.name, *system.aliases)}
        if admission is None:
            journal = Journal(self.site.log, name if name in known else "-")
            journal.fail(
                f"System {name} used wrong login name {self.login}" if name in known else f"Call from unknown system {name}"
            )
            return "LOGIN" if name in known else "You are unknown to me"
        journal = Journal(self.site.log, admission.system)
        if admission.alternate.callback:
            journal.say("Will call back")
            self.calls_back = admission.system
            return "CB"
        for obstacle in obstacles.of_answer(admission.alternate):
            journal.fail(obstacle)
            return "LOGIN"
        if admission.alternate.counts and not self.is_in_sequence(admission.system, options, journal):
            self.note_failure(admission.system)
            return "BADSEQ"
        return ""

    def is_in_sequence(self, system: str, options: bytes, journal: Journal) -> bool:
        """Returns whether a caller says the number of this conversation, and logs it where it does not."""
        said = NUMBER.search(options)
        if said and int(said[1]) == sequence.next_number(self.site.spool, system):
            return True
        journal.fail("Out of sequence call rejected" if said else "No sequence number (call rejected)")
        return False

    def make_folder(self, system: str) -> None:
        """Makes a system's folder in the spool: who has none there is given no file that it asks for."""
        if "/" not in system and not system.startswith("."):
            with contextlib.suppress(OSError):
                (self.site.spool / system).mkdir(mode=0o755, exist_ok=True)

    def relay(self, admission: Admission, options: bytes) -> int:
        """Runs a session that hears the greeting again."""
        self.make_folder(admission.system)
        status: list[int] = []
        try:
            with relayed(self.words(admission, options), status) as session:
                if skip_greeting(session):
                    to_session(session, spelled(b"S%s%s" % (admission.system.encode(), options)))
                    self.carry(admission, session)
        except ChatFailed as fault:
            self.note_failure(admission.system)
            raise SiteError(self.line.name, f"called chat script failed: {fault}") from fault
        return status[0]

    def carry(self, admission: Admission, session: socket.socket) -> None:
        """Carries the bytes of a session and of the line. The chat for who is called runs when the protocol is agreed on."""
        chat = admission.alternate.called_chat
        values = {"Z": admission.system.encode(), **values_of(admission.alternate)}

        def talk(text: bytes) -> bytes:
            Talk(self.line, values, secrets_of(chat, values)).run(chat)
            return text

        if not chat or pass_text(self.line, session, True, talk):
            carry(self.line, session)

    def note_failure(self, system: str) -> None:
        times.write_status(self.site.spool, system, times.Status(times.FAILED, 0, int(time.time()), 0))


def skip_greeting(session: socket.socket) -> bool:
    """Takes the session's own greeting, which the caller has heard. Returns whether it came."""
    for _ in range(TEXT_MAX):
        byte = session.recv(1)
        if byte in (b"\0", b""):
            return byte == b"\0"
    return False
