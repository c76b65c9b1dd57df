"""Calls to a system: its times, its alternates, its ports, dialing and logging in, and the session."""
from __future__ import annotations

import contextlib
import re
import time
from collections.abc import Callable, Iterator
from pathlib import Path

from . import obstacles, sequence, times
from .chat import ChatFailed, Talk, secrets_of, values_of
from .configuration import Alternate, Chat, Dialer, Port, Site, System, dialer_named, port_named, words_of
from .faults import Busy, DialFailed, LoginFailed, SiteError, Unavailable
from .journal import Journal
from .lines import Line, device_line, locked, open_line
from .options import Options
from .relay import carry, pass_text, relayed
from .sessions import grade_words, options_of, run_session, run_uuxqt, words_of_session

# A call has so many sessions at most, where jobs come in between.
SESSIONS_MAX = 5


def jobs_of(spool: Path, system: str) -> list[Path]:
    """Returns the command files that wait for a system."""
    with contextlib.suppress(OSError):
        return [path for path in (spool / system / "C.").iterdir() if path.name.startswith("C.")]
    return []


def best_grade(jobs: list[Path]) -> str | None:
    grades = [path.name[2:3] for path in jobs if path.name[2:3] in times.GRADES and len(path.name) > 2]
    return min(grades, key=times.GRADES.index, default=None)


def queued_since(jobs: list[Path], begun: float) -> bool:
    for path in jobs:
        with contextlib.suppress(OSError):
            if path.stat().st_mtime > begun:
                return True
    return False


def phone_of(site: Site, dialer: Dialer, phone: str, translates: bool) -> bytes:
    """Returns a number as a dialer is told it: with its strings for = and -, and with a dialcode's digits for its letters."""
    letters = re.match("[A-Za-z]*", phone)[0] if translates else ""
    for path in site.files.get("dialcode", []) if letters else []:
        digits = next((words[1:2] for _, words in words_of(path) if words[0] == letters), None)
        if digits is not None:
            phone = "".join(digits) + phone[len(letters) :]
            break
    return "".join({"=": dialer.dialtone, "-": dialer.pause}.get(letter, letter) for letter in phone).encode()


class Caller:
    """Calls one system."""

    def __init__(
        self,
        site: Site,
        system: System,
        options: Options,
        clock: Callable[[], float] = time.time,
        sleep: Callable[[float], None] = time.sleep,
    ) -> None:
        self.site, self.system, self.options, self.clock, self.sleep = site, system, options, clock, sleep
        self.journal = Journal(site.log, system.name)
        # Set where the system has said that it calls back.
        self.is_awaited = False
        # The lowest grade of the jobs that went in the last session, if any went.
        self.grade = ""

    def call(self) -> bool:
        """Calls the system if it may be called now and there is reason for it. Returns whether all went well."""
        done = False
        for _ in range(SESSIONS_MAX):
            begun = time.time()
            done = self.call_once()
            is_last = self.is_awaited or any(one.success_wait for one in self.system.alternates)
            # a job of a lower grade would not go in another session either
            jobs = [path for path in jobs_of(self.site.spool, self.system.name) if path.name[2:3] <= self.grade]
            if not done or is_last or not queued_since(jobs, begun):
                break
        if self.site.runs_uuxqt and not self.options.no_uuxqt:
            run_uuxqt(self.site, self.system.name)
        return done

    def call_once(self) -> bool:
        """Calls the system once, where neither its last call nor the time forbids it, as Taylor UUCP does."""
        now, first = self.clock(), self.system.alternates[0]
        status = times.read_status(self.site.spool, self.system.name)
        why = times.why_not_due(status, now, first.retries_max, first.success_wait)
        if why and not self.options.is_forced:
            self.journal.say(why)
            return False
        usable = self.usable()
        timely = [(one, span) for one in usable if (span := times.span_at(one.spans, now)) is not None]
        if not timely:
            self.say_quietly("Wrong time to call")
            if any(one.spans for one in usable):
                times.write_status(
                    self.site.spool, self.system.name, times.Status(times.WRONG_TIME, status.tries, int(now))
                )
            return False
        # one that is asked for by name is called without work, too
        if self.options.only_work or not self.options.system:
            grade = best_grade(jobs_of(self.site.spool, self.system.name))
            timely = [(one, span) for one, span in timely if one.calls_send and grade is not None and grade <= span.grade]
        if not timely:
            self.say_quietly("No work")
            return True
        return self.try_alternates(timely)

    def usable(self) -> list[Alternate]:
        """Returns the alternates by which the system may be called: those that name the port that is asked for, where some do."""
        port = self.options.port
        found = [one for one in self.system.alternates if one.is_used and (one.may_call or port)]
        return [one for one in found if port and one.port_name == port] or found

    def say_quietly(self, text: str) -> None:
        if not self.options.is_quiet:
            self.journal.say(text)

    def try_alternates(self, timely: list[tuple[Alternate, times.Span]]) -> bool:
        """Calls by one alternate after the other, until the system was reached."""
        lock = self.site.locks / f"LCK..{self.system.name}"
        for alternate, span in timely:
            try:
                with contextlib.ExitStack() as stack:
                    held = stack.enter_context(contextlib.ExitStack())
                    try:
                        held.enter_context(locked(lock, f"system {self.system.name}"))
                    except Unavailable as fault:
                        self.journal.fail(fault)
                        return False
                    line, port = self.connect(alternate, stack)
                    # from here on the session holds it
                    held.close()
                    done = self.session(line, port, alternate, span)
            except SiteError as fault:
                self.journal.fail(fault)
                self.note_failure(fault, span)
                continue
            if done or not self.options.tries_next:
                return done
        return False

    def note_failure(self, fault: SiteError, span: times.Span) -> None:
        """Writes the status after a call that reached nobody. That a port which -p names is in use changes nothing."""
        is_busy = isinstance(fault, Busy)
        if is_busy and self.options.port:
            return
        code = times.LOGIN if isinstance(fault, LoginFailed) else times.DIAL if isinstance(fault, DialFailed) else times.NO_PORT
        before = times.read_status(self.site.spool, self.system.name)
        after = times.after_failure(before, code, self.clock(), span, counts=not is_busy)
        times.write_status(self.site.spool, self.system.name, after)

    def ports(self, alternate: Alternate) -> list[Port]:
        return port_named(self.site, self.options.port) if self.options.port else alternate.ports

    def connect(self, alternate: Alternate, stack: contextlib.ExitStack) -> tuple[Line, Port]:
        """Returns a line at which the other end is logged in to. The first port that is free is taken."""
        fault: Unavailable | None = None
        for port in self.ports(alternate):
            try:
                for obstacle in obstacles.of_call(alternate, port):
                    raise Unavailable(f"system {self.system.name}, port {port.name}", str(obstacle))
                values = self.values(alternate)
                line = self.open(port, alternate, stack)
            except Unavailable as why:
                self.journal.say(str(why))
                # what is in use is told only where nothing else is wrong
                fault = fault if isinstance(why, Busy) and fault else why
                continue
            try:
                self.dial(line, port, alternate, stack)
                self.talk(line, alternate.chat, values, LoginFailed, secrets_of(alternate.chat, values))
            except SiteError:
                # where there is a session that says it
                self.journal.say(f"Calling system {self.system.name} (port {line.logged})")
                raise
            by = f"alternate {alternate.name}, " if alternate.name else ""
            self.journal.say(f"Login successful ({by}port {line.logged})")
            return line, port
        raise fault or Unavailable(f"system {self.system.name}", "No matching ports", "name a port in the sys file")

    def open(self, port: Port, alternate: Alternate, stack: contextlib.ExitStack) -> Line:
        host, speed = alternate.phone or self.system.name, alternate.speed or port.speed
        escapes = {"Z": self.system.name, "H": alternate.phone or ""}
        return stack.enter_context(open_line(port, host, speed, self.site.locks, escapes))

    def values(self, alternate: Alternate) -> dict[str, bytes]:
        """Returns the escapes of the login chat."""
        values = {"Z": self.system.name.encode(), **values_of(alternate)}
        words = " ".join(alternate.chat.script)
        for letter, keyword in (("L", "call-login"), ("P", "call-password")):
            if f"\\{letter}" in words and letter not in values:
                raise LoginFailed(
                    f"system {self.system.name}",
                    f"the chat has \\{letter}, and there is no {keyword}",
                    "write it into the sys file, or the call file",
                )
        return values

    def talk(self, line: Line, chat: Chat, values: dict[str, bytes], kind: type[SiteError], secrets: list[bytes]) -> None:
        try:
            Talk(line, values, secrets, self.sleep).run(chat)
        except ChatFailed as fault:
            raise kind(line.name, f"chat script failed: {fault}") from fault

    def dialers(self, port: Port) -> Iterator[tuple[Dialer, str | None]]:
        """Yields the dialers of a port, with what each dials: none is the phone number of the system."""
        if port.sequence:
            for name, token in zip(port.sequence[::2], [*port.sequence[1::2], None]):
                yield dialer_named(self.site, name), token
        for dialer in port.dialers:
            yield dialer, dialer.token

    def dial(self, line: Line, port: Port, alternate: Alternate, stack: contextlib.ExitStack) -> None:
        """Has each dialer of the port dial, at the device for that. What resets the first one runs when the line is closed."""
        dials = line
        if port.dial_device:
            device = Port(f"{port.name}, dial-device", device=port.dial_device, hardflow=port.hardflow)
            dials = stack.enter_context(device_line(device, line.speed, self.site.locks))
        for number, (dialer, token) in enumerate(self.dialers(port)):
            has_carrier = line.has_carrier
            line.has_carrier = has_carrier and dialer.carrier
            if dialer.toggles and line.device is not None:
                self.toggle(line, dialer)
            if number == 0:
                stack.push(lambda kind, *_, dialer=dialer: self.reset(line, dialer, kind is None))
            if token in (None, "\\D", "\\T"):
                phone, translates = alternate.phone or "", token == "\\T"
            else:
                phone, translates = token, False
            values = {"D": phone_of(self.site, dialer, phone, translates), "T": phone_of(self.site, dialer, phone, True)}
            self.talk(dials, dialer.chat, values, DialFailed, [])
            line.wait_for_carrier(dialer.carrier_wait)

    def toggle(self, line: Line, dialer: Dialer) -> None:
        with contextlib.suppress(OSError):
            line.device.dtr = False
            self.sleep(1)
            line.device.dtr = True
        if dialer.waits:
            self.sleep(1)

    def reset(self, line: Line, dialer: Dialer, is_complete: bool) -> None:
        """Runs the chat of a dialer for the end of a call. That it fails changes nothing."""
        with contextlib.suppress(ChatFailed, OSError, SiteError):
            line.need_carrier(False)
            Talk(line, {}, sleep=self.sleep).run(dialer.complete if is_complete else dialer.abort)

    def session(self, line: Line, port: Port, alternate: Alternate, span: times.Span) -> bool:
        """Runs the session, and returns whether all went well."""
        slow = line.speed if port.kind in ("modem", "direct") else 0
        # `uuchk` prints it only where the system may call, too
        names = [one.myname for one in (alternate, *self.system.alternates) if one.myname]
        words = words_of_session(self.site, "call", (names or [self.site.me])[0], self.system.name, alternate, line)
        words += options_of(alternate, port, slow) + grade_words(span.grade, alternate.calls_send)
        words += ["-v"] if self.options.debug else []
        asked = self.asked(alternate)
        self.grade = span.grade if alternate.calls_send else ""
        before = self.journal.size()
        # a greeting that is more than the session's own goes through this program
        if asked or alternate.counts or self.system.aliases:
            status = self.relay(words, line, alternate, asked)
        else:
            status = run_session(words, line.reads, line.writes)
        if status == 0:
            return True
        self.is_awaited = 'the other end refused: "RCB"' in self.journal.since(before)
        if self.is_awaited:
            self.journal.say("Remote system will call back")
            times.write_status(self.site.spool, self.system.name, times.Status(times.COMPLETE, 0, int(self.clock())))
        else:
            self.keep_retry(span)
        return self.is_awaited

    def asked(self, alternate: Alternate) -> list[str]:
        """Returns the options by which the system is asked for work of a grade and higher ones."""
        span = times.span_at(alternate.accepts, self.clock())
        return [f"-p{span.grade}", f"-vgrade={span.grade}"] if span else []

    def relay(self, words: list[str], line: Line, alternate: Alternate, asked: list[str]) -> int:
        """Runs a session that hears the system's name where that says an alias, and that says the number of the conversation, and
        what is asked for."""

        def greeting(text: bytes) -> bytes:
            """Returns the text with which the caller greets, and more options behind its name."""
            number = [f"-Q{sequence.next_number(self.site.spool, self.system.name)}"] if alternate.counts else []
            name, *options = text.split(b" ")
            return b" ".join([name, *(one.encode() for one in number + asked), *options])

        status: list[int] = []
        with relayed(words, status) as session:
            if pass_text(line, session, True, self.named) and pass_text(line, session, False, greeting):
                carry(line, session)
        return status[0]

    def named(self, text: bytes) -> bytes:
        """Returns the text with which a called system greets, by its name where it has an alias."""
        aliases = [f"Shere={alias}".encode() for alias in self.system.aliases]
        return f"Shere={self.system.name}".encode() if text in aliases else text

    def keep_retry(self, span: times.Span) -> None:
        """Has the status after a session that failed be Taylor UUCP's: a call that was logged in has failed once, and the retry time
        is that of the configuration."""
        after = times.read_status(self.site.spool, self.system.name)
        if after.code in (times.HANDSHAKE, times.FAILED):
            tries = 1 if after.code == times.FAILED else after.tries
            kept = times.Status(after.code, tries, after.time, times.wait_after(tries, span))
            times.write_status(self.site.spool, self.system.name, kept)


def call_all(site: Site, options: Options, clock: Callable[[], float] = time.time) -> bool:
    """Calls each system that has work and is called at all. Returns whether all went well."""
    done, found = True, False
    for system in site.systems.values():
        if any(one.may_call for one in system.alternates) and jobs_of(site.spool, system.name):
            found = True
            try:
                done &= Caller(site, system, options, clock).call()
            except SiteError as fault:
                Journal(site.log, system.name).fail(fault)
                done = False
    if not found and not options.is_quiet:
        Journal(site.log).say("No work")
    return done
