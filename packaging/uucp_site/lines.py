"""Lines to another system: TCP, a command, a device, and standard input and output. Each is locked while it is used."""
from __future__ import annotations

import contextlib
import errno
import fcntl
import os
import re
import socket
import subprocess
import termios
import time
import tty
from collections.abc import Iterator
from dataclasses import dataclass
from pathlib import Path

import serial

from .configuration import Port
from .faults import Busy, DialFailed, SiteError, Unavailable

CONNECT_SECONDS = 60
# A command that is a line gets so long to end once its line is closed.
END_SECONDS = 5
UUCP_PORT = 540
# The lock files that this process has taken.
TAKEN: set[Path] = set()


@contextlib.contextmanager
def faults_of_terminal() -> Iterator[None]:
    """Has a fault of a terminal be one of the system, as those of other lines."""
    try:
        yield
    except termios.error as fault:
        raise OSError(*fault.args) from fault


@dataclass
class Line:
    """A line that is open: what it reads, what it writes, and its names: in what is said of it, and behind `port` in a log."""

    name: str
    reads: int
    writes: int
    device: Device | None = None
    speed: int = 0
    has_carrier: bool = False
    logged: str = "unknown"

    def write(self, text: bytes) -> None:
        while text:
            text = text[os.write(self.writes, text) :]

    def send_break(self) -> None:
        """Sends a break, where the line is a terminal: other lines have none."""
        if self.device is not None:
            with faults_of_terminal():
                self.device.send_break()

    def forget(self) -> None:
        """Drops what has come and was not read, as the end of the call before."""
        with faults_of_terminal():
            termios.tcflush(self.reads, termios.TCIFLUSH)

    def hang_up(self) -> None:
        """Closes the line: a terminal, or standard input and output, has others that hold it."""
        with contextlib.suppress(OSError, termios.error):
            if os.isatty(self.reads):
                termios.tcflush(self.reads, termios.TCIFLUSH)
                state = termios.tcgetattr(self.reads)
                state[4] = state[5] = termios.B0
                termios.tcsetattr(self.reads, termios.TCSADRAIN, state)
        if self.reads == 0:
            null = os.open(os.devnull, os.O_RDWR)
            os.dup2(null, 0)
            os.dup2(null, 1)

    def need_carrier(self, is_needed: bool) -> None:
        """Has the line end, or not, where the carrier goes. A line that has none, or can't say so, goes on."""
        if self.device is None or not self.has_carrier:
            return
        with faults_of_terminal():
            state = termios.tcgetattr(self.reads)
            state[2] = state[2] & ~termios.CLOCAL if is_needed else state[2] | termios.CLOCAL
            termios.tcsetattr(self.reads, termios.TCSANOW, state)

    def wait_for_carrier(self, seconds: float) -> None:
        """Waits for the carrier, where the device can say whether it is there."""
        if self.device is None or not self.has_carrier:
            return
        until = time.monotonic() + seconds
        try:
            while not self.device.cd:
                if time.monotonic() > until:
                    raise DialFailed(self.name, f"no carrier in {seconds} seconds")
                time.sleep(0.05)
        except OSError as fault:
            if fault.errno not in (errno.ENOTTY, errno.EINVAL):
                raise DialFailed(self.name, fault.strerror or "can't be asked for its carrier") from fault
            return
        self.need_carrier(True)


def holder_of(path: Path) -> int | None:
    """Returns the process that holds a lock file, or none where it is gone. A file that can't be read is held, by process 0."""
    try:
        process = int(path.read_text())
        os.kill(process, 0)
    except (FileNotFoundError, ProcessLookupError):
        return None
    except (OSError, ValueError):
        return 0
    return process


def make_lock(path: Path) -> bool:
    """Returns whether the lock file was made. It is whole as soon as it is there."""
    part = path.with_name(f"{path.name}.{os.getpid()}")
    try:
        part.write_text(f"{os.getpid():10d}\n")
        part.chmod(0o644)
        os.link(part, path)
    except FileExistsError:
        return False
    except OSError as fault:
        raise Unavailable(str(path), fault.strerror or "can't be made", "let the user uucp write there") from fault
    finally:
        with contextlib.suppress(OSError):
            part.unlink()
    return True


def take_lock(path: Path) -> bool:
    """Returns whether the lock was taken. That of a process that is gone is taken over, by one at a time; so is that of an earlier
    process which had the number of this one, as in a container that is started again."""
    if make_lock(path):
        return True
    folder = os.open(path.parent, os.O_RDONLY | os.O_DIRECTORY)
    try:
        fcntl.flock(folder, fcntl.LOCK_EX)
        holder = holder_of(path)
        if holder is not None and (holder != os.getpid() or path in TAKEN):
            return False
        path.unlink(missing_ok=True)
        return make_lock(path)
    finally:
        os.close(folder)


def drop_lock(path: Path) -> None:
    if holder_of(path) == os.getpid():
        path.unlink(missing_ok=True)


@contextlib.contextmanager
def locked(path: Path, what: str) -> Iterator[None]:
    """Holds the lock file of `what`; it is a fault where another process does."""
    if not take_lock(path):
        raise Busy(what, f"is locked by {path} of process {holder_of(path)}")
    TAKEN.add(path)
    try:
        yield
    finally:
        TAKEN.discard(path)
        drop_lock(path)


def device_of(port: Port) -> str:
    name = port.device or port.name
    return name if name.startswith("/") else f"/dev/{name}"


def lock_of(port: Port, locks: Path) -> Path | None:
    """Returns the lock file of a port. Only a device has one."""
    if port.kind not in ("modem", "direct"):
        return None
    return locks / (port.lock or f"LCK..{os.path.basename(os.path.realpath(device_of(port)))}")


class Device(serial.Serial):
    """A device of which nothing is dropped that it has said before it was opened, as a prompt."""

    def _reset_input_buffer(self) -> None:
        pass


def open_device(path: str, port: Port, speed: int) -> Device:
    """Opens a device with its speed and flow control, for this process alone. Speed 0 leaves it as it is."""
    try:
        device = Device(None, rtscts=port.hardflow, exclusive=True)
        device.port = path
        if speed:
            device.baudrate = speed
        else:
            device.baudrate = speed_of(path)
        device.open()
    except (OSError, ValueError) as fault:
        raise Unavailable(
            f"port {port.name} ({path})",
            getattr(fault, "strerror", None) or str(fault),
            "check the device, its rights and its speed in the port file",
        ) from fault
    os.set_blocking(device.fileno(), True)
    return device


def speed_of(path: str) -> int:
    """Returns the speed that a device has now; 9600 where it has none."""
    file = os.open(path, os.O_RDWR | os.O_NOCTTY | os.O_NONBLOCK)
    try:
        code = termios.tcgetattr(file)[5]
    except termios.error:
        return 9600
    finally:
        os.close(file)
    return next((speed for speed in serial.Serial.BAUDRATES if getattr(termios, f"B{speed}", None) == code and speed), 9600)


@contextlib.contextmanager
def device_line(port: Port, speed: int, locks: Path) -> Iterator[Line]:
    path = device_of(port)
    lock = lock_of(port, locks)
    assert lock is not None
    with locked(lock, f"port {port.name}"):
        device = open_device(path, port, speed)
        try:
            name, file = path.removeprefix("/dev/"), device.fileno()
            yield Line(f"port {port.name}", file, file, device, device.baudrate, port.carrier, name)
        finally:
            device.close()


@contextlib.contextmanager
def tcp_line(port: Port, host: str) -> Iterator[Line]:
    service = service_of(port.service)
    family = {"4": socket.AF_INET, "6": socket.AF_INET6}.get(port.version, socket.AF_UNSPEC)
    where = f"port {port.name} ({host}, {service})"
    try:
        found = socket.getaddrinfo(host, service, family, socket.SOCK_STREAM)
    except OSError as fault:
        raise DialFailed(where, fault.strerror or "unknown host", "check the address in the sys file") from fault
    connection, why = None, "no address"
    for kind, _, protocol, _, address in found:
        connection = socket.socket(kind, socket.SOCK_STREAM, protocol)
        connection.settimeout(CONNECT_SECONDS)
        try:
            connection.connect(address)
            break
        except OSError as fault:
            why = fault.strerror or "timed out"
            connection.close()
            connection = None
    if connection is None:
        raise DialFailed(where, why)
    with connection:
        connection.settimeout(None)
        connection.setsockopt(socket.IPPROTO_TCP, socket.TCP_NODELAY, 1)
        yield Line(f"port {port.name}", connection.fileno(), connection.fileno(), logged="TCP")


def service_of(name: str) -> int:
    """Returns the number of a TCP service; that of uucp where the system knows none of this name."""
    with contextlib.suppress(OSError, ValueError):
        return int(name) if name.isdigit() else socket.getservbyname(name, "tcp")
    if name == "uucp":
        return UUCP_PORT
    raise SiteError(f"service {name}", "not found", "write its number into the port file")


@contextlib.contextmanager
def pipe_line(port: Port, escapes: dict[str, str]) -> Iterator[Line]:
    """Runs a command, whose standard input and output are the line, and ends it."""
    ours, theirs = socket.socketpair()
    words = [re.sub(r"\\([A-Z])", lambda found: escapes.get(found[1], found[0]), word) for word in port.command]
    with ours, theirs:
        try:
            command = subprocess.Popen(words, stdin=theirs, stdout=theirs, start_new_session=True)
        except OSError as fault:
            raise Unavailable(
                f"port {port.name} ({words[0] if words else ''})",
                fault.strerror or "can't be run",
                "correct `command` in the port file",
            ) from fault
        theirs.close()
        try:
            yield Line(f"port {port.name}", ours.fileno(), ours.fileno(), logged=port.name)
        finally:
            ours.close()
            end(command)


def end(command: subprocess.Popen[bytes]) -> None:
    """Has a command END_SECONDS to end by itself, and then ends it."""
    for stop in (lambda: None, command.terminate, command.kill):
        stop()
        with contextlib.suppress(subprocess.TimeoutExpired):
            command.wait(END_SECONDS)
            return


def name_of_standard() -> str:
    """Returns what Taylor UUCP's log calls standard input: its terminal, where it is one."""
    with contextlib.suppress(OSError):
        return os.ttyname(0).removeprefix("/dev/")
    return "stdin"


@contextlib.contextmanager
def standard_line() -> Iterator[Line]:
    """Standard input and output. A terminal is raw while it is used."""
    with faults_of_terminal():
        state = termios.tcgetattr(0) if os.isatty(0) else None
        if state:
            tty.setraw(0)
    try:
        yield Line("port stdin", 0, 1, logged=name_of_standard())
    finally:
        if state:
            with contextlib.suppress(termios.error):
                termios.tcsetattr(0, termios.TCSADRAIN, state)


def open_line(port: Port, host: str, speed: int, locks: Path, escapes: dict[str, str]) -> contextlib.AbstractContextManager[Line]:
    """Returns the line of a port, to be entered."""
    if port.kind in ("modem", "direct"):
        return device_line(port, speed, locks)
    if port.kind == "tcp":
        return tcp_line(port, host)
    if port.kind == "pipe":
        return pipe_line(port, escapes)
    if port.kind == "stdin":
        return standard_line()
    raise Unavailable(f"port {port.name}", f"type {port.kind} can't be used here", "use tcp, pipe, direct, modem or stdin")
