#!/usr/bin/python3
"""packaging/uucico in the place of Taylor UUCP's: the configuration of Debian's package `uucp`, honoured in both directions.

    tests/site.py [PROGRAM [SCENE..]]

Two nodes, alpha and beta, each with its own configuration and spool. One has packaging/uucico, the other Debian's uucico, or the
same. Lines are TCP, commands, pseudo-terminals, and a modem that is a script. PROGRAM is crates/uucpair/out/uucpair where none is
named; a scene is a function of this file that begins with `scene_`. It needs root, and Debian's packages uucp, socat,
python3-serial and python3-pexpect. The last line counts the rows, and the status is 1 where one failed. CUTS (6) is how many
calls of a trial are cut, and KEEP=1 leaves the folders.
"""
from __future__ import annotations

import concurrent.futures
import contextlib
import os
import pwd
import random
import re
import shutil
import signal
import socket
import subprocess
import sys
import tempfile
import time
from collections.abc import Callable, Iterator
from pathlib import Path

ROOT = Path(__file__).resolve().parent.parent
UUCICO = "/usr/lib/uucp/uucico"
CLEAN = {"PATH": "/usr/sbin:/usr/bin:/sbin:/bin", "LC_ALL": "C"}
SECRET = "xYzzy-9"
SIDE_BY_SIDE = 4
CUTS = int(os.environ.get("CUTS", "6"))
USER = pwd.getpwnam("uucp") if any(one.pw_name == "uucp" for one in pwd.getpwall()) else None
Row = tuple[str, bool]


def as_uucp(words: list[str], **kept) -> subprocess.Popen:
    return subprocess.Popen(
        words, cwd="/", user="uucp", group="uucp", extra_groups=[], env={**CLEAN, **kept.pop("env", {})}, **kept
    )


def wait_until(condition: Callable[[], object], seconds: float = 20) -> bool:
    until = time.monotonic() + seconds
    while not condition():
        if time.monotonic() > until:
            return False
        time.sleep(0.02)
    return True


def free_port() -> int:
    with socket.socket() as door:
        door.bind(("127.0.0.1", 0))
        return door.getsockname()[1]


def listens(port: int) -> bool:
    lines = Path("/proc/net/tcp").read_text().splitlines()[1:] + Path("/proc/net/tcp6").read_text().splitlines()[1:]
    return any(line.split()[1].endswith(f":{port:04X}") and line.split()[3] == "0A" for line in lines)


def text_of(path: Path) -> str:
    try:
        return path.read_text(errors="backslashreplace")
    except OSError:
        return ""


class Node:
    """A system with a configuration of Taylor UUCP, a spool, and a stand-in for `rmail`."""

    def __init__(self, folder: Path, name: str, scripts: Path) -> None:
        self.folder, self.name, self.scripts = folder / name, name, scripts
        for part in ("spool", "pub", "log", "lock", "bin"):
            (self.folder / part).mkdir(parents=True)
        self.config = self.folder / "config"
        names = {
            "spool": "spool",
            "pubdir": "pub",
            "lockdir": "lock",
            "logfile": "log/Log",
            "statfile": "log/Stats",
            "debugfile": "log/Debug",
            **{f"{kind}file": kind for kind in ("sys", "port", "dial", "call", "passwd")},
        }
        self.put("config", f"nodename {name}\n" + "".join(f"{key} {self.folder / value}\n" for key, value in names.items()))
        self.put("bin/rmail", f"#!/bin/sh\n/bin/cat >>{self.folder}/mails\n")
        (self.folder / "bin/rmail").chmod(0o755)
        self.put("mails", "")
        for kind in ("sys", "port", "dial", "call", "passwd"):
            self.put(kind, "")
        (self.folder / "pub").chmod(0o777)
        shutil.chown(self.folder, "uucp", "uucp")
        for path in self.folder.rglob("*"):
            shutil.chown(path, "uucp", "uucp")

    def put(self, kind: str, text: str) -> None:
        path = self.folder / kind
        path.write_text(text)
        if kind in ("call", "passwd"):
            path.chmod(0o600)
        if path.stat().st_uid != USER.pw_uid:
            shutil.chown(path, "uucp", "uucp")

    def knows(self, other: str, *lines: str) -> None:
        """Adds a system that may run rmail here, with these lines."""
        words = [f"system {other}", *lines, "commands rmail", f"command-path {self.folder}/bin"]
        self.put("sys", text_of(self.folder / "sys") + "\n".join(words) + "\n")

    def mail(self, other: str, text: str, *options: str) -> None:
        words = ["uux", "-I", str(self.config), "-r", "-n", "-z", *options, "-", f"{other}!rmail", "(user)"]
        with as_uucp(words, stdin=subprocess.PIPE) as queue:
            queue.communicate(f"{text}\n".encode())

    def queued(self, other: str) -> int:
        return len(list((self.folder / "spool" / other / "C.").glob("C.*")))

    def mails(self) -> list[str]:
        as_uucp(["/usr/sbin/uuxqt", "-I", str(self.config)]).wait()
        return sorted(text_of(self.folder / "mails").split())

    def log(self) -> str:
        return text_of(self.folder / "log/Log")

    def status(self, other: str) -> list[str]:
        return text_of(self.folder / "spool/.Status" / other).split()

    def locks(self) -> list[str]:
        return sorted(path.name for path in (self.folder / "lock").iterdir())

    def everything(self) -> str:
        """Returns all that this node has written but its configuration and what it queues."""
        return self.log() + text_of(self.folder / "log/Debug") + text_of(self.folder / "log/Stats")

    def words(self, who: str, *options: str) -> list[str]:
        return [str(self.scripts / "uucico") if who == "ours" else UUCICO, "-I", str(self.config), *options]

    def run(self, who: str, *options: str, seconds: float = 60) -> int:
        """Runs `ours` or `taylor`, and returns its status."""
        with as_uucp(
            self.words(who, "-D", *options),
            stdin=subprocess.DEVNULL,
            stdout=subprocess.DEVNULL,
            stderr=(self.folder / "log/stderr").open("ab"),
        ) as call:
            try:
                return call.wait(seconds)
            except subprocess.TimeoutExpired:
                call.kill()
                return 124


class Scene:
    """The folder, the nodes and the helpers of a scene."""

    def __init__(self, folder: Path, scripts: Path) -> None:
        self.folder, self.helpers, self.rows = folder, [], []
        self.alpha, self.beta = Node(folder, "alpha", scripts), Node(folder, "beta", scripts)

    def row(self, name: str, is_so: object) -> None:
        self.rows.append((name, bool(is_so)))

    def helper(self, words: list[str], **kept) -> subprocess.Popen:
        one = as_uucp(
            words,
            start_new_session=True,
            stdout=kept.pop("stdout", subprocess.DEVNULL),
            stderr=(self.folder / "helpers").open("ab"),
            **kept,
        )
        self.helpers.append(one)
        return one

    def end(self) -> None:
        for one in self.helpers:
            with contextlib.suppress(ProcessLookupError):
                os.killpg(one.pid, signal.SIGKILL)
            one.wait()

    def serve(self, node: Node, who: str, *options: str, kind: str = "") -> int:
        """Answers at a TCP port, as inetd does, each call by `who` of a node. Returns the port."""
        port = free_port()
        script = self.folder / f"serve-{port}"
        script.write_text("#!/bin/sh\nexec " + " ".join(node.words(who, *options)) + f" {kind or '2>/dev/null'}\n")
        script.chmod(0o755)
        self.helper(["socat", f"TCP-LISTEN:{port},reuseaddr,fork,bind=127.0.0.1", f"EXEC:{script}"])
        wait_until(lambda: listens(port))
        return port

    def terminal(self, node: Node, who: str, *options: str) -> Path:
        """Makes a device at whose other end is a terminal, at which `who` of a node asks for a login."""
        device = self.folder / f"tty{len(self.helpers)}"
        script = self.folder / f"serve-{device.name}"
        script.write_text("#!/bin/sh\nexec " + " ".join(node.words(who, *options)) + " 2>/dev/null\n")
        script.chmod(0o755)
        self.helper(["socat", "-t", "5", f"PTY,link={device},raw,echo=0", f"EXEC:{script},pty,raw,echo=0"])
        wait_until(device.exists)
        return device

    def modem(self, answers: str, *command: str) -> Path:
        """Makes a device at which a modem hears commands: `answers` has what it says to ATDT. With CONNECT it runs the command."""
        device, script = self.folder / f"modem{len(self.helpers)}", self.folder / f"modem-{len(self.helpers)}"
        script.write_text(MODEM.format(told=self.folder / "told", answers=answers, command=" ".join(command)))
        script.chmod(0o755)
        self.helper(["socat", "-t", "5", f"PTY,link={device},raw,echo=0", f"EXEC:{script}"])
        wait_until(device.exists)
        return device

    def both_ways(self, name: str, caller: str, *options: str, tell: Callable[[], str] = str) -> None:
        """Alpha calls beta by `caller`, with a mail each way: each comes once, nothing stays queued, and no lock."""
        self.alpha.mail("beta", "from-alpha")
        self.beta.mail("alpha", "from-beta")
        status = self.alpha.run(caller, *options, "-q", "-s", "beta")
        wait_until(lambda: not self.beta.locks(), 5)
        self.row(f"{name}: the call is done", status == 0)
        self.row(f"{name}: each mail came once", (self.alpha.mails(), self.beta.mails()) == (["from-beta"], ["from-alpha"]))
        self.row(
            f"{name}: nothing is queued, no lock is left",
            not (self.alpha.queued("beta") or self.beta.queued("alpha") or self.alpha.locks() or self.beta.locks()),
        )
        self.row(f"{name}: the status is that of a call that is done", self.alpha.status("beta")[:1] == ["0"])


# asks for a login and a password at a terminal that echoes the one, and then is uucico
LOGIN = r"""#!/usr/bin/python3
import os, sys
def said(text):
    os.write(1, text)
def heard(echoes):
    word = b""
    while (byte := os.read(0, 1)) not in (b"\r", b""):
        word += byte
        said(byte if echoes else b"")
    return word
said(b"Debian GNU/Linux 12\r\n\r\nbeta login: ")
name = heard(True)
said(b"\r\nPassword: ")
word = heard(False)
if not {check}:
    said(b"\r\nLogin incorrect " + word)
    sys.stdin.read()
said(b"\r\n{last}\r\n")
os.dup2(os.open(os.devnull, os.O_WRONLY), 2)
os.execv({command}[0], {command})
"""
MODEM = r"""#!/bin/bash
# a modem: it echoes what it is told, and answers ATZ, ATDT and what hangs up
while IFS= read -r -d $'\r' told; do
    echo "$told" >>{told}
    printf '%s\r\n' "$told"
    case $told in
    *ATDT*)
        printf '{answers}\r\n'
        case '{answers}' in *CONNECT*) {command} 2>/dev/null ; printf 'NO CARRIER\r\n' ;; esac
        ;;
    *AT*) printf 'OK\r\n' ;;
    esac
done
"""
CHATS = ("chat ogin: \\L word: \\P", "chat-timeout 10", "call-login *", "call-password *")
DIALER = (
    'dialer hayes\nchat "" ATZ OK ATDT\\T CONNECT\nchat-timeout 10\nchat-fail BUSY\nchat-fail NO\\sCARRIER\ncarrier false\n'
    "complete-chat CARRIER +++ATH0\nabort ATH0\n"
)


def with_login(scene: Scene, port: int, **more: str) -> None:
    """Alpha calls beta at a TCP port, where a login is asked for; beta lets alpha in by Ualpha."""
    scene.alpha.knows(
        "beta",
        "time any",
        "port type tcp",
        f"port service {port}",
        "address 127.0.0.1",
        *CHATS,
        *(line for line in more.get("lines", "").split("\n") if line),
    )
    scene.alpha.put("call", f"beta Ualpha {more.get('password', SECRET)}\n")


def lets_in(node: Node, *lines: str) -> None:
    node.knows("alpha", "called-login Ualpha", *lines)
    node.put("passwd", f"Uother other\nUalpha {SECRET}\n")


PEERS = (("ours", "taylor"), ("taylor", "ours"), ("ours", "ours"))


def scene_tcp_login(scene: Scene, caller: str, called: str) -> None:
    lets_in(scene.beta)
    with_login(scene, scene.serve(scene.beta, called, "-l", "-q"))
    scene.both_ways(f"tcp, {caller} calls {called}", caller)
    named = scene.alpha.log().count("Calling system beta (port TCP)") == 1
    scene.row(f"tcp, {caller} calls {called}: its log names the port", named)
    scene.row(f"tcp, {caller} calls {called}: so do its statistics", "on port TCP" in text_of(scene.alpha.folder / "log/Stats"))


def scene_terminal_login(scene: Scene, caller: str, called: str) -> None:
    """A login at a terminal, at the other end of a direct line."""
    lets_in(scene.beta)
    device = scene.terminal(scene.beta, called, "-l", "-q")
    at_device(scene.alpha, device)
    scene.both_ways(f"a terminal, {caller} calls {called}", caller)


def at_device(node: Node, device: Path, kind: str = "direct", *lines: str) -> None:
    node.put(
        "port",
        f"port line\ntype {kind}\ndevice {device}\nspeed 9600\ncarrier false\nhardflow false\n"
        + "".join(f"{one}\n" for one in lines),
    )
    node.knows("beta", "time any", "port line", "phone 555-1234", *CHATS)
    node.put("call", f"beta Ualpha {SECRET}\n")


def scene_login_like(scene: Scene) -> None:
    """A peer as `login`: it echoes, says that a first login was wrong, prints a banner, and then runs uucico."""
    script = scene.folder / "login"
    script.write_text(
        LOGIN.format(
            check=f"(name, word) == (b'Ualpha', b'{SECRET}')",
            last="Last login: today",
            command=[*scene.beta.words("taylor", "-q", "-u", "Ualpha")],
        )
    )
    script.chmod(0o755)
    scene.beta.knows("alpha", "called-login ANY")
    device = scene.folder / "tty"
    scene.helper(["socat", "-t", "5", f"PTY,link={device},raw,echo=0", f"EXEC:{script},pty,raw,echo=0"])
    wait_until(device.exists)
    at_device(scene.alpha, device)
    scene.both_ways("a peer like login", "ours")


def scene_modem(scene: Scene, caller: str) -> None:
    lets_in(scene.beta)
    device = scene.modem("CONNECT 9600", *scene.beta.words("taylor" if caller == "ours" else "ours", "-l", "-q"))
    scene.alpha.put("dial", DIALER)
    at_device(scene.alpha, device, "modem", "dialer hayes")
    scene.both_ways(f"a modem, {caller} calls", caller)
    reset, dial, end = (scene.folder / "told").read_bytes().splitlines()
    # the last packets of a caller may come when the end that was called has gone
    scene.row(
        f"a modem, {caller} calls: it was told to reset, to dial and to hang up",
        (reset, dial) == (b"ATZ", b"ATDT555,1234") and end.endswith(b"+++ATH0"),
    )


def scene_modem_fails(scene: Scene, word: str) -> None:
    """A modem that does not connect: the log has its word, and the next call has to wait."""
    device = scene.modem(word.replace("_", " "))
    scene.alpha.put("dial", DIALER)
    at_device(scene.alpha, device, "modem", "dialer hayes")
    scene.alpha.mail("beta", "waits")
    status = scene.alpha.run("ours", "-q", "-s", "beta")
    scene.row(f"{word}: the call failed, and the mail waits", status == 1 and scene.alpha.queued("beta") == 1)
    scene.row(
        f"{word}: the log has it", word.replace("_", " ") in scene.alpha.log() and "chat script failed" in scene.alpha.log()
    )
    scene.row(
        f"{word}: Dial failed",
        scene.alpha.status("beta")[:2] == ["2", "1"] and scene.alpha.status("beta")[3:6] == ["600", "Dial", "failed"],
    )
    scene.row(f"{word}: the modem is told to hang up", (scene.folder / "told").read_text().split()[-1] == "ATH0")
    scene.row(f"{word}: no lock is left", not scene.alpha.locks())


def scene_dial_device(scene: Scene) -> None:
    """A modem that is dialed at another device than that of the call: both are locked."""
    lets_in(scene.beta)
    dials, device = scene.modem("CONNECT 9600", "true"), scene.terminal(scene.beta, "taylor", "-l", "-q")
    scene.alpha.put("dial", DIALER.replace("complete-chat", "# "))
    at_device(scene.alpha, device, "modem", "dialer hayes", f"dial-device {dials}")
    scene.alpha.put("sys", text_of(scene.alpha.folder / "sys").replace("chat ogin:", 'chat "" \\r\\c ogin:'))
    name = f"LCK..{dials.resolve().name}"
    scene.alpha.put(f"lock/{name}", f"{os.getpid():10d}\n")
    scene.row("a dial device that is locked", scene.alpha.run("ours", "-q", "-S", "beta") == 1 and scene.alpha.locks() == [name])
    scene.row("nothing is told to it then", not (scene.folder / "told").exists())
    (scene.alpha.folder / "lock" / name).unlink()
    scene.both_ways("a dial device", "ours", "-f")
    scene.row("it was told to dial", (scene.folder / "told").read_text().split() == ["ATZ", "ATDT555,1234"])


def scene_pipe(scene: Scene, caller: str) -> None:
    """A command is the line, as ssh would be: \\Z is the system, and \\H its address."""
    script = scene.folder / "ssh"
    called = "taylor" if caller == "ours" else "ours"
    script.write_text(f'#!/bin/sh\n[ "$*" = "-T 127.0.0.9" ] && exec {" ".join(scene.beta.words(called, "-q"))}\n')
    script.chmod(0o755)
    scene.beta.knows("alpha")
    scene.alpha.knows("beta", "time any", "port type pipe", f"port command {script} -T \\H", "address 127.0.0.9", 'chat ""')
    scene.both_ways(f"a pipe, {caller} calls", caller)


def scene_settings(scene: Scene) -> None:
    """`myname` is the name that a system hears; the packet size, the window and the public folder are those of the system."""
    scene.beta.knows("other")
    folder = scene.alpha.folder / "elsewhere"
    folder.mkdir()
    folder.chmod(0o777)
    command = f"port command {' '.join(scene.beta.words('taylor', '-q'))}"
    parameters = ("protocol-parameter g packet-size 512", "protocol-parameter g window 3")
    scene.alpha.knows("beta", "time any", 'chat ""', "port type pipe", command, "myname other", f"pubdir {folder}", *parameters)
    (scene.beta.folder / "pub/there").write_text("there\n")
    as_uucp(["uucp", "-I", str(scene.beta.config), "-r", f"{scene.beta.folder}/pub/there", "other!~/here"]).wait()
    scene.row("the call by another name is done", scene.alpha.run("ours", "-q", "-s", "beta") == 0)
    scene.row("myname", "uucico other - " in scene.beta.log())
    scene.row("packet-size and window", "sending packet/window 512/3" in scene.beta.log())
    scene.row("pubdir", text_of(folder / "here") == "there\n")


def scene_alternates(scene: Scene) -> None:
    """The first alternate is busy, the second refuses, the third's first port is locked: its second one connects."""
    lets_in(scene.beta)
    busy, good = scene.modem("BUSY"), scene.modem("CONNECT", *scene.beta.words("taylor", "-l", "-q"))
    scene.alpha.put("dial", DIALER)
    both = "type modem\nspeed 9600\ncarrier false\nhardflow false\ndialer hayes\n"
    scene.alpha.put(
        "port",
        f"port busy\n{both}device {busy}\nport two\n{both}device {busy}\nlockname LCK..held\nport two\n{both}device {good}\n",
    )
    scene.alpha.knows(
        "beta",
        "time any",
        "port busy",
        "phone 1",
        *CHATS,
        "alternate refuses",
        "port type tcp",
        f"port service {free_port()}",
        "address 127.0.0.1",
        "alternate",
        "port two",
        "phone 2",
    )
    scene.alpha.put("call", f"beta Ualpha {SECRET}\n")
    scene.alpha.put("lock/LCK..held", f"{os.getpid():10d}\n")
    scene.alpha.mail("beta", "by-the-third")
    status = scene.alpha.run("ours", "-q", "-s", "beta")
    scene.row("alternates: the third is called", status == 0 and scene.beta.mails() == ["by-the-third"])
    scene.row(
        "alternates: the log has all that failed",
        "BUSY" in scene.alpha.log() and "refused" in scene.alpha.log() and "locked" in scene.alpha.log(),
    )
    scene.row("alternates: the lock of another stays", scene.alpha.locks() == ["LCK..held"])
    scene.row(
        "alternates: the numbers",
        [one for one in (scene.folder / "told").read_text().split() if "DT" in one] == ["ATDT1", "ATDT2"],
    )


def scene_try_next(scene: Scene) -> None:
    """Where a session fails the next alternate is called only with -z."""
    closed = scene.folder / "closes"
    closed.write_text("#!/bin/sh\nexit 0\n")
    closed.chmod(0o755)
    scene.beta.knows("alpha")
    good = " ".join(scene.beta.words("taylor", "-q"))
    scene.alpha.knows(
        "beta",
        "time any 45",
        'chat ""',
        "port type pipe",
        f"port command {closed}",
        "alternate",
        "port type pipe",
        f"port command {good}",
    )
    scene.alpha.mail("beta", "next")
    scene.row(
        "without -z one alternate is called", scene.alpha.run("ours", "-q", "-S", "beta") == 1 and scene.alpha.queued("beta") == 1
    )
    scene.row("a session that failed waits as long as `time` says", scene.alpha.status("beta")[3:4] == ["2700"])
    scene.row(
        "with -z the next one, too", scene.alpha.run("ours", "-q", "-z", "-S", "beta") == 0 and scene.beta.mails() == ["next"]
    )


TODAY = (time.localtime().tm_wday + 1) % 7
# All days but yesterday, today and tomorrow, as midnight may come.
DAYS_AWAY = ",".join(("Su", "Mo", "Tu", "We", "Th", "Fr", "Sa")[(TODAY + later) % 7] for later in (2, 3, 4, 5))


def scene_times(scene: Scene) -> None:
    """`time` says when; -S does not change that, as at Taylor UUCP. Debian's uucico does the same in each row."""
    scene.beta.knows("alpha")
    command = " ".join(scene.beta.words("taylor", "-q"))
    for line, calls in (
        ("time Never", False),
        (f"time {DAYS_AWAY}", False),
        ("time Any", True),
        (f"time {DAYS_AWAY}\ntime Any", True),
        ("timegrade C Any", True),
    ):
        scene.alpha.put("log/Log", "")
        for who in ("taylor", "ours"):
            scene.alpha.put("sys", "")
            scene.alpha.knows("beta", line, 'chat ""', "port type pipe", f"port command {command}")
            before = scene.alpha.log().count("Call complete")
            status = scene.alpha.run(who, "-q", "-S", "beta")
            called = scene.alpha.log().count("Call complete") > before
            scene.row(f"{line!r}, {who}: called {calls}", called == calls == (status == 0))
        scene.row(f"{line!r}: the log says why not", calls or scene.alpha.log().count("Wrong time to call") == 2)


def scene_grades(scene: Scene) -> None:
    """Without a name, or with -C, a system is called only for a job of a grade that the time allows. Debian's uucico does the same."""
    scene.beta.knows("alpha")
    scene.alpha.knows(
        "beta", "timegrade C Any", 'chat ""', "port type pipe", f"port command {' '.join(scene.beta.words('taylor', '-q'))}"
    )
    scene.alpha.mail("beta", "low", "-gN")
    for who in ("taylor", "ours"):
        scene.alpha.put("log/Log", "")
        for words in (["-r1"], ["-C", "-s", "beta"]):
            scene.row(f"a job of a low grade is no reason to call, {who}, {words}", scene.alpha.run(who, "-q", *words) == 0)
        scene.row(f"there is no work, {who}", scene.alpha.log().count("No work") == 2 and scene.alpha.queued("beta") == 1)
    scene.alpha.mail("beta", "high", "-gA")
    scene.row("one of a high grade is", scene.alpha.run("ours", "-q", "-r1", "-f") == 0 and scene.beta.mails() == ["high"])


def scene_work_of_grades(scene: Scene, caller: str, called: str) -> None:
    """Which jobs go in a call: those of the grades that the one end has at this time, or that the other asks for."""
    command = " ".join(scene.beta.words(called, "-q"))
    for at_alpha, at_beta, left in (
        ("timegrade C Any", "", ("low", "")),
        ("call-timegrade C Any", "", ("", "low")),
        ("", "called-timegrade C Any", ("", "low")),
        ("call-timegrade C Any", "called-timegrade N Any", ("", "")),
        ("call-transfer false", "", ("high low", "")),
        ("", "called-transfer false", ("", "high low")),
        ("", "call-transfer false", ("", "")),
    ):
        for node in (scene.alpha, scene.beta):
            shutil.rmtree(node.folder / "spool", ignore_errors=True)
            (node.folder / "spool").mkdir()
            shutil.chown(node.folder / "spool", "uucp", "uucp")
            node.put("mails", "")
            node.put("sys", "")
        when = [] if at_alpha.startswith("timegrade") else ["time any"]
        scene.alpha.knows("beta", *when, 'chat ""', "port type pipe", f"port command {command}", *([at_alpha] if at_alpha else []))
        scene.beta.knows("alpha", *([at_beta] if at_beta else []))
        for node, other in ((scene.alpha, "beta"), (scene.beta, "alpha")):
            node.mail(other, "low", "-gN")
            node.mail(other, "high", "-gA")
        status = scene.alpha.run(caller, "-q", "-s", "beta")
        wait_until(lambda: not scene.beta.locks(), 5)
        came = tuple(" ".join(node.mails()) for node in (scene.beta, scene.alpha))
        wanted = tuple({"": "high low", "low": "high", "high low": ""}[one] for one in left)
        queued = (scene.alpha.queued("beta"), scene.beta.queued("alpha"))
        name = f"{at_alpha!r}, {at_beta!r}, {caller} calls {called}"
        scene.row(f"{name}: what came: {came}", status == 0 and came == wanted)
        scene.row(f"{name}: the rest waits: {queued}", queued == tuple(len(one.split()) for one in left))


def empty_public(node: Node, *folders: str) -> None:
    """Makes the public folder of a node anew, with these folders in it."""
    shutil.rmtree(node.folder / "pub", ignore_errors=True)
    for name in ("", *folders):
        path = node.folder / "pub" / name
        path.mkdir()
        path.chmod(0o777)
        shutil.chown(path, "uucp", "uucp")


def know_anew(scene: Scene, command: str, rules: dict[str, list[str]]) -> None:
    """Makes each node know the other one alone, with these lines: alpha calls beta by this command."""
    for node in (scene.alpha, scene.beta):
        node.put("sys", "")
    scene.alpha.knows("beta", "time any", "protocol g", 'chat ""', "port type pipe", f"port command {command}", *rules["alpha"])
    scene.beta.knows("alpha", "protocol g", *rules["beta"])


def scene_folders(scene: Scene, who: str, role: str) -> None:
    """`remote-send`, `remote-receive`: the last folder of a list that has a file decides whether it is given, or taken."""
    ours, other = (scene.alpha, scene.beta) if role == "calls" else (scene.beta, scene.alpha)
    command = " ".join(scene.beta.words(who if role == "answers" else "taylor", "-q"))
    for folders, are_open in (
        ("", ["", "in", "shut"]),
        ("~ !~/shut", ["", "in"]),
        ("!~/shut ~", ["", "in", "shut"]),
        ("~/in", ["in"]),
        (f"{ours.folder}/pub/in", ["in"]),
        ("/ !~ ~/in", ["in"]),
        ("/nowhere", []),
    ):
        rules = {ours.name: [f"{keyword} {folders}" for keyword in ("remote-send", "remote-receive") if folders], other.name: []}
        know_anew(scene, command, rules)
        empty_public(ours, "in", "shut")
        empty_public(other)
        (other.folder / "pub/file").write_text("text\n")
        for name in ("", "in", "shut"):
            (ours.folder / "pub" / name / "x").write_text("text\n")
            for words in (
                (f"{ours.name}!{Path('~', name, 'x')}", f"~/asked-{name}"),
                (f"{other.folder}/pub/file", f"{ours.name}!{Path('~', name, 'sent')}"),
            ):
                as_uucp(["uucp", "-I", str(other.config), "-r", *words]).wait()
        other.put("log/Log", "")
        status = scene.alpha.run(who if role == "calls" else "taylor", "-q", "-S", "beta")
        wait_until(lambda: not scene.beta.locks(), 5)
        given = [name for name in ("", "in", "shut") if (other.folder / "pub" / f"asked-{name}").exists()]
        taken = [name for name in ("", "in", "shut") if (ours.folder / "pub" / name / "sent").exists()]
        name = f"{folders!r}, {who} {role}"
        scene.row(f"{name}: the call is done", status == 0)
        scene.row(f"{name}: given: {given}", given == are_open)
        scene.row(f"{name}: taken: {taken}", taken == are_open)
        scene.row(f"{name}: nothing is queued", not other.queued(ours.name))
        denied = other.log().count("permission denied by remote") + other.log().count("no such file")
        scene.row(f"{name}: the other hears of each that is refused: {denied}", denied == 2 * (3 - len(are_open)))


def scene_elsewhere(scene: Scene, who: str, role: str) -> None:
    """Files are given from, and taken into, a listed folder outside the public folder, here on another disk."""
    ours, other = (scene.alpha, scene.beta) if role == "calls" else (scene.beta, scene.alpha)
    command = " ".join(scene.beta.words(who if role == "answers" else "taylor", "-q"))
    disk = ours.folder / "disk"
    disk.mkdir()
    subprocess.run(["mount", "-t", "tmpfs", "none", disk], check=True)
    try:
        for folders, is_given, is_below_given in (
            ("~", False, False),
            (f"~ {disk}/ftp", True, True),
            (f"{disk}/ftp/", True, True),
            (f"{disk}/ftp !{disk}/ftp/in", True, False),
            (f"~ {disk}/ftp/in", False, True),
        ):
            rules = {ours.name: [f"{keyword} {folders}" for keyword in ("remote-send", "remote-receive")], other.name: []}
            know_anew(scene, command, rules)
            empty_public(ours)
            empty_public(other)
            (other.folder / "pub/file").write_text("text\n")
            shutil.rmtree(disk / "ftp", ignore_errors=True)
            for folder in ("ftp", "ftp/in"):
                (disk / folder).mkdir()
                (disk / folder).chmod(0o777)
                (disk / folder / "x").write_text("text\n")
                for words in (
                    (f"{ours.name}!{disk}/{folder}/x", f"~/asked-{Path(folder).name}"),
                    (f"{other.folder}/pub/file", f"{ours.name}!{disk}/{folder}/sent"),
                    (f"{other.folder}/pub/file", f"{ours.name}!{disk}/{folder}/"),
                ):
                    as_uucp(["uucp", "-I", str(other.config), "-r", *words]).wait()
            other.put("log/Log", "")
            status = scene.alpha.run(who if role == "calls" else "taylor", "-q", "-S", "beta")
            wait_until(lambda: not scene.beta.locks(), 5)
            name = f"{folders.replace(str(disk), '')!r}, {who} {role}"
            scene.row(f"{name}: the call is done", status == 0)
            for folder, is_open in (("ftp", is_given), ("ftp/in", is_below_given)):
                asked = text_of(other.folder / "pub" / f"asked-{Path(folder).name}")
                sent = [text_of(disk / folder / name) for name in ("sent", "file")]
                there = sorted(path.name for path in (disk / folder).iterdir() if path.is_file())
                scene.row(f"{name}: {folder}: given: {asked!r}", asked == "text\n" * is_open)
                scene.row(f"{name}: {folder}: taken: {sent}", sent == ["text\n" * is_open] * 2)
                scene.row(f"{name}: {folder}: nothing else is there: {there}", there == ["file", "sent", "x"] if is_open else ["x"])
            scene.row(f"{name}: nothing is queued", not other.queued(ours.name))
        if who == "ours":
            sealed = disk / "ftp/in"
            shutil.chown(sealed, "root", "root")
            sealed.chmod(0o755)
            other.put("log/Log", "")
            as_uucp(["uucp", "-I", str(other.config), "-r", f"{other.folder}/pub/file", f"{ours.name}!{sealed}/more"]).wait()
            status = scene.alpha.run(who if role == "calls" else "taylor", "-q", "-S", "beta")
            wait_until(lambda: not scene.beta.locks(), 5)
            scene.row(f"{role}: a call for a folder in which nothing can be created is done", status == 0)
            scene.row(f"{role}: it is refused", "permission denied by remote" in other.log() and not (sealed / "more").exists())
            scene.row(f"{role}: nothing of it is queued", not other.queued(ours.name))
    finally:
        subprocess.run(["umount", disk], check=False)


def scene_places(scene: Scene, who: str) -> None:
    """A file goes to the path that its job names below the public folder, and missing folders are created."""
    command = " ".join(scene.beta.words(who, "-q"))
    scene.alpha.knows("beta", "time any", "protocol g", 'chat ""', "port type pipe", f"port command {command}")
    scene.beta.knows("alpha", "protocol g")
    empty_public(scene.alpha)
    empty_public(scene.beta, "in", "in/deep", "in/private", "in/private/below")
    (scene.beta.folder / "pub/in/private").chmod(0o700)
    (scene.alpha.folder / "pub/f").write_text("text\n")
    for name in ("plain", "in/deep/asked", "in/private/below/asked"):
        (scene.beta.folder / "pub" / name).write_text("there\n")
    (scene.beta.folder / "pub/link").symlink_to(scene.beta.folder)
    wanted = {
        "new/x": "new/x",
        "new/more/y": "new/more/y",
        "slash/": "slash/f",
        "in/deep": "in/deep/f",
        "in/deep/z": "in/deep/z",
        "plain/x": None,
    }
    for target in wanted:
        as_uucp(["uucp", "-I", str(scene.alpha.config), "-r", f"{scene.alpha.folder}/pub/f", f"beta!~/{target}"]).wait()
    as_uucp(["uucp", "-I", str(scene.alpha.config), "-r", "beta!~/in/deep/asked", "~/got/below/asked"]).wait()
    status = scene.alpha.run("ours" if who == "taylor" else "taylor", "-q", "-S", "beta")
    wait_until(lambda: not scene.beta.locks(), 5)
    for target, path in wanted.items():
        if path:
            scene.row(f"{who}: {target} is {path}", text_of(scene.beta.folder / "pub" / path) == "text\n")
    scene.row(f"{who}: the call is done", status == 0)
    scene.row(f"{who}: nothing is in a file's place", text_of(scene.beta.folder / "pub/plain") == "there\n")
    scene.row(f"{who}: what is asked for there comes", text_of(scene.alpha.folder / "pub/got/below/asked") == "there\n")
    scene.row(f"{who}: nothing is queued", not scene.alpha.queued("beta"))
    if who == "ours":
        for target in ("link/x", "in/.hidden/x", "in//x"):
            as_uucp(["uucp", "-I", str(scene.alpha.config), "-r", f"{scene.alpha.folder}/pub/f", f"beta!~/{target}"]).wait()
        as_uucp(["uucp", "-I", str(scene.alpha.config), "-r", "beta!~/in/private/below/asked", "~/secret"]).wait()
        status = scene.alpha.run("taylor", "-q", "-S", "beta")
        wait_until(lambda: not scene.beta.locks(), 5)
        scene.row("the call with what is refused is done", status == 0)
        scene.row("nothing is put behind a link", not (scene.beta.folder / "x").exists())
        scene.row("nor in a hidden folder", not (scene.beta.folder / "pub/in/.hidden").exists())
        scene.row("what is below a private folder is not given", not (scene.alpha.folder / "pub/secret").exists())
        scene.row("nothing of it is queued", not scene.alpha.queued("beta"))


def scene_requests(scene: Scene, who: str, role: str) -> None:
    """`send-request`, `receive-request`: what the other system may ask for, and send; what is asked for here comes always."""
    ours, other = (scene.alpha, scene.beta) if role == "calls" else (scene.beta, scene.alpha)
    command = " ".join(scene.beta.words(who if role == "answers" else "taylor", "-q"))
    for rule, gives, takes in (
        ("", True, True),
        ("send-request false", False, True),
        ("receive-request false", True, False),
        ("request false", False, False),
    ):
        rules = {ours.name: [rule] if rule else [], other.name: []}
        scene.alpha.put("sys", "")
        scene.beta.put("sys", "")
        scene.alpha.knows("beta", "time any", 'chat ""', "port type pipe", f"port command {command}", *rules["alpha"])
        scene.beta.knows("alpha", *rules["beta"])
        for node in (ours, other):
            empty_public(node)
            for name in ("asked", "sent"):
                (node.folder / "pub" / f"{name}-{node.name}").write_text("text\n")
            there = scene.beta if node is scene.alpha else scene.alpha
            asks, sends = (f"{there.name}!~/asked-{there.name}", "~/"), (f"{node.folder}/pub/sent-{node.name}", f"{there.name}!~/")
            for words in (asks, sends):
                as_uucp(["uucp", "-I", str(node.config), "-r", *words]).wait()
        scene.alpha.run(who if role == "calls" else "taylor", "-q", "-S", "beta")
        wait_until(lambda: not scene.beta.locks(), 5)
        here, there = (sorted(path.name for path in (node.folder / "pub").iterdir()) for node in (ours, other))
        name = f"{rule!r}, {who} {role}"
        scene.row(f"{name}: given: {there}", (f"asked-{ours.name}" in there) is gives)
        scene.row(f"{name}: taken: {here}", (f"sent-{other.name}" in here) is takes)
        scene.row(f"{name}: what is asked for and sent here", f"asked-{other.name}" in here and f"sent-{ours.name}" in there)


def scene_statuses(scene: Scene) -> None:
    """After each call that fails, and after each that is not made, the status is that which Debian's uucico writes."""
    greets = scene.folder / "greets"
    greets.write_text("#!/bin/sh\nprintf '\\020Shere=beta\\0'; head -c 8 >/dev/null\n")
    greets.chmod(0o755)
    device = scene.modem("BUSY")
    scene.alpha.put("dial", DIALER)
    scene.alpha.put(
        "port",
        f"port held\ntype direct\ndevice {device}\nlockname LCK..held\nport modem\ntype modem\ndevice {device}\nspeed 9600\n"
        "carrier false\nhardflow false\ndialer hayes\n",
    )
    scene.alpha.put("lock/LCK..held", f"{os.getpid():10d}\n")
    refused = ("port type tcp", f"port service {free_port()}", "address 127.0.0.1")
    far = int(time.time()) + 10**6
    for what, lines, before, options in (
        ("nobody listens", refused, "", ()),
        ("the third time", refused, "2 2 1000 0", ()),
        ("and a retry time", ("time any 45", *refused), "2 2 1000 0", ()),
        ("a port in use", ("port held",), "", ()),
        ("the third time, a port in use", ("port held",), "2 2 1000 0", ()),
        ("a port in use, and a retry time", ("time any 45", "port held"), "2 2 1000 0", ()),
        ("a port in use that -p names", ("port held",), "2 2 1000 0", ("-p", "held")),
        ("a modem that says BUSY", ("port modem", "phone 5"), "3 1 1000 0", ()),
        ("a chat that fails", ("port type pipe", "port command /bin/cat", "chat never", "chat-timeout 1"), "2 1 1000 0", ()),
        ("the line ends in the greeting", ("port type pipe", f"port command {greets}"), "2 5 1000 0", ()),
        ("a wrong time", (f"time {DAYS_AWAY}", *refused), "2 5 1000 600", ()),
        ("too many retries", ("max-retries 3", *refused), f"2 3 {int(time.time()) - 60} 0", ()),
        ("a day later", ("max-retries 3", *refused), "2 3 1000 0", ()),
        ("its retry time", refused, f"2 1 {int(time.time()) - 60} 600", ()),
        ("a time in the future", refused, f"2 1 {far} 600", ()),
        ("success-wait", ("success-wait 600", *refused), f"0 0 {int(time.time()) - 60} 0", ()),
    ):
        statuses = {}
        for who in ("taylor", "ours"):
            scene.alpha.put("sys", "")
            scene.alpha.knows("beta", *(["time any"] if not lines[0].startswith("time ") else []), 'chat ""', *lines)
            (scene.alpha.folder / "spool/.Status").mkdir(exist_ok=True)
            shutil.chown(scene.alpha.folder / "spool/.Status", "uucp", "uucp")
            scene.alpha.put("spool/.Status/beta", f"{before} x beta\n" if before else "0 0 1000 0 x beta\n")
            status = scene.alpha.run(who, "-q", *options, "-s", "beta")
            fields = scene.alpha.status("beta")
            # who called has the time of the call
            statuses[who] = (status, *fields[:2], fields[3], fields[2] if int(fields[2]) != far and int(fields[2]) < 2000 else "")
        # one that ends in its greeting is a call that failed here, there a handshake
        first = 2 if "greeting" in what else 0
        scene.row(f"{what}: {statuses}", statuses["ours"][first:] == statuses["taylor"][first:])


def scene_retries(scene: Scene) -> None:
    """The retry time after a failed call is that of Taylor UUCP, or that of `time`; -f and -S ignore it."""
    port = free_port()
    lines = ("port type tcp", f"port service {port}", "address 127.0.0.1", 'chat ""')
    scene.alpha.knows("beta", "time any", *lines)
    scene.alpha.mail("beta", "waits")
    statuses = []
    for option in ("-s", "-s", "-S", "-f"):
        scene.alpha.run("ours", "-q", *([option, "beta"] if option != "-f" else ["-f", "-s", "beta"]))
        statuses.append(scene.alpha.status("beta"))
    scene.row(
        "ten minutes after the first call, twenty after the second",
        [one[1:2] + one[3:4] for one in statuses] == [["1", "600"], ["1", "600"], ["2", "1200"], ["3", "1800"]],
    )
    scene.row("the log says so", "Retry time not reached" in scene.alpha.log())
    scene.alpha.put("sys", "")
    scene.alpha.knows("beta", "time any 45", "max-retries 4", *lines)
    scene.alpha.run("ours", "-q", "-S", "beta")
    scene.row("the retry time of `time`", scene.alpha.status("beta")[3:4] == ["2700"])
    scene.alpha.run("ours", "-q", "-s", "beta")
    scene.row("max-retries", "Too many retries" in scene.alpha.log())
    scene.row("nothing is lost", scene.alpha.queued("beta") == 1)


def scene_success_wait(scene: Scene) -> None:
    scene.beta.knows("alpha")
    scene.alpha.knows(
        "beta",
        "time any",
        "success-wait 600",
        'chat ""',
        "port type pipe",
        f"port command {' '.join(scene.beta.words('taylor', '-q'))}",
    )
    statuses = [scene.alpha.run("ours", "-q", "-s", "beta") for _ in range(2)]
    scene.row("success-wait: a second call has to wait", statuses == [0, 1] and "Retry time not reached" in scene.alpha.log())


def scene_wrong_password(scene: Scene, caller: str) -> None:
    """A wrong password: nobody gets in, Login failed, and nothing says what was wrong."""
    lets_in(scene.beta)
    with_login(scene, scene.serve(scene.beta, "ours", "-l", "-q"), password="not-the-one", lines="chat-fail incorrect")
    # the chat waits for what the other end says to the password
    scene.alpha.put("sys", text_of(scene.alpha.folder / "sys").replace("word: \\P", "word: \\P never"))
    scene.alpha.mail("beta", "waits")
    status = scene.alpha.run(caller, "-q", "-s", "beta")
    scene.row(f"a wrong password, {caller} calls: the call failed", status == 1 and scene.alpha.queued("beta") == 1)
    wait_until(lambda: "ERROR" in scene.beta.log(), 5)
    scene.row(f"a wrong password, {caller} calls: no session began", "Incoming call" not in scene.beta.log())
    scene.row(
        f"a wrong password, {caller} calls: no log has it",
        not re.search("not-the-one|" + SECRET, scene.alpha.everything() + scene.beta.everything()),
    )


def hear(connection: socket.socket, wanted: bytes, seconds: float = 10) -> bytes:
    """Returns what is heard until these bytes come, or the line ends."""
    connection.settimeout(seconds)
    heard = b""
    with contextlib.suppress(OSError):
        while wanted not in heard:
            piece = connection.recv(1)
            if not piece:
                break
            heard += piece
    return heard


def scene_three_tries(scene: Scene) -> None:
    """Three tries, and the same words for a login that there is not and for a wrong password."""
    lets_in(scene.beta)
    port = scene.serve(scene.beta, "ours", "-l", "-q")
    with socket.create_connection(("127.0.0.1", port)) as connection:
        heard = []
        for login in (b"Ualpha", b"Unobody", b"Ualpha"):
            prompt = hear(connection, b"login: ")
            connection.sendall(login + b"\r")
            prompt += hear(connection, b"Password:")
            connection.sendall(b"wrong\r\n")
            heard.append(prompt)
        rest = hear(connection, b"\0")
    scene.row("three tries, and no hint", heard == [b"login: Password:", *[b"\r\nLogin incorrect\r\nlogin: Password:"] * 2])
    scene.row("then the line is closed", rest == b"\r\nLogin incorrect\r\n")
    wait_until(lambda: "Bad login" in scene.beta.log(), 5)
    scene.row("the log has it, and no password", "Bad login" in scene.beta.log() and "wrong" not in scene.beta.everything())
    for ending in (b"\r", b"\n", b"\r\n"):
        with socket.create_connection(("127.0.0.1", port)) as connection:
            hear(connection, b"login: ")
            connection.sendall(bytes(one | 0x80 for one in b"Ualpha") + ending)
            hear(connection, b"Password:")
            connection.sendall(SECRET.encode() + ending)
            scene.row(f"a line that ends with {ending!r}, and parity", b"Shere=beta" in hear(connection, b"\0"))


def greet(port: int, name: str, login: str | None = None) -> bytes:
    """Returns what one hears who calls, logs in, and says this name."""
    with socket.create_connection(("127.0.0.1", port)) as connection:
        if login:
            hear(connection, b"login: ")
            connection.sendall(f"{login}\r".encode())
            hear(connection, b"Password:")
            connection.sendall(f"{SECRET}\r".encode())
        heard = hear(connection, b"\0")
        connection.sendall(f"\x10S{name} -R -N07\0".encode())
        return heard + hear(connection, b"\0", 5)


def scene_names(scene: Scene) -> None:
    """`called-login` binds a login to systems. What Debian's uucico says to each caller is what is said here."""
    scene.beta.knows("alpha", "called-login Ualpha", "alias al")
    scene.beta.knows("gamma", "called-login Ugamma", "myname outside")
    scene.beta.knows("delta")
    scene.beta.knows("many", "called-login Umany many more")
    scene.beta.knows("more")
    scene.beta.put("passwd", "".join(f"{login} {SECRET}\n" for login in ("Ualpha", "Ugamma", "Umany", "Udelta")))
    ports = {who: scene.serve(scene.beta, who, "-l", "-q") for who in ("taylor", "ours")}
    for login, name, said in (
        ("Ualpha", "alpha", "ROK"),
        ("Ualpha", "al", "ROK"),
        ("Ualpha", "delta", "ROK"),
        ("Ualpha", "gamma", "RLOGIN"),
        ("Ugamma", "gamma", "ROK"),
        ("Ugamma", "alpha", "RLOGIN"),
        ("Udelta", "delta", "ROK"),
        ("Udelta", "alpha", "RLOGIN"),
        ("Umany", "more", "ROK"),
        ("Umany", "many", "ROK"),
        ("Umany", "delta", "RLOGIN"),
        ("Ualpha", "zeta", "RYou are unknown"),
    ):
        for who, port in ports.items():
            heard = greet(port, name, login)
            scene.row(f"{login} says {name}, {who}: {said}", f"\x10{said}".encode() in heard)
            me = b"Shere=outside\0" if login == "Ugamma" else b"Shere=beta\0"
            scene.row(f"{login} hears the local name, {who}", me in heard)
            wait_until(lambda: not scene.beta.locks(), 5)
    scene.row("the log has who used whose login", "ERROR: System gamma used wrong login name Ualpha" in scene.beta.log())


def scene_only_one(scene: Scene) -> None:
    """A login that only one system may use: another name is refused."""
    lets_in(scene.beta)
    scene.beta.knows("gamma", "called-login Ugamma")
    port = scene.serve(scene.beta, "ours", "-l", "-q")
    scene.row("the one name is let in", b"\x10ROK" in greet(port, "alpha", "Ualpha"))
    wait_until(lambda: not scene.beta.locks(), 5)
    scene.row("another one is not", b"\x10ROK" not in greet(port, "gamma", "Ualpha"))


def scene_several(scene: Scene, caller: str) -> None:
    """A login that several systems may use: the caller's name is heard first, and mail goes both ways."""
    scene.beta.knows("gamma")
    scene.beta.knows("alpha")
    scene.beta.put("passwd", f"Ualpha {SECRET}\n")
    with_login(scene, scene.serve(scene.beta, "ours", "-l", "-q"))
    (scene.alpha.folder / "big").write_text("".join(f"line {number}\n" for number in range(60000)))
    (scene.beta.folder / "pub").chmod(0o777)
    as_uucp(["uucp", "-I", str(scene.alpha.config), "-r", str(scene.alpha.folder / "big"), "beta!~/big"]).wait()
    scene.both_ways(f"several names, {caller} calls", caller)
    scene.row(
        f"several names, {caller} calls: a long file is whole",
        text_of(scene.beta.folder / "pub/big") == text_of(scene.alpha.folder / "big"),
    )


def scene_callback(scene: Scene) -> None:
    """`callback true`: the caller hears RCB, and is called; until that is done an empty job waits."""
    scene.alpha.knows("beta", "time any", 'chat ""', "port type pipe", f"port command {' '.join(scene.beta.words('ours', '-q'))}")
    scene.beta.knows(
        "alpha",
        "callback true",
        "time any",
        'chat ""',
        "port type pipe",
        f"port command {' '.join(scene.alpha.words('taylor', '-q'))}",
    )
    scene.alpha.mail("beta", "by-their-call")
    scene.alpha.run("taylor", "-q", "-s", "beta")
    scene.row("callback: the call comes back", wait_until(lambda: "by-their-call" in scene.beta.mails(), 15))
    scene.row("callback: the log has it", "Will call back" in scene.beta.log() and "Incoming call" in scene.beta.log())
    scene.row("callback: nothing waits for it", wait_until(lambda: scene.beta.queued("alpha") == 0, 5))
    scene.beta.put("sys", text_of(scene.beta.folder / "sys").replace("port command", "port command /bin/false"))
    scene.alpha.run("taylor", "-q", "-S", "beta")
    scene.row(
        "callback: where that fails it waits",
        wait_until(lambda: scene.beta.status("alpha")[:1] not in ([], ["0"]), 15) and scene.beta.queued("alpha") == 1,
    )


def scene_called_back(scene: Scene, caller: str) -> None:
    """Who hears RCB has called well, and waits for the call."""
    scene.beta.knows("alpha", "callback true")
    command = " ".join(scene.beta.words("taylor", "-q"))
    scene.alpha.knows("beta", "time any", 'chat ""', "port type pipe", f"port command {command}")
    scene.alpha.mail("beta", "waits")
    status = scene.alpha.run(caller, "-q", "-s", "beta")
    scene.row(f"RCB, {caller} calls: the call is done", status == 0 and scene.alpha.status("beta")[:2] == ["0", "0"])
    scene.row(f"RCB, {caller} calls: the log has it", scene.alpha.log().count("Remote system will call back") == 1)
    scene.row(f"RCB, {caller} calls: the job waits", scene.alpha.queued("beta") == 1)


def scene_sequence(scene: Scene, caller: str, called: str) -> None:
    """`sequence true` at both ends: each call has the next number, and one that has another is refused."""
    scene.beta.knows("alpha", "sequence true")
    command = " ".join(scene.beta.words(called, "-q"))
    scene.alpha.knows("beta", "time any", 'chat ""', "port type pipe", f"port command {command}", "sequence true")
    name = f"sequence, {caller} calls {called}"
    for number in (1, 2):
        scene.alpha.put("mails", "")
        scene.beta.put("mails", "")
        scene.both_ways(f"{name}, call {number}", caller)
    files = [scene.alpha.folder / "spool/.Sequence/beta", scene.beta.folder / "spool/.Sequence/alpha"]
    scene.row(f"{name}: both have the number", [text_of(one).strip() for one in files] == ["2", "2"])
    files[1].write_text("7")
    scene.alpha.mail("beta", "waits")
    status = scene.alpha.run(caller, "-q", "-s", "beta")
    scene.row(f"{name}: another number is refused", status == 1 and scene.alpha.queued("beta") == 1)
    scene.row(f"{name}: the log has it", "Out of sequence call rejected" in scene.beta.log())
    scene.row(f"{name}: each has the next", [text_of(one).strip() for one in files] == ["3", "8"])
    scene.row(f"{name}: the called end has a call that failed", scene.beta.status("alpha")[:1] == ["5"])
    scene.alpha.put("sys", text_of(scene.alpha.folder / "sys").replace("sequence true", ""))
    scene.alpha.run(caller, "-q", "-S", "beta")
    scene.row(f"{name}: none is refused, too", "No sequence number (call rejected)" in scene.beta.log())
    files[0].write_text("8\n")
    scene.alpha.put("sys", text_of(scene.alpha.folder / "sys") + "sequence true\n")
    status = scene.alpha.run(caller, "-q", "-S", "beta")
    scene.row(f"{name}: with the same number it goes on", status == 0 and "waits" in scene.beta.mails())


def scene_called_chat(scene: Scene, caller: str, called: str) -> None:
    """`called-chat` runs when the protocol is agreed on; where it fails the call does."""
    told, program = scene.folder / "told", scene.folder / "program"
    told.write_text("")
    told.chmod(0o666)
    program.write_text(f'#!/bin/sh\necho "$@" >>{told}\n')
    program.chmod(0o755)
    chat = ('called-chat "" ATS0=1\\r\\c', f"called-chat-program {program} \\Z")
    scene.beta.knows("alpha", *chat)
    command = " ".join(scene.beta.words(called, "-q"))
    scene.alpha.knows("beta", "time any", 'chat ""', "port type pipe", f"port command {command}")
    scene.both_ways(f"a called chat, {caller} calls {called}", caller)
    scene.row(f"a called chat, {caller} calls {called}: its program ran", text_of(told).split() == ["alpha"])
    scene.beta.put("sys", "")
    scene.beta.knows("alpha", "called-chat never", "called-chat-timeout 1")
    scene.alpha.mail("beta", "waits")
    status = scene.alpha.run(caller, "-q", "-s", "beta")
    scene.row(f"a called chat that fails, {caller} calls {called}", status == 1 and scene.alpha.queued("beta") == 1)
    scene.row(f"its status, {caller} calls {called}", wait_until(lambda: scene.beta.status("alpha")[:1] == ["5"], 5))
    scene.row(f"no lock is left, {caller} calls {called}", wait_until(lambda: not scene.beta.locks(), 5))


def scene_alias(scene: Scene) -> None:
    """A system that greets by an alias is the system; by another name it is not."""
    scene.beta.knows("alpha")
    command = " ".join(scene.beta.words("taylor", "-q"))
    for who in ("taylor", "ours"):
        for name, is_done in (("beta", True), ("other", False)):
            scene.alpha.put("sys", "")
            scene.alpha.knows("remote", f"alias {name}", "time any", 'chat ""', "port type pipe", f"port command {command}")
            scene.alpha.mail("remote", f"{who}-{name}")
            status = scene.alpha.run(who, "-q", "-S", "remote")
            found = (status == 0, scene.alpha.queued("remote") == 0)
            scene.row(f"beta, with the alias {name}, {who}", found == (is_done, is_done))
    scene.row("what was sent came once", scene.beta.mails() == ["ours-beta", "taylor-beta", "taylor-other"])


def scene_unknown(scene: Scene, called: str) -> None:
    """`unknown` in the main file: a system that no other file has is let in by its login, and may do what stands there."""
    rules = ("called-login Uanon", "commands rmail", f"command-path {scene.beta.folder}/bin")
    scene.beta.put("config", text_of(scene.beta.config) + "".join(f"unknown {one}\n" for one in rules))
    scene.beta.knows("gamma", "called-login Ugamma")
    scene.beta.put("passwd", f"Uanon {SECRET}\nUgamma {SECRET}\n")
    port = scene.serve(scene.beta, called, "-l", "-q")
    scene.alpha.knows("beta", "time any", "port type tcp", f"port service {port}", "address 127.0.0.1", *CHATS)
    scene.alpha.put("call", f"beta Uanon {SECRET}\n")
    scene.both_ways(f"an unknown caller, {called} is called", "taylor")
    for login, name, said in (("Ugamma", "zeta", "R"), ("Uanon", "gamma", "RLOGIN"), ("Ugamma", "gamma", "ROK")):
        scene.row(f"{login} says {name}, {called}: {said}", f"\x10{said}".encode() in greet(port, name, login))
        wait_until(lambda: not scene.beta.locks(), 5)


def scene_secrets(scene: Scene) -> None:
    """While the other end waits after the password, it is in no process's arguments or environment; later in no log."""
    lets_in(scene.beta)
    device, gate = scene.folder / "tty", scene.folder / "gate"
    os.mkfifo(gate)
    gate.chmod(0o666)
    opener = os.open(gate, os.O_RDWR)
    script = scene.folder / "slow"
    script.write_text(
        LOGIN.format(check=f"open('{gate}').readline()", last="", command=[*scene.beta.words("taylor", "-q", "-u", "Ualpha")])
    )
    script.chmod(0o755)
    scene.beta.knows("alpha")
    scene.helper(["socat", "-t", "5", f"PTY,link={device},raw,echo=0", f"EXEC:{script},pty,raw,echo=0"])
    wait_until(device.exists)
    at_device(scene.alpha, device)
    with as_uucp(
        scene.alpha.words("ours", "-D", "-x9", "-q", "-s", "beta"),
        stdin=subprocess.DEVNULL,
        stdout=subprocess.DEVNULL,
        stderr=(scene.alpha.folder / "log/stderr").open("ab"),
    ) as call:
        wait_until(lambda: call.poll() is not None or "uucpair" in " ".join(processes()), 10)
        shown = any(SECRET in one for one in processes())
        scene.row("the session waits", call.poll() is None)
        os.write(opener, b"go\n")
        status = call.wait(30)
    scene.row("the call is done", status == 0)
    scene.row("no process shows the password", not shown)
    scene.row(
        "no log has it",
        SECRET not in scene.alpha.everything() + text_of(scene.alpha.folder / "log/stderr") + scene.beta.everything(),
    )


def processes() -> list[str]:
    """Returns the arguments and the environment of each process but this one and its threads."""
    found = []
    for path in Path("/proc").glob("[0-9]*"):
        if path.name != str(os.getpid()):
            found.append(text_of(path / "cmdline") + text_of(path / "environ"))
    return found


def scene_chat_fails(scene: Scene) -> None:
    """A chat that fails: the log has what was heard, without the password that is echoed."""
    device, script = scene.folder / "tty", scene.folder / "login"
    script.write_text(LOGIN.format(check="False", last="", command=["/bin/false"]))
    script.chmod(0o755)
    scene.helper(["socat", f"PTY,link={device},raw,echo=0", f"EXEC:{script},pty,raw,echo=0"])
    wait_until(device.exists)
    at_device(scene.alpha, device)
    scene.alpha.put(
        "sys",
        text_of(scene.alpha.folder / "sys").replace("word: \\P", "word: \\P ready-x-ready").replace("timeout 10", "timeout 1"),
    )
    scene.alpha.mail("beta", "waits")
    status = scene.alpha.run("ours", "-q", "-s", "beta")
    scene.row("a chat that fails: the log has what was heard", status == 1 and "Login incorrect" in scene.alpha.log())
    scene.row("a chat that fails: not the password", SECRET not in scene.alpha.everything())
    scene.row("a chat that fails: Login failed", scene.alpha.status("beta")[:1] == ["3"] and scene.alpha.queued("beta") == 1)


def heard_at_inetd(scene: Scene, node: Node, words: list[str], said: bytes = b"") -> bytes:
    """Returns what a caller hears where standard error is the line, too."""
    ours, theirs = socket.socketpair()
    with ours:
        one = as_uucp(words, stdin=theirs, stdout=theirs, stderr=theirs)
        theirs.close()
        ours.sendall(said)
        ours.shutdown(socket.SHUT_WR)
        heard = hear(ours, b"\xff\xff", 20)
        one.wait(20)
    return heard


def scene_inetd(scene: Scene) -> None:
    """Where standard error is the line nothing goes there but what belongs there, whatever is wrong."""
    scene.beta.knows("alpha")
    scene.beta.knows("gamma")
    words = scene.beta.words("ours", "-q")
    scene.row("a caller that leaves hears the greeting alone", heard_at_inetd(scene, scene.beta, words) == b"\x10Shere=beta\0")
    scene.row(
        "one that is unknown hears that",
        heard_at_inetd(scene, scene.beta, words, b"\x10Szeta\0") == b"\x10Shere=beta\0\x10RYou are unknown to me\0",
    )
    scene.row("a bad option is not said there", heard_at_inetd(scene, scene.beta, [*words, "-y"]) == b"")
    for options in (["-r0", "-y"], ["--prompt", "--nonsense"], ["-s", "nobody"]):
        scene.row(f"nor where {options} are the options", heard_at_inetd(scene, scene.beta, [*words, *options]) == b"")
    scene.row("an unknown port is not said there", heard_at_inetd(scene, scene.beta, [*words, "-p", "none"]) == b"")
    scene.beta.put("sys", "system alpha\nnonsense here\n")
    scene.row("a bad sys file is not said there", heard_at_inetd(scene, scene.beta, words) == b"")
    scene.row(
        "a config that is missing is not said there",
        heard_at_inetd(scene, scene.beta, [words[0], "-I", "/nonexistent/config"]) == b"",
    )
    bare = scene.folder / "bare"
    shutil.copytree(scene.beta.scripts, bare)
    (bare / "uucp_site/chat.py").write_text("import no_such_module_here\n")
    scene.row("a missing module is not said there", heard_at_inetd(scene, scene.beta, [str(bare / "uucico"), *words[1:]]) == b"")


def scene_stops(scene: Scene) -> None:
    """What can't be honoured stops the call, and the log says what to do."""
    command = f"port command {' '.join(scene.beta.words('taylor', '-q'))}"
    for line, said in (
        ("protocol t", "the other end must offer g"),
        ("port seven-bit true", "eight"),
    ):
        scene.alpha.put("sys", "")
        scene.alpha.knows("beta", "time any", 'chat ""', "port type pipe", command, line)
        scene.alpha.put("log/Log", "")
        status = scene.alpha.run("ours", "-q", "-S", "beta")
        scene.row(f"{line}: the call is stopped", status == 1 and "Incoming" not in scene.beta.log())
        scene.row(f"{line}: the log says what to do", f"{said}" in scene.alpha.log())


def scene_options(scene: Scene) -> None:
    """-C, -r1, -p, -c, what is not had, and the script in the background."""
    lets_in(scene.beta)
    port = scene.serve(scene.beta, "taylor", "-l", "-q")
    with_login(scene, port)
    scene.alpha.put("port", f"port other\ntype tcp\nservice {port}\n")
    scene.row(
        "-C: without work nobody is called", scene.alpha.run("ours", "-Cq", "-sbeta") == 0 and "Incoming" not in scene.beta.log()
    )
    scene.alpha.mail("beta", "one")
    scene.row("-r1: who has work is called", scene.alpha.run("ours", "-q", "-r1") == 0 and scene.beta.mails() == ["one"])
    scene.alpha.put("sys", text_of(scene.alpha.folder / "sys").replace(f"service {port}", f"service {free_port()}"))
    scene.alpha.mail("beta", "two")
    scene.row(
        "-p: another port",
        scene.alpha.run("ours", "-q", "-p", "other", "-s", "beta") == 0 and scene.beta.mails() == ["one", "two"],
    )
    for words in (("-i", "TLI"), ("-t",), ("-g", "C", "-r1"), ("-r2",), ("word",), ("--nonsense",)):
        said = subprocess.run(
            scene.alpha.words("ours", *words), capture_output=True, text=True, stdin=subprocess.DEVNULL, check=False
        )
        scene.row(f"{' '.join(words)}: it says that it has it not", said.returncode == 1 and said.stderr.startswith("uucico: "))
    scene.alpha.put(
        "sys", text_of(scene.alpha.folder / "sys").replace("port type tcp", "port other").replace("port service", "# ")
    )
    scene.alpha.mail("beta", "three")
    with as_uucp(scene.alpha.words("ours", "--nouuxqt", "--system", "beta"), stdin=subprocess.DEVNULL) as one:
        scene.row("it goes on in the background", one.wait(10) == 0)
    scene.row("and calls", wait_until(lambda: "three" in scene.beta.mails(), 15))


def scene_uuxqt(scene: Scene, end: str) -> None:
    """uuxqt runs after a call, at each end; Debian's uucico sends its command a hangup before that."""
    scene.beta.knows("alpha")
    command = " ".join(scene.beta.words("ours"))
    scene.alpha.knows("beta", "time any", 'chat ""', "port type pipe", f"port command {command}")
    scene.alpha.mail("beta", "for-beta")
    scene.beta.mail("alpha", "for-alpha")
    scene.alpha.run("ours" if end == "caller" else "taylor", "-s", "beta")
    node, mail = (scene.alpha, "for-alpha") if end == "caller" else (scene.beta, "for-beta")
    scene.row(f"uuxqt runs, {end}", wait_until(lambda: text_of(node.folder / "mails").split() == [mail], 10))


def scene_waits_at_port(scene: Scene, kind: str) -> None:
    """-e answers at a port, one call after the other, and asks for a login each time."""
    lets_in(scene.beta)
    held: list[int] = []
    if kind == "tcp":
        port = free_port()
        scene.beta.put("port", f"port door\ntype tcp\nservice {port}\n")
        with_login(scene, port)
    else:
        near, far = scene.folder / "near", scene.folder / "far"
        scene.helper(["socat", f"PTY,link={near},raw,echo=0", f"PTY,link={far},raw,echo=0"])
        wait_until(far.exists)
        # a line stays, though nobody has it open
        held = [os.open(path, os.O_RDWR | os.O_NOCTTY) for path in (near, far)]
        scene.beta.put("port", f"port door\ntype direct\ndevice {far}\nspeed 9600\nhardflow false\n")
        at_device(scene.alpha, near)
        scene.alpha.put("sys", text_of(scene.alpha.folder / "sys").replace("chat ogin:", 'chat "" \\r\\c ogin:'))
    for file in held[:1]:
        # the end of a call before, which nobody has read
        os.write(file, b"OOOOOO")
    scene.helper(scene.beta.words("ours", "-e", "-q", "-p", "door"))
    wait_until(lambda: listens(port) if kind == "tcp" else scene.beta.locks(), 10)
    for number in (1, 2):
        scene.alpha.mail("beta", f"mail-{number}")
        status = scene.alpha.run("taylor", "-q", "-S", "beta")
        scene.row(f"-e at {kind}, call {number}", status == 0 and wait_until(lambda: f"mail-{number}" in scene.beta.mails(), 5))
    for file in held:
        os.close(file)
    if kind == "tcp":
        daemon = scene.helpers[-1]
        with socket.create_connection(("127.0.0.1", port)) as waiting:
            scene.row("a caller at the login", bool(waiting.recv(1)))
            busy = as_uucp(scene.beta.words("ours", "-e", "-q", "-p", "door"))
            scene.row("a port in use is logged", busy.wait(10) == 1 and "port door: no callers can be awaited" in text_of(scene.beta.folder / "log/Debug"))
            daemon.kill()
            daemon.wait()
            scene.helper(scene.beta.words("ours", "-e", "-q", "-p", "door"))
            scene.row("a daemon that is started again meanwhile", wait_until(lambda: listens(port), 5))
            scene.alpha.mail("beta", "mail-3")
            status = scene.alpha.run("taylor", "-q", "-S", "beta")
            scene.row("it answers", status == 0 and wait_until(lambda: "mail-3" in scene.beta.mails(), 5))


def serve_system(scene: Scene, entry: str, shadow: str, command: str, address: str = "") -> int:
    """Answers at a TCP port by a command of a system that has this user, and beta's configuration: only here. Returns the port."""
    for name, line in (("passwd", entry), ("shadow", shadow)):
        (scene.folder / name).write_text(text_of(Path("/etc") / name) + line + "\n")
    script, port = scene.folder / "system", free_port()
    script.write_text(
        f"""#!/bin/sh
mount --bind {scene.folder}/passwd /etc/passwd && mount --bind {scene.folder}/shadow /etc/shadow &&
mount --bind {scene.beta.folder} /etc/uucp && exec {command}
"""
    )
    script.chmod(0o755)
    words = ["socat", f"TCP-LISTEN:{port},reuseaddr,fork,bind=127.0.0.1", f"EXEC:unshare -m {script}{address}"]
    scene.helpers.append(subprocess.Popen(words, cwd="/", start_new_session=True, stderr=(scene.folder / "helpers").open("ab")))
    wait_until(lambda: listens(port))
    return port


def scene_login_shell(scene: Scene, tool: str) -> None:
    """It is the shell of a user who logs in, at a terminal or without one."""
    scene.beta.knows("alpha", "called-login Ualpha")
    scene.beta.knows("gamma", "called-login Ugamma")
    entry = f"Ualpha:x:{USER.pw_uid}:{USER.pw_gid}::/tmp:{scene.beta.scripts}/uucico"
    port = serve_system(scene, entry, "Ualpha:*:1::::::", "su - Ualpha 2>&1", ",pty,raw,echo=0" if tool == "pty" else "")
    scene.alpha.knows("beta", "time any", "port type tcp", f"port service {port}", "address 127.0.0.1", 'chat ""')
    scene.both_ways(f"a login shell, {tool}", "taylor")
    scene.row(f"a login shell, {tool}: its login is that of the user", "Incoming call (login Ualpha" in scene.beta.log())
    scene.row(f"a login shell, {tool}: another name is refused", b"\x10ROK" not in greet(port, "gamma"))


def scene_waits_after_calls(scene: Scene) -> None:
    """-w: it calls who has work, and then answers at a port."""
    port = free_port()
    scene.alpha.put("port", f"port door\ntype tcp\nservice {port}\n")
    lets_in(scene.alpha)
    scene.alpha.put("sys", text_of(scene.alpha.folder / "sys").replace("system alpha", "system beta"))
    scene.helper(scene.alpha.words("ours", "-D", "-w", "-q", "-p", "door"))
    wait_until(lambda: listens(port), 10)
    scene.beta.knows("alpha", "time any", "port type tcp", f"port service {port}", "address 127.0.0.1", *CHATS)
    scene.beta.put("call", f"alpha Ualpha {SECRET}\n")
    scene.beta.mail("alpha", "to-who-waits")
    scene.row("-w: it answers", scene.beta.run("taylor", "-q", "-S", "alpha") == 0 and scene.alpha.mails() == ["to-who-waits"])


def scene_killed(scene: Scene) -> None:
    """Who is stopped while logging in leaves no lock and loses no job; a lock of a process that is gone holds nobody."""
    device = scene.folder / "tty"
    scene.helper(["socat", f"PTY,link={device},raw,echo=0", "SYSTEM:sleep 60"])
    wait_until(device.exists)
    at_device(scene.alpha, device)
    scene.alpha.mail("beta", "waits")
    call = as_uucp(scene.alpha.words("ours", "-D", "-q", "-S", "beta"), stdin=subprocess.DEVNULL)
    name = f"LCK..{device.resolve().name}"
    scene.row("the port and the system are locked", wait_until(lambda: scene.alpha.locks() == sorted(["LCK..beta", name]), 10))
    scene.row(
        "a second call is turned away", scene.alpha.run("ours", "-q", "-S", "beta") == 1 and "is locked" in scene.alpha.log()
    )
    call.send_signal(signal.SIGTERM)
    call.wait(10)
    scene.row("no lock is left", scene.alpha.locks() == [] and scene.alpha.queued("beta") == 1)
    dead = subprocess.Popen(["true"])
    dead.wait()
    scene.alpha.put(f"lock/{name}", f"{dead.pid:10d}\n")
    scene.alpha.put("sys", text_of(scene.alpha.folder / "sys").replace("timeout 10", "timeout 1"))
    scene.alpha.run("ours", "-q", "-S", "beta")
    scene.row("a lock of the dead holds nobody", 'no "ogin:" in 1 seconds' in scene.alpha.log() and scene.alpha.locks() == [])


def scene_hdb(scene: Scene, caller: str) -> None:
    """The files of HDB, which `uuchk` reads in /etc/uucp: only here they are those of alpha."""
    lets_in(scene.beta)
    port = scene.serve(scene.beta, "taylor" if caller == "ours" else "ours", "-l", "-q")
    node, own = scene.alpha, re.compile("(sys|port|dial|call|passwd)file ")
    node.put("config", "".join(f"{line}\n" for line in text_of(node.config).splitlines() if not own.match(line)))
    for name in ("sys", "port", "dial", "call", "passwd"):
        (node.folder / name).unlink()
    node.put("Systems", f"beta Any TCP - 127.0.0.1 ogin: Ualpha word: {SECRET}\n")
    node.put("Devices", f"TCP {port} - -\n")
    node.put(
        "Permissions",
        f"MACHINE=beta COMMANDS={node.folder}/bin/rmail READ={node.folder}/pub WRITE={node.folder}/pub\n",
    )
    call = [
        "unshare",
        "-m",
        "sh",
        "-c",
        'mount --bind "$0" /etc/uucp && cd / && exec setpriv --reuid=uucp --regid=uucp --clear-groups "$@"',
        str(node.folder),
        *[word for word in node.words(caller, "-D", "-q", "-s", "beta") if word not in ("-I", str(node.config))],
    ]
    jobs = [
        "unshare",
        "-m",
        "sh",
        "-c",
        'mount --bind "$0" /etc/uucp && cd / && exec setpriv --reuid=uucp --regid=uucp --clear-groups "$@"',
        str(node.folder),
        "uux",
        "-r",
        "-n",
        "-z",
        "-",
        "beta!rmail",
        "(user)",
    ]
    subprocess.run(jobs, input=b"by-hdb\n", check=False)
    scene.beta.mail("alpha", "back")
    status = subprocess.run(
        call, stdin=subprocess.DEVNULL, stderr=(node.folder / "log/stderr").open("ab"), check=False, timeout=60
    ).returncode
    scene.row(f"HDB, {caller} calls: the call is done", status == 0)
    scene.row(f"HDB, {caller} calls: its mail came", scene.beta.mails() == ["by-hdb"])
    scene.row(f"HDB, {caller} calls: nothing is queued", not node.queued("beta") and not scene.beta.queued("alpha"))


def scene_check(scene: Scene) -> None:
    """--check: a row for each line, and a status."""
    scene.alpha.knows("beta", "time any", "port line", 'chat ""', "protocol t", "debug all", f"call-password {SECRET}")
    scene.alpha.put("port", "port line\ntype direct\ndevice /dev/ttyS0\nreliable true\n")
    said = subprocess.run(scene.alpha.words("ours", "--check"), capture_output=True, text=True, check=False)
    sys_file = scene.alpha.folder / "sys"
    scene.row(
        "--check: what stops a call, by file and line",
        f"{sys_file}:5  system beta  stops the call: protocol: t has no g: the other end must offer g, and this line name it\n"
        in said.stdout,
    )
    scene.row("--check: what is ignored", f"{sys_file}:6  debug all  ignored: -x has uucpair say more\n" in said.stdout)
    scene.row("--check: what is honoured", f"{sys_file}:2  time any  honoured\n" in said.stdout)
    scene.row("--check: its status", said.returncode == 1 and said.stdout.endswith("1 systems, 1 lines stop a call\n"))
    scene.row("--check: no password", SECRET not in said.stdout + said.stderr)
    scene.alpha.put("sys", 'system beta\ntime any\nport line\nchat ""\n')
    said = subprocess.run(scene.alpha.words("ours", "--check"), capture_output=True, text=True, check=False)
    scene.row("--check: nothing stops a call", said.returncode == 0 and said.stdout.endswith("1 systems, 0 lines stop a call\n"))
    scene.alpha.put("sys", "system beta\nnonsense\n")
    said = subprocess.run(scene.alpha.words("ours", "--check"), capture_output=True, text=True, check=False)
    scene.row("--check: a syntax error", said.returncode == 1 and f"{sys_file}:2: syntax error" in said.stderr)


def scene_hub(scene: Scene) -> None:
    """Three systems call a hub at once, each by a login of its own: each mail comes once, both ways."""
    names = ("alpha", "gamma", "delta")
    nodes = {"alpha": scene.alpha, **{name: Node(scene.folder, name, scene.alpha.scripts) for name in names[1:]}}
    scene.beta.put("passwd", "".join(f"U{name} {SECRET}\n" for name in names))
    for name in names:
        scene.beta.knows(name, f"called-login U{name}")
    port = scene.serve(scene.beta, "ours", "-l", "-q")
    for name, node in nodes.items():
        node.knows("beta", "time any", "port type tcp", f"port service {port}", "address 127.0.0.1", *CHATS)
        node.put("call", f"beta U{name} {SECRET}\n")
        for number in (1, 2):
            node.mail("beta", f"from-{name}-{number}")
            scene.beta.mail(name, f"to-{name}-{number}")
    running = [
        as_uucp(
            node.words(who, "-D", "-q", "-S", "beta"),
            stdin=subprocess.DEVNULL,
            stdout=subprocess.DEVNULL,
            stderr=subprocess.DEVNULL,
        )
        for node, who in zip(nodes.values(), ("taylor", "ours", "taylor"))
    ]
    scene.row("a hub: all calls are done", [one.wait(60) for one in running] == [0, 0, 0])
    scene.row(
        "a hub: its mail came once", scene.beta.mails() == sorted(f"from-{name}-{number}" for name in names for number in (1, 2))
    )
    for name, node in nodes.items():
        scene.row(f"a hub: the mail for {name} came once", node.mails() == [f"to-{name}-1", f"to-{name}-2"])


GATEWAY = """\
call-login *
call-password *
called-login Ulocal
local-send /
remote-send /
local-receive /
remote-receive /
time any
port port1
alternate
port port2
system comton
phone 5551212
system bugs
phone 5552424
"""
GATEWAY_REMOTE = """\
system uupsi
call-login *
call-password *
time any
called-login Uuupsi
myname airs
phone 5554848
port port2
alternate
port port1
alternate
port type TCP
port service {port}
address 127.0.0.1
chat ogin: \\L word: \\P
"""


def scene_gateway(scene: Scene) -> None:
    """The gateway of the manual's example: two local systems share a login, and a remote one is called by TCP where both modems are
    busy, by another name."""
    elmer, uupsi, comton, bugs = (Node(scene.folder, name, scene.alpha.scripts) for name in ("elmer", "uupsi", "comton", "bugs"))
    rmail = f"commands rmail\ncommand-path {elmer.folder}/bin\n"
    elmer.put(
        "config",
        text_of(elmer.config).replace(
            f"sysfile {elmer.folder}/sys", f"sysfile {elmer.folder}/sys\nsysfile {elmer.folder}/remote"
        ),
    )
    elmer.put("sys", rmail + GATEWAY)
    elmer.put("remote", rmail + GATEWAY_REMOTE.format(port=scene.serve(uupsi, "taylor", "-l", "-q")))
    devices = [scene.modem("BUSY") for _ in range(2)]
    elmer.put(
        "port",
        "".join(
            f"port port{number}\ntype modem\ndevice {path}\ndialer hayes\nspeed 2400\nhardflow false\n"
            for number, path in enumerate(devices, 1)
        ),
    )
    elmer.put("dial", DIALER)
    elmer.put("call", f"uupsi Uairs {SECRET}\n")
    elmer.put("passwd", f"Ulocal {SECRET}\n")
    uupsi.knows("airs", "called-login Uairs")
    uupsi.put("passwd", f"Uairs {SECRET}\n")
    door = scene.serve(elmer, "ours", "-l", "-q")
    for node, who in ((comton, "taylor"), (bugs, "ours")):
        node.knows("elmer", "time any", "port type tcp", f"port service {door}", "address 127.0.0.1", *CHATS)
        node.put("call", f"elmer Ulocal {SECRET}\n")
        node.mail("elmer", f"from-{node.name}")
        elmer.mail(node.name, f"to-{node.name}")
        scene.row(
            f"a gateway: {node.name} calls", node.run(who, "-q", "-s", "elmer") == 0 and node.mails() == [f"to-{node.name}"]
        )
    scene.row("a gateway: who shares the login is let in", elmer.mails() == ["from-bugs", "from-comton"])
    scene.row("a gateway: another is not", b"RLOGIN" in greet(door, "uupsi", "Ulocal"))
    elmer.mail("uupsi", "to-the-world")
    uupsi.mail("airs", "from-the-world")
    scene.row("a gateway: the third alternate is called", elmer.run("ours", "-q", "-s", "uupsi") == 0)
    scene.row("a gateway: mail with the world", (uupsi.mails(), "from-the-world" in elmer.mails()) == (["to-the-world"], True))
    scene.row("a gateway: by its other name", "uucico airs - " in uupsi.log() and elmer.log().count("BUSY") == 2)
    said = subprocess.run(elmer.words("ours", "--check"), capture_output=True, text=True, check=False)
    scene.row("a gateway: --check", said.returncode == 0 and said.stdout.endswith("3 systems, 0 lines stop a call\n"))


LEAF = """\
system uunet
call-login *
call-password *
time any
call-timegrade Z Wk0755-2305,Su1655-2305
phone 7389449
chat-timeout 120
port type modem
port device {device}
port speed 19200
port carrier true
port dialer chat "" ATZ\\r\\d\\c OK ATDT\\D CONNECT
port dialer chat-fail BUSY
port dialer chat-fail NO\\sCARRIER
port dialer complete \\d\\d+++\\d\\dATH\\r\\c
port dialer abort \\d\\d+++\\d\\dATH\\r\\c
protocol-parameter g timeout 20
protocol-parameter g retries 10
"""


def scene_leaf(scene: Scene) -> None:
    """The leaf of the manual's example: its port and dialer are in the sys file, and the login chat is the default one."""
    uunet = Node(scene.folder, "uunet", scene.alpha.scripts)
    uunet.knows("alpha", "called-login Uleaf")
    uunet.put("passwd", f"Uleaf {SECRET}\n")
    leaf = scene.alpha
    device = scene.modem("CONNECT 19200", *uunet.words("taylor", "-l", "-q"))
    leaf.put("sys", f"commands rmail\ncommand-path {leaf.folder}/bin\n" + LEAF.format(device=device))
    leaf.put("call", f"uunet Uleaf {SECRET}\n")
    leaf.mail("uunet", "to-uunet")
    uunet.mail("alpha", "from-uunet")
    scene.row("a leaf: the call is done", leaf.run("ours", "-q", "-s", "uunet") == 0)
    scene.row("a leaf: each mail came once", (leaf.mails(), uunet.mails()) == (["from-uunet"], ["to-uunet"]))
    scene.row("a leaf: its modem was told to dial", (scene.folder / "told").read_text().split()[:2] == ["ATZ", "ATDT7389449"])


def scene_cuts(scene: Scene, caller: str, called: str) -> None:
    """Calls of which the caller, the called end or the line is killed: in the end each mail came once, and nothing is barred."""
    lets_in(scene.beta)
    scene.beta.knows("gamma")
    device = scene.folder / "tty"
    at_device(scene.alpha, device)
    # a terminal that is gone may be another scene's by now, which lets nobody in by this password
    secret = f"{SECRET}-{caller}-{called}-{os.getpid()}"
    scene.alpha.put("call", f"beta Ualpha {secret}\n")
    scene.beta.put("passwd", f"Ualpha {secret}\n")
    scene.alpha.put("sys", text_of(scene.alpha.folder / "sys").replace("chat ogin:", 'chat "" \\r\\c ogin:'))
    script = scene.folder / "answers"
    script.write_text("#!/bin/sh\nexec " + " ".join(scene.beta.words(called, "-l", "-q")) + " 2>/dev/null\n")
    script.chmod(0o755)
    chance, expected = random.Random(f"{caller} {called}"), (set(), set())
    for number in range(CUTS + 1):
        for node, other, wanted in ((scene.alpha, "beta", expected[1]), (scene.beta, "alpha", expected[0])):
            wanted.add(f"{node.name}-{number}")
            node.mail(other, f"{node.name}-{number}")
        for _ in range(1 if number < CUTS else 8):
            cut_call(scene, caller, device, script, chance if number < CUTS else None)
        scene.alpha.mails()
    scene.row(
        f"cuts, {caller} calls {called}: each mail came once",
        (scene.alpha.mails(), scene.beta.mails()) == (sorted(expected[0]), sorted(expected[1])),
    )
    scene.row(
        f"cuts, {caller} calls {called}: nothing is queued", not scene.alpha.queued("beta") and not scene.beta.queued("alpha")
    )


def cut_call(scene: Scene, caller: str, device: Path, script: Path, chance: random.Random | None) -> None:
    """A call of which one part is killed with signal 9 at some moment, where there is chance."""
    line = as_uucp(
        ["socat", "-b", "64", f"PTY,link={device},raw,echo=0", f"EXEC:{script},pty,raw,echo=0,setsid"],
        start_new_session=True,
        stdout=subprocess.DEVNULL,
        stderr=subprocess.DEVNULL,
    )
    wait_until(device.exists)
    call = as_uucp(
        scene.alpha.words(caller, "-D", "-q", "-S", "beta"),
        stdin=subprocess.DEVNULL,
        stdout=subprocess.DEVNULL,
        stderr=subprocess.DEVNULL,
        start_new_session=True,
    )
    if chance is None:
        call.wait(60)
    else:
        with contextlib.suppress(subprocess.TimeoutExpired):
            call.wait(chance.uniform(0.1, 0.9))
        with contextlib.suppress(ProcessLookupError):
            victim = chance.choice((line, call))
            chance.choice((os.killpg, os.kill))(victim.pid, signal.SIGKILL)
    for one in (call, line):
        with contextlib.suppress(subprocess.TimeoutExpired, ProcessLookupError):
            one.wait(0.5 if one is line or chance else 5)
            continue
        with contextlib.suppress(ProcessLookupError):
            os.killpg(one.pid, signal.SIGKILL)
        one.wait()
    wait_until(lambda: not at_work(scene.folder), 10)
    with contextlib.suppress(FileNotFoundError):
        device.unlink()


def at_work(folder: Path) -> list[str]:
    """Returns the processes that name this folder."""
    return [path.name for path in Path("/proc").glob("[0-9]*") if str(folder) in text_of(path / "cmdline")]


PARTS = {
    "tcp_login": PEERS,
    "cuts": (("ours", "taylor"), ("taylor", "ours"), ("ours", "ours")),
    "terminal_login": PEERS,
    "modem": (("ours",), ("taylor",)),
    "modem_fails": (("BUSY",), ("NO_CARRIER",)),
    "pipe": (("ours",), ("taylor",)),
    "wrong_password": (("ours",), ("taylor",)),
    "several": (("ours",), ("taylor",)),
    "uuxqt": (("caller",), ("called",)),
    "waits_at_port": (("tcp",), ("direct",)),
    "hdb": (("ours",), ("taylor",)),
    "login_shell": (("pty",), ("socket",)),
    "called_back": (("ours",), ("taylor",)),
    "sequence": PEERS,
    "called_chat": PEERS,
    "work_of_grades": PEERS,
    "folders": (("ours", "calls"), ("ours", "answers"), ("taylor", "calls"), ("taylor", "answers")),
    "elsewhere": (("ours", "calls"), ("ours", "answers"), ("taylor", "calls"), ("taylor", "answers")),
    "places": (("ours",), ("taylor",)),
    "requests": (("ours", "calls"), ("ours", "answers"), ("taylor", "calls"), ("taylor", "answers")),
    "unknown": (("ours",), ("taylor",)),
}


def scenes() -> Iterator[tuple[str, Callable[[Scene], None]]]:
    for name, function in list(globals().items()):
        if name.startswith("scene_"):
            name = name.removeprefix("scene_")
            for words in PARTS.get(name, [()]):
                yield "_".join((name, *words)), lambda scene, function=function, words=words: function(scene, *words)


def copy_of_scripts(work: Path, program: Path) -> Path:
    """Returns a copy of packaging/ that runs a copy of the program."""
    scripts = work / "scripts"
    shutil.copytree(ROOT / "packaging", scripts, ignore=shutil.ignore_patterns("__pycache__"))
    shutil.copy(program, scripts / "uucpair")
    (scripts / "uucpair").chmod(0o755)
    paths = scripts / "uucp_site/paths.py"
    paths.write_text(
        paths.read_text().replace("/usr/bin/uucpair", str(scripts / "uucpair")).replace("/var/log/uucp/Debug", f"{work}/errors")
    )
    return scripts


def run_scene(function: Callable[[Scene], None], folder: Path, scripts: Path) -> list[Row]:
    folder.mkdir()
    folder.chmod(0o777)
    scene = Scene(folder, scripts)
    try:
        function(scene)
    except Exception as fault:  # a scene that can't go on is a row that failed
        scene.row(f"{folder.name}: {type(fault).__name__}: {fault}", False)
    finally:
        scene.end()
    return scene.rows


def main() -> int:
    program = Path(sys.argv[1] if len(sys.argv) > 1 else ROOT / "crates/uucpair/out/uucpair").resolve()
    wanted = sys.argv[2:]
    work = Path(tempfile.mkdtemp())
    work.chmod(0o777)
    passed = failed = 0
    scripts = copy_of_scripts(work, program)
    with concurrent.futures.ThreadPoolExecutor(SIDE_BY_SIDE) as pool:
        running = {
            pool.submit(run_scene, function, work / name, scripts): name
            for name, function in scenes()
            if not wanted or any(name.startswith(one) for one in wanted)
        }
        for done in concurrent.futures.as_completed(running):
            rows = done.result()
            passed += sum(is_so for _, is_so in rows)
            failed += sum(not is_so for _, is_so in rows)
            for name, is_so in rows:
                if not is_so:
                    print(f"NOT SO: {name} ({work / running[done]})", flush=True)
    if failed == 0 and not os.environ.get("KEEP"):
        shutil.rmtree(work)
    print(f"{passed} passed, {failed} failed")
    return 1 if failed or not passed else 0


if __name__ == "__main__":
    sys.exit(main())
