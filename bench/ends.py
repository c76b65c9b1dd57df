"""Two ends and what one sends the other, for the scripts that run them over a line of their own: ends of `uucpair`, and of
Taylor UUCP (Debian's package `uucp`, with `socat`; root is needed, since uucico runs as the user uucp).

A load is what the caller sends: `file` is one file of 20,000 bytes; `mails` is five times a file of 1,500 bytes and one of 80
that says what to do with it, so ten S commands, which is what five mails are to an end that knows no other command.
"""
import contextlib
import os
import random
import shutil
import subprocess
import sys
import tempfile
import threading

sys.path.insert(0, os.path.join(os.path.dirname(os.path.abspath(__file__)), "../tests"))

from two_sockets import connected, listening

UUCICO = "/usr/sbin/uucico"
FILE_SIZE = 20_000
MAILS, MAIL_SIZE, ORDER_SIZE = 5, 1_500, 80


def load_files(load):
    """The files of a load by their names at the taker, in the order in which they go."""
    source = random.Random(7)
    if load == "file":
        return {"file": source.randbytes(FILE_SIZE)}
    files = {}
    for number in range(1, MAILS + 1):
        for kind, size in (("D", MAIL_SIZE), ("X", ORDER_SIZE)):
            text = "".join(source.choice("abcdefghijklmnopqrstuvwxyz ETAOIN\n") for _ in range(size))
            files[f"{kind}.aN000{number}"] = text.encode()
    return files


class Ours:
    """An end of `uucpair` over a folder."""

    def __init__(self, program, work, me, peer, options):
        self.program, self.me, self.peer, self.options = program, me, peer, options
        self.folder = os.path.join(work, me)
        os.makedirs(os.path.join(self.folder, "send"))
        os.makedirs(os.path.join(self.folder, "got"))
        self.queue({})

    def queue(self, files):
        jobs = []
        for name, content in files.items():
            with open(os.path.join(self.folder, "send", name), "wb") as file:
                file.write(content)
            jobs.append(f"send {name} {name if name != 'file' else '~/file'} u\n")
        with open(os.path.join(self.folder, "jobs"), "w", encoding="ascii") as file:
            file.writelines(jobs)

    def command(self, verb, line):
        return [self.program, verb, line, self.folder, "--me", self.me, "--peer", self.peer, *self.options]

    def call(self, line):
        return start(self.command("call", line), self.folder)

    def answer(self, line):
        return start(self.command("answer", line), self.folder)

    def said(self):
        return said(self.folder)

    def took(self, name):
        return read(os.path.join(self.folder, "got", name))


class Taylor:
    """An end of Taylor UUCP with a spool of its own."""

    def __init__(self, work, me, peer, size, window, seconds):
        self.me, self.peer = me, peer
        self.folder = os.path.join(work, me)
        self.size, self.window, self.seconds = size, window, seconds
        for name in ("spool", "pub"):
            os.makedirs(os.path.join(self.folder, name))
        os.chmod(os.path.join(self.folder, "pub"), 0o777)
        self.write(
            "config",
            f"nodename {me}",
            *(f"{word} {self.folder}/{word}" for word in ("spool", "logfile", "statfile", "debugfile")),
            f"pubdir {self.folder}/pub",
            f"lockdir {self.folder}",
            f"sysfile {self.folder}/sys",
            f"portfile {self.folder}/port",
        )
        self.write(
            "sys",
            f"system {peer}",
            "time any",
            "port gate",
            "protocol g",
            f"protocol-parameter g packet-size {size}",
            f"protocol-parameter g window {window}",
            f"protocol-parameter g timeout {seconds}",
            "remote-receive ~",
            "local-send ~",
        )
        self.port("type stdin")

    def write(self, name, *lines):
        with open(os.path.join(self.folder, name), "w", encoding="ascii") as file:
            file.writelines(f"{line}\n" for line in lines)

    def port(self, *lines):
        self.write("port", "port gate", *lines)

    def add(self, *lines):
        """Lines of what it knows of the other system."""
        with open(os.path.join(self.folder, "sys"), "a", encoding="ascii") as file:
            file.writelines(f"{line}\n" for line in lines)

    def is_done(self):
        log = read(os.path.join(self.folder, "logfile")) or b""
        return b"Call complete" in log and b"ERROR" not in log

    def queue(self, files):
        place = os.path.join(self.folder, "spool", self.peer)
        for name in ("C.", "D.", "D.X"):
            os.makedirs(os.path.join(place, name))
        orders = []
        for number, (name, content) in enumerate(files.items(), 1):
            temp = f"D.X{number:04}" if name.startswith("X.") else f"D.{number:04}"
            with open(os.path.join(place, temp[:3] if temp.startswith("D.X") else "D.", temp), "wb") as file:
                file.write(content)
            orders.append(f"S {temp} {name if name != 'file' else '~/file'} uucp - {temp} 0666\n")
        with open(os.path.join(place, "C.", "C.N0001"), "w", encoding="ascii") as file:
            file.writelines(orders)

    def own(self):
        subprocess.run(["chown", "-R", "uucp:uucp", self.folder], check=True)

    def call(self, line):
        if line.startswith("unix:"):
            self.port("type pipe", f"command /usr/bin/socat - UNIX-CONNECT:{line[5:]}")
            self.add('chat ""')
        else:
            self.port("type direct", f"device {line}", "speed 9600", "carrier false", "hardflow false")
            # It speaks first, so that the other end can know that the device is open.
            self.add('chat "" \\r\\c')
        self.own()
        return start(as_uucp(UUCICO, "-q", "-I", f"{self.folder}/config", "-f", "-s", self.peer), self.folder)

    def answer(self, line):
        self.own()
        command = as_uucp(UUCICO, "-q", "-I", f"{self.folder}/config")
        if line.startswith("unix:"):
            return start(["socat", f"UNIX-LISTEN:{line[5:]},mode=666", "EXEC:" + " ".join(command)], self.folder)
        with open(line, "r+b", buffering=0) as device:
            return start(command, self.folder, device)

    def said(self):
        try:
            with open(os.path.join(self.folder, "logfile"), encoding="latin-1") as file:
                return "; ".join(file.read().splitlines()[-2:])
        except OSError:
            return said(self.folder)

    def took(self, name):
        if name == "file":
            return read(os.path.join(self.folder, "pub", "file"))
        for place, _, names in os.walk(os.path.join(self.folder, "spool")):
            if name in names:
                return read(os.path.join(place, name))
        return None


def as_uucp(*command):
    return ["runuser", "-u", "uucp", "--", *command]


def start(command, folder, device=None):
    with open(os.path.join(folder, "said"), "ab") as errors:
        return subprocess.Popen(
            command,
            cwd="/",
            stdin=device or subprocess.DEVNULL,
            stdout=device or errors,
            stderr=errors,
            start_new_session=True,
        )


def said(folder):
    text = read(os.path.join(folder, "said")) or b""
    return "; ".join(text.decode("latin-1").splitlines()[:2])


def read(path):
    try:
        with open(path, "rb") as file:
            return file.read()
    except OSError:
        return None


def all_came(taker, files):
    return all(taker.took(name) == content for name, content in files.items())


def stop(*processes):
    """Ends what still runs of them, and waits for it."""
    for process in processes:
        if process.poll() is None:
            process.terminate()
    for process in processes:
        try:
            process.wait(5)
        except subprocess.TimeoutExpired:
            process.kill()
            process.wait()


def fresh(work):
    """A new folder that the user uucp may look into."""
    shutil.rmtree(work, ignore_errors=True)
    os.makedirs(work)
    os.chmod(work, 0o755)
    return work


@contextlib.contextmanager
def over_sockets(work, caller, called, seconds=20):
    """Starts both, each over a socket of its own. It gives the two processes, and a stream to each, which are closed behind
    the block. Where the caller does not connect in so many seconds both are ended, and that is raised."""
    near, far = os.path.join(work, "near"), os.path.join(work, "far")
    with listening(near) as door:
        door.settimeout(seconds)
        answering = called.answer(f"unix:{far}")
        other = connected(far, seconds)
        calling = caller.call(f"unix:{near}")
        try:
            one, _ = door.accept()
        except OSError:
            stop(calling, answering)
            raise
    with one, other:
        yield calling, answering, one, other


def side_by_side(run, cells, most=1_000):
    """Calls `run` for each cell with a folder of its own and what is in the cell, at most so many at a time. The answer is what
    came of each, in their order."""
    came, room = [None] * len(cells), threading.Semaphore(most)

    def measure(place, cell):
        with room, tempfile.TemporaryDirectory() as work:
            os.chmod(work, 0o755)
            came[place] = run(fresh(f"{work}/w"), *cell)

    threads = [threading.Thread(target=measure, args=entry) for entry in enumerate(cells)]
    for thread in threads:
        thread.start()
    for thread in threads:
        thread.join()
    return came


def program_named():
    """The program that the first argument names, or the one that was built here."""
    root = os.path.dirname(os.path.dirname(os.path.abspath(__file__)))
    return os.path.abspath(sys.argv[1]) if len(sys.argv) > 1 else f"{root}/crates/uucpair/out/uucpair"
