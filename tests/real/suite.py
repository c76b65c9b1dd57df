"""Serves the scenes of `tests/real.py`: a folder for each, the processes that it starts, and its rows."""
import contextlib
import functools
import itertools
import os
import re
import shutil
import signal
import socket
import subprocess
import tempfile
import threading
import time

SECONDS_MAX = 240
# Once so many have hung, no other gets more than so many seconds.
HUNG_MAX, SECONDS_THEN = 3, 30
_hung = []
FRONT = "uucpair: "
SCENES = []
_open = set()
_numbers = itertools.count(1)
_lock = threading.Lock()
# Held while a process is started, so that none is when all are ended.
_starting = threading.Lock()
_is_closing = threading.Event()
_folders = []


def scene(*needs):
    """Marks a function that is a scene. It needs these commands; `root` is the user, `python3-NAME` a module, and `minutes` is what
    it takes with an unproved program, which is slow."""

    def mark(function):
        SCENES.append((function, needs))
        return function

    return mark


def part(name, needs, function, **words):
    """Adds a scene of this name: the function, with these words."""
    one = functools.partial(function, **words)
    one.__name__, one.__module__ = name, function.__module__
    SCENES.append((one, needs))


def at_both_ends(*needs):
    """Marks a function that is two scenes: of the end that calls, and of the one that is called."""

    def mark(function):
        for end, who in (("alpha", "who_calls"), ("beta", "who_is_called")):
            part(f"{function.__name__}_{who}", needs, function, end=end)
        return function

    return mark


def is_here(need):
    if need == "root":
        return os.geteuid() == 0
    if need == "minutes":
        return True
    if need.startswith("python3-"):
        words = ["/usr/bin/python3", "-c", f"import {need.removeprefix('python3-')}"]
        return subprocess.run(words, stderr=subprocess.DEVNULL, check=False).returncode == 0
    return shutil.which(need, path=os.environ["PATH"] + ":/usr/sbin:/usr/lib/uucp") is not None


def text_in(path):
    """Returns the text of a file, or none where there is no such file."""
    contents = read(path)
    return None if contents is None else contents.decode(errors="backslashreplace")


def read(path):
    """Returns the bytes of a file, or none where there is no such file."""
    try:
        with open(path, "rb") as file:
            return file.read()
    except OSError:
        return None


def write(path, contents, mode="wb"):
    os.makedirs(os.path.dirname(path), exist_ok=True)
    with open(path, mode) as file:
        file.write(contents if isinstance(contents, bytes) else contents.encode())


def names_in(folder):
    try:
        return sorted(os.listdir(folder))
    except FileNotFoundError:
        return []


def files_below(folder):
    """Returns each file below a folder, by its path there, with its bytes."""
    found = {}
    for at, _, names in os.walk(folder):
        for name in names:
            path = os.path.join(at, name)
            found[os.path.relpath(path, folder)] = read(path)
    return found


def wait_until(condition, seconds=20):
    """Returns whether something is so within this time."""
    until = time.monotonic() + seconds
    while not condition():
        if time.monotonic() > until:
            return False
        time.sleep(0.005)
    return True


def listens_at(path):
    """Returns whether somebody listens at a Unix socket, by what the system says: nobody connects to it for that."""
    with open("/proc/net/unix") as file:
        return any(" 00010000 " in line and line.rstrip().endswith(f" {path}") for line in file)


def listens_on(port):
    with open("/proc/net/tcp") as file:
        return any(line.split()[1].endswith(f":{port:04X}") and line.split()[3] == "0A" for line in file.readlines()[1:])


def fill_disk(path):
    """Fills the disk, by a file at this path."""
    file = os.open(path, os.O_WRONLY | os.O_CREAT)
    with contextlib.suppress(OSError):
        while True:
            os.write(file, bytes(1024))
    os.close(file)


def free_port():
    with socket.socket() as door:
        door.bind(("127.0.0.1", 0))
        return door.getsockname()[1]


def filler(name, size):
    """Returns a text of so many bytes, of which each piece is another one, and that of no other name."""
    return "".join(f"{name}, line {number}\n" for number in range(size // 8 + 1))[:size]


def shown(value):
    text = repr(value)
    return text if len(text) < 1500 else f"{text[:700]} .. {text[-700:]} ({len(text)} characters)"


def differing(found, expected):
    """Returns the parts of two dictionaries that are not the same."""
    if not isinstance(found, dict) or not isinstance(expected, dict):
        return found, expected
    keys = [key for key in {**found, **expected} if found.get(key) != expected.get(key)]
    return {key: found.get(key) for key in keys}, {key: expected.get(key) for key in keys}


class Ended:
    """A program that has ended: its status, what it printed, and what it said on standard error."""

    def __init__(self, status, out, err):
        self.status, self.out, self.err = status, out, err

    def all(self):
        return (self.status, self.out, self.err)


class Running:
    """A program that was started, whose output goes to files."""

    # So many seconds it has to end by itself.
    patience = 0

    def __init__(self, process, out, err):
        self.process, self.out, self.err = process, out, err

    def end(self, seconds=SECONDS_MAX):
        """Waits for its end. One that is not over in time is killed, and its status is `hangs`."""
        try:
            status = self.process.wait(seconds if len(_hung) < HUNG_MAX else min(seconds, SECONDS_THEN))
        except subprocess.TimeoutExpired:
            self.kill()
            _hung.append(self)
            status = "hangs"
        return Ended(status, text_of(self.out), text_of(self.err))

    def said(self):
        return text_of(self.err)

    def stop(self):
        """Kills it where it waits still. What it has printed and said by then."""
        status = "waits" if self.process.poll() is None else self.process.returncode
        self.kill()
        return Ended(status, text_of(self.out), text_of(self.err))

    def kill(self):
        """Ends it, and all that it has started: a script has a moment to end what it has."""
        for number, seconds in ((signal.SIGTERM, self.patience), (signal.SIGKILL, None)):
            with contextlib.suppress(ProcessLookupError, subprocess.TimeoutExpired):
                if seconds != 0:
                    os.killpg(self.process.pid, number)
                    self.process.wait(seconds)


def text_of(path):
    return (read(path) or b"").decode(errors="backslashreplace")


def new_folder():
    """Makes a folder that goes when all is ended."""
    with _starting:
        if _is_closing.is_set():
            raise RuntimeError("all are ended")
        folder = tempfile.mkdtemp(prefix="uucpair-real.")
        _folders.append(folder)
        return folder


class Scene:
    """The folder and the rows of one scene. All that it has started is ended with it."""

    def __init__(self, name, program):
        self.name, self.program = name, program
        self.work = new_folder()
        os.chmod(self.work, 0o755)
        self.started, self.mounted, self.rows, self.count = [], [], [], 0
        # The system knows a socket by the path that it was made at, so each scene has another one.
        self.line = f"unix:line{os.getpid()}.{next(_numbers)}"
        with _lock:
            _open.add(self)

    def row(self, what, found, expected):
        """Adds a row, which is well where the two are the same."""
        fault = None
        if found != expected:
            found, expected = differing(found, expected)
            fault = f"expected {shown(expected)}, and there was {shown(found)}"
        self.rows.append((f"{self.name}: {what}", fault))
        return fault is None

    def holds(self, what, is_so, there):
        """Adds a row, which is well where something is so."""
        self.rows.append((f"{self.name}: {what}", None if is_so else f"it is not so: {shown(there)}"))
        return is_so

    def path(self, name):
        return os.path.join(self.work, name)

    def start(self, words, front=(), stdin=subprocess.DEVNULL, stdout=None, env=None):
        """Starts the program, or with `front` a command that runs it."""
        self.count += 1
        out, err = self.path(f".out.{self.count}"), self.path(f".err.{self.count}")
        with open(out, "wb") as to, open(err, "wb") as told:
            how = {"stdin": stdin, "stdout": to if stdout is None else stdout, "stderr": told, "cwd": self.work}
            return self.begin([*front, self.program, *words], out, err, env={**os.environ, **(env or {})}, **how)

    def begin(self, words, out, err, **how):
        """Starts a command in a session of its own, which is ended with the scene."""
        with _starting:
            if _is_closing.is_set():
                raise RuntimeError("all are ended")
            running = Running(subprocess.Popen(words, start_new_session=True, **how), out, err)
            self.started.append(running)
        return running

    def run(self, words, seconds=SECONDS_MAX, **how):
        return self.start(words, **how).end(seconds)

    def mount(self, path, size):
        """Mounts a small disk in memory."""
        os.makedirs(path, exist_ok=True)
        subprocess.run(["mount", "-t", "tmpfs", "-o", f"size={size}", "uucpair", path], check=True)
        self.mounted.append(path)

    def close(self):
        for running in self.started:
            running.kill()
        for path in reversed(self.mounted):
            subprocess.run(["umount", "-l", path], check=False)
        shutil.rmtree(self.work, ignore_errors=True)
        with _lock:
            _open.discard(self)


def close_all():
    """Ends what all scenes have started, and lets them start nothing more."""
    with _starting:
        _is_closing.set()
    scenes = list(_open)
    for one in scenes:
        one.close()
    # A scene that was about to write something has done so by now.
    time.sleep(0.3)
    for folder in _folders:
        shutil.rmtree(folder, ignore_errors=True)


def run_scene(function, program):
    """Runs a scene, and returns its rows. One that stops has a row that says why."""
    begun = time.monotonic()
    one = Scene(function.__name__, program)
    try:
        function(one)
    except Exception as error:  # whatever stops a scene is a row of it
        place = error.__traceback__
        while place.tb_next:
            place = place.tb_next
        one.rows.append((f"{one.name}: the scene",
                f"it stopped at {place.tb_frame.f_code.co_name}, line {place.tb_lineno}: {error!r}"))
    finally:
        one.close()
    return one.rows, time.monotonic() - begun


# ---- two ends over folders


class Ends:
    """The folders of the end `alpha`, which calls, and of `beta`, which is called."""

    def __init__(self, one, numbered=None):
        self.one = one
        for end in ("alpha", "beta"):
            for name in ("send", "got"):
                os.makedirs(self.at(end, name), exist_ok=True)
            if numbered is not None:
                write(self.at(end, "number"), f"{numbered}\n")

    def at(self, end, name=""):
        return os.path.join(self.one.work, end, name)

    def give(self, end, **files):
        for name, contents in files.items():
            write(self.at(end, f"send/{name}"), contents)

    def jobs(self, end, *lines):
        write(self.at(end, "jobs"), "".join(f"{line}\n" for line in lines))

    def words(self, verb, line, *more):
        me, peer = ("alpha", "beta") if verb == "call" else ("beta", "alpha")
        return [verb, line, me, "--me", me, "--peer", peer, *more]

    def answer(self, line, *more, **how):
        """Starts the called end, and waits until it listens at its socket."""
        running = self.one.start(self.words("answer", line, *more), **how)
        kind, _, place = line.partition(":")
        is_there = {"unix": lambda: listens_at(place), "tcp": lambda: listens_on(int(place.split(":")[-1]))}
        wait_until(lambda: running.process.poll() is not None or is_there[kind]())
        if kind == "unix" and os.path.exists(self.one.path(place)):
            os.chmod(self.one.path(place), 0o777)
        return running

    def call(self, line, *more, **how):
        return self.one.run(self.words("call", line, *more), **how)

    def talk(self, line=None, call=(), answer=()):
        """Runs one session, and returns both ends as they have ended."""
        line = line or self.one.line
        called = self.answer(line, *answer)
        caller = self.call(line, *call)
        return caller, called.end()

    def state(self, end):
        """Returns what is in the folder of an end, but for what it gives."""
        there = {name: contents for name,
                contents in files_below(self.at(end)).items() if not name.startswith("send/") and name != "log"}
        return {name: contents.decode(errors="backslashreplace") for name, contents in there.items()}


def masked(log):
    """Returns a log without its times, its processes, and the seconds of its sessions."""
    lines = []
    for line in text_of(log).splitlines():
        line = re.sub(r"\(20\d\d-[01]\d-[0-3]\d [0-2]\d:[0-5]\d:[0-6]\d\.\d\d \d+\)", "(TIME)", line)
        lines.append(re.sub(r"\(\d+ seconds (\d+) bytes \d+ bps\)", r"(\1 bytes)", line))
    return lines


def report(side, phase="done", pending=0, struck=0, failed=()):
    """Returns the report of an end, with these jobs that have failed."""
    lines = [f"{side} {phase} pending {pending} struck {struck} failed {len(failed)}"]
    return "".join(f"{line}\n" for line in [*lines, *(f"{side} failed {job}" for job in failed)])


def said(*lines):
    return "".join(f"{FRONT}{line}\n" for line in lines)


def too_large(path, size, limit):
    """What is said of a file of a job that is over the limit of its own end."""
    return f"{path}: {size} bytes, over the limit of {limit} (--file-limit); the job will be given up"


@contextlib.contextmanager
def shared(program):
    """Makes a copy of the program that anybody may run."""
    folder = new_folder()
    os.chmod(folder, 0o755)
    copy = shutil.copy(program, os.path.join(folder, "uucpair"))
    os.chmod(copy, 0o755)
    yield copy
    shutil.rmtree(folder, ignore_errors=True)
