#!/usr/bin/env python3
"""Tries what becomes of the jobs where the system refuses calls of `call` and `answer`, over folders and over spools.

    tests/refused_calls.py [PROGRAM [KIND [CALL..]]]

Two ends move files both ways, and one of them, under `strace`, has its first call of a name refused; then the second one, and so
on, each once, and each with all calls of that name behind it. Sessions without refusals follow, until nothing waits. Each file
has to come whole, and each mail once. A row has so many trials, and

    lost    jobs to send a file, which is there, that were given up or are gone; and those to ask for one that are gone untold
    told    jobs to ask for a file that were given up, and told of, as where the other end can't read it; over spools the log of that
            end names the file, too
    twice   mails that came again
    stuck   trials that waited for something in the end

The last line has the sums, and the status is 1 where anything was lost, came twice or got stuck. Rows of which all are zero are
left out. PROGRAM is crates/uucpair/out/uucpair where none is named, KIND is `folders`, `spools` or `stopped`. It needs strace.
"""
import collections
import concurrent.futures
import os
import shutil
import subprocess
import sys
import tempfile
import time

sys.dont_write_bytecode = True
sys.path.insert(0, os.path.dirname(os.path.abspath(__file__)))

from held import program_named

SESSIONS_MAX = 4
SECONDS_MAX = 30
# A trial mostly waits: for the end whose other one could not begin.
TRIALS_AT_ONCE = 4 * os.cpu_count()
# Of the process itself; and `close`: a call that strace refuses is not made, so what a program has closed would stay open.
PASSED_OVER = {
    "arch_prctl", "clock_gettime", "clock_nanosleep", "close", "execve", "exit", "exit_group", "futex", "getpid", "getrandom",
    "gettid", "mprotect", "munmap", "nanosleep", "prlimit64", "rseq", "rt_sigaction", "rt_sigprocmask", "rt_sigreturn",
    "set_robust_list", "set_tid_address", "sigaltstack",
}
REFUSALS = {"brk": "ENOMEM", "mmap": "ENOMEM", "mremap": "ENOMEM", "write": "ENOSPC", "pwrite64": "ENOSPC"}

Row = collections.namedtuple("Row", "lost told twice stuck")


def contents(name):
    return "".join(f"{name} {i}\n" for i in range(400)).encode()


def write(path, text):
    os.makedirs(os.path.dirname(path), exist_ok=True)
    with open(path, "wb") as file:
        file.write(text)


def read(path):
    try:
        with open(path, "rb") as file:
            return file.read()
    except OSError:
        return b""


class Scene:
    """Two ends, and what waits at them."""

    def prepare(self, program):
        """Does what goes before the session in which calls are refused."""

    def collect(self):
        """Takes what a session has brought."""


class Folders(Scene):
    """Two folders: each end sends and asks for files."""

    NAMES = VICTIMS = ("a", "b")
    JOBS = {"a": ("send x x u", "send y y u", "request r r u"), "b": ("send z z u", "request q q u")}
    GIVEN = {"a": "xyq", "b": "rz"}

    def __init__(self, work):
        self.work = work
        for end in self.NAMES:
            write(f"{work}/{end}/jobs", "".join(f"{job}\n" for job in self.JOBS[end]).encode())
            os.makedirs(f"{work}/{end}/got")
            for name in self.GIVEN[end]:
                write(f"{work}/{end}/send/{name}", contents(name))

    def words(self, end):
        return [f"{self.work}/{end}", "--me", end, "--peer", "b" if end == "a" else "a"]

    def waits(self):
        return any(read(f"{self.work}/{end}/jobs") for end in self.NAMES)

    def judge(self):
        lost, told = [], []
        for end in self.NAMES:
            pending = read(f"{self.work}/{end}/jobs").decode().splitlines()
            failed = read(f"{self.work}/{end}/failed").decode().splitlines()
            for job in self.JOBS[end]:
                word, name = job.split()[:2]
                taker = end if word == "request" else {"a": "b", "b": "a"}[end]
                if read(f"{self.work}/{taker}/got/{name}") == contents(name) or job in pending:
                    continue
                (told if word == "request" and job in failed else lost).append(f"{end}: {job}")
        return lost, told, []


class Spools(Scene):
    """Two spools: each node sends a file, one that is a copy and a mail, and asks for a file."""

    NAMES = VICTIMS = ("alpha", "beta")
    KINDS = ("plain", "copy", "open")

    def __init__(self, work):
        self.work = work
        self.mails = collections.Counter()
        for node in self.NAMES:
            other, pub, spool = self.other(node), f"{work}/{node}/pub", f"{work}/{node}/spool"
            for kind in self.KINDS:
                write(f"{pub}/{kind}-{node}", contents(f"{kind}-{node}"))
            write(f"{spool}/{other}/D./D.0002", contents(f"copied-{node}"))
            write(f"{spool}/{other}/D./D.0003", contents(f"mail-{node}"))
            os.makedirs(f"{work}/{node}/lock")
            for number, line in enumerate((
                f"S {pub}/plain-{node} ~/plain-{node} u -c D.0001 0644 ",
                f"S {pub}/copy-{node} ~/copied-{node} u -C D.0002 0644 ",
                f"E D.0003 D.{node}N0003 u -CNZ D.0003 0666 u 0 rmail u@{other}",
                f"R ~/open-{other} {pub}/asked-{other} u -d",
            )):
                write(f"{spool}/{other}/C./C.N{number}", f"{line}\n".encode())

    def other(self, node):
        return "beta" if node == "alpha" else "alpha"

    def words(self, node):
        here = f"{self.work}/{node}"
        return [f"{here}/spool", "--spool", "--me", node, "--peer", self.other(node), "--public", f"{here}/pub",
                "--locks", f"{here}/lock", "--log", f"{here}/Log", "--stats", f"{here}/Stats"]

    def collect(self):
        """Delivers each mail that has its data, as a program that runs commands does."""
        for node in self.NAMES:
            front = f"{self.work}/{node}/spool/{self.other(node)}"
            for name in os.listdir(f"{front}/X.") if os.path.isdir(f"{front}/X.") else ():
                text = read(f"{front}/X./{name}").decode()
                data = [line[2:] for line in text.splitlines() if line.startswith("F ")]
                if data and os.path.exists(f"{front}/D./{data[0]}"):
                    if read(f"{front}/D./{data[0]}") == contents(f"mail-{self.other(node)}"):
                        self.mails[self.other(node)] += 1
                    os.remove(f"{front}/D./{data[0]}")
                    os.remove(f"{front}/X./{name}")

    def waits(self):
        return any(os.listdir(f"{self.work}/{node}/spool/{self.other(node)}/C.") for node in self.NAMES)

    def judge(self):
        lost, told, twice = [], [], []
        for node in self.NAMES:
            other, failed = self.other(node), read(f"{self.work}/{node}/spool/.Preserve/failed").decode()
            came = {
                f"plain-{node}": read(f"{self.work}/{other}/pub/plain-{node}") == contents(f"plain-{node}"),
                f"copied-{node}": read(f"{self.work}/{other}/pub/copied-{node}") == contents(f"copied-{node}"),
                f"asked-{other}": read(f"{self.work}/{node}/pub/asked-{other}") == contents(f"open-{other}"),
                f"D.{node}N0003": self.mails[node] > 0,
            }
            log = read(f"{self.work}/{other}/Log").decode()
            for name, whole in came.items():
                if not whole:
                    is_told = name.startswith("asked") and name in failed and " is not given: " in log
                    (told if is_told else lost).append(f"{node}: {name}")
            if self.mails[node] > 1:
                twice.append(node)
        return lost, told, twice


class Stopped(Spools):
    """The same spools. The end that answers was killed when a mail stood whole beside its marker, before that came to its place."""

    VICTIMS = ("beta",)
    renames = None

    def prepare(self, program):
        front = ("strace", "-f", "-qq", "-o", "/dev/null", "-e", "trace=rename", "-e", f"inject=rename:signal=SIGKILL:when={self.renames}")
        session(program, self, "beta", front)

    def is_between(self):
        return all(os.path.exists(f"{self.work}/beta/spool/{room}/alpha/D.alphaN0003") for room in (".Temp", ".Received"))

    @classmethod
    def find_moment(cls, program):
        """Finds behind how many renamings it stands so."""
        for cls.renames in range(1, 20):
            with tempfile.TemporaryDirectory() as work:
                scene = cls(work)
                scene.prepare(program)
                if scene.is_between():
                    return
        raise SystemExit("refused_calls.py: no mail is between its arrival and its place")


KINDS = {"folders": Folders, "spools": Spools, "stopped": Stopped}


def start(program, front, verb, scene, name):
    with open(f"{scene.work}/said.{name}", "ab") as said:
        words = [*front, program, verb, f"unix:{scene.work}/line", *scene.words(name), "--timeout", "2"]
        words += ["--wait", "5"] if verb == "answer" else []
        return subprocess.Popen(words, stdin=subprocess.DEVNULL, stdout=said, stderr=said)


def end(process, seconds):
    """Returns whether it ended by itself."""
    try:
        process.wait(seconds)
        return True
    except subprocess.TimeoutExpired:
        process.kill()
        process.wait()
        return False


def session(program, scene, victim=None, front=()):
    """One session, in which the calls of the end that is named may be refused. Whether both ends ended by themselves."""
    line = f"{scene.work}/line"
    if os.path.exists(line):
        os.remove(line)
    caller, called = scene.NAMES
    answering = start(program, front if victim == called else (), "answer", scene, called)
    until = time.monotonic() + 10
    while not os.path.exists(line) and answering.poll() is None and time.monotonic() < until:
        time.sleep(0.01)
    time.sleep(0.02)
    calling = start(program, front if victim == caller else (), "call", scene, caller)
    both = [end(calling, SECONDS_MAX), end(answering, SECONDS_MAX)]
    scene.collect()
    return all(both)


def counted(program, kind, victim):
    """Counts how often an end makes each call in a session without refusals."""
    with tempfile.TemporaryDirectory() as work:
        scene = KINDS[kind](work)
        scene.prepare(program)
        session(program, scene, victim, ("strace", "-f", "-qq", "-o", f"{work}/calls"))
        if scene.waits():
            raise SystemExit("refused_calls.py: a session without refusals leaves jobs: " + read(f"{work}/said.{victim}").decode())
        calls = collections.Counter()
        for text in read(f"{work}/calls").decode(errors="replace").splitlines():
            name = text.split(None, 1)[1].split("(")[0]
            if name.isidentifier() and name not in PASSED_OVER:
                calls[name] += 1
        return calls


def tried(program, kind, victim, call, when):
    """One trial, in which this call of this end is refused (`3`), or this and those behind it (`3+`). What was not well is said."""
    work = tempfile.mkdtemp()
    try:
        scene = KINDS[kind](work)
        scene.prepare(program)
        refusal = f"inject={call}:error={REFUSALS.get(call, 'EIO')}:when={when}"
        well = session(program, scene, victim, ("strace", "-f", "-qq", "-o", "/dev/null", "-e", f"trace={call}", "-e", refusal))
        for _ in range(SESSIONS_MAX):
            if not scene.waits():
                break
            well = session(program, scene) and well
        lost, told, twice = scene.judge()
        stuck = scene.waits() or not well
        if lost or told or twice or stuck:
            said = " | ".join(read(f"{work}/said.{name}").decode(errors="replace").replace("\n", "; ") for name in scene.NAMES)
            print(f"  {call} {when}: lost {lost} told {told} twice {twice} stuck {stuck}: {said[:600]}", file=sys.stderr)
        return Row(len(lost), len(told), len(twice), int(stuck))
    finally:
        shutil.rmtree(work)


def rows(program, kinds, only):
    """Each call of each end, and how often it makes it."""
    for kind in kinds:
        if kind == "stopped":
            Stopped.find_moment(program)
        for victim in KINDS[kind].VICTIMS:
            for call, count in sorted(counted(program, kind, victim).items()):
                if not only or call in only:
                    yield kind, victim, call, count


def summed(trials):
    return Row(*map(sum, zip(*trials)))


def shown(count, row):
    return f"{count} trials, {row.lost} lost, {row.told} told, {row.twice} twice, {row.stuck} stuck"


def main():
    program = program_named()
    kinds, only = sys.argv[2:3] or list(KINDS), set(sys.argv[3:])
    sums, trials = Row(0, 0, 0, 0), 0
    with concurrent.futures.ThreadPoolExecutor(TRIALS_AT_ONCE) as pool:
        for kind, victim, call, count in rows(program, kinds, only):
            for lasting in ("", "+"):
                moments = [f"{i}{lasting}" for i in range(1, count + 1)]
                row = summed(pool.map(lambda when: tried(program, kind, victim, call, when), moments))
                trials += count
                sums = summed((sums, row))
                if any(row):
                    print(f"{kind} {victim} {call}{lasting}: {shown(count, row)}", flush=True)
    print(shown(trials, sums))
    sys.exit(1 if sums.lost or sums.twice or sums.stuck else 0)


main()
