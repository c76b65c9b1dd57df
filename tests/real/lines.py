"""Lines that are slow, break, lose, double and garble; and what the other end must not be able to do."""
import os
import random
import select
import socket
import threading
import time

from relay import size_at
from suite import Ends, filler, names_in, report, said, scene, text_in, text_of

DLE = 16
# The packet INITA 7.
INITA = bytes([DLE, 9, 0x6B, 0xAA, 0x3F, 9 ^ 0x6B ^ 0xAA ^ 0x3F])


class Cable:
    """A line to the socket of a scene: so many bytes a second, so many at most, and of each `every`th packet one thing is done.
    Where `before` is a word and a number, the line is gone before the word has passed for so manieth time. Before it is gone `then`
    is called."""

    def __init__(self, one, rate=10_000_000, most=None, every=None, seed=1, before=None, then=lambda: None):
        self.rate, self.most, self.every, self.then = rate, most, every, then
        self.word, self.left = before or (None, 0)
        self.passed = self.packets = 0
        self.heard = b""
        self.random = random.Random(seed)
        path = f"{one.line[5:]}.cable"
        self.line = f"unix:{path}"
        self.door = socket.socket(socket.AF_UNIX)
        here = one.path(path)
        if os.path.exists(here):
            os.remove(here)
        self.door.bind(here)
        os.chmod(here, 0o777)
        self.door.listen()
        self.far = one.path(one.line[5:])
        self.mover = threading.Thread(target=self.move, daemon=True)
        self.mover.start()

    def move(self):
        near, _ = self.door.accept()
        self.door.close()
        far = socket.socket(socket.AF_UNIX)
        try:
            far.connect(self.far)
            self.relay(near, far)
        except OSError:
            pass
        self.then()
        near.close()
        far.close()

    def relay(self, near, far):
        held = {near: b"", far: b""}
        while True:
            for side in select.select([near, far], [], [], 60)[0]:
                piece = side.recv(max(1, min(4096, self.rate // 50)))
                if not piece:
                    return
                if self.word and self.word in piece:
                    self.left -= piece.count(self.word)
                    if self.left <= 0:
                        return
                if self.most is not None:
                    piece = piece[:self.most - self.passed]
                self.passed += len(piece)
                self.heard += piece
                if self.every:
                    held[side] += piece
                    piece, held[side] = self.spoilt(held[side])
                (far if side is near else near).sendall(piece)
                if self.most is not None and self.passed >= self.most:
                    return
                if self.rate < 1_000_000:
                    time.sleep(len(piece) / self.rate)

    def spoilt(self, held):
        """Returns what goes on of these bytes, and what is held back, since it may begin a packet."""
        out = b""
        while held:
            if held[0] != DLE:
                out, held = out + held[:1], held[1:]
                continue
            size = size_at(held)
            if size is None or (size and len(held) < size):
                break
            if not size:
                out, held = out + held[:1], held[1:]
                continue
            packet, held = held[:size], held[size:]
            self.packets += 1
            if self.packets % self.every == 0:
                packet = self.random.choice((b"", packet * 2, self.garbled(packet)))
            out += packet
        return out, held

    def garbled(self, packet):
        place = self.random.randrange(len(packet))
        return packet[:place] + bytes([packet[place] ^ (1 << self.random.randrange(8))]) + packet[place + 1:]


def door_at(one, name):
    """Returns a socket that listens there."""
    door = socket.socket(socket.AF_UNIX)
    door.bind(one.path(name))
    door.listen()
    return door


def caller_at(one, ends, name, seconds):
    """Starts the end that calls, and returns it, and its line from the other side, on which it was greeted."""
    with door_at(one, name) as door:
        caller = one.start(ends.words("call", f"unix:{name}", "--timeout", seconds))
        line, _ = door.accept()
    line.sendall(b"\x10Shere=beta\0")
    return caller, line


def let_in(one):
    """Returns a line on which the called end has let in alpha, and speaks g."""
    line = socket.socket(socket.AF_UNIX)
    line.connect(one.path(one.line[5:]))
    hear(line, b"Shere=beta\0")
    line.sendall(b"\x10Salpha\0")
    hear(line, b"Pg\0")
    line.sendall(b"\x10Ug\0")
    return line


def hear(line, text):
    """Reads until this text has come."""
    heard = b""
    line.settimeout(10)
    while text not in heard:
        piece = line.recv(4096)
        if not piece:
            raise OSError(f"heard {heard}")
        heard += piece
    return heard


def load(one):
    """Three files each way, of which one is asked for."""
    ends = Ends(one)
    for end in ("alpha", "beta"):
        ends.give(end, **{f"{end}{number}": filler(f"{end}{number}", 700 * number) for number in range(4)})
    ends.jobs("alpha", "send alpha0 alpha0 u", "send alpha1 alpha1 u", "send alpha2 alpha2 u", "request beta3 beta3 u")
    ends.jobs("beta", "send beta0 beta0 u", "send beta1 beta1 u", "send beta2 beta2 u", "request alpha3 alpha3 u")
    return ends


def taker(job):
    """Returns the end that takes the file of a job, and the name of that."""
    word, name = job.split()[:2]
    return ("beta" if name.startswith("alpha") else "alpha"), name


def wrong(ends):
    """Returns what is lost or wrong: a job that is gone without its file, and a file that is not whole."""
    faults = []
    for end in ("alpha", "beta"):
        pending = text_of(ends.at(end, "jobs")).splitlines()
        if len(pending) != len(set(pending)):
            faults.append(f"{end} has a job twice: {pending}")
        other = "beta" if end == "alpha" else "alpha"
        jobs = [f"send {end}{number} {end}{number} u" for number in range(3)] + [f"request {other}3 {other}3 u"]
        faults += [f"nobody gave {end} the job {job}" for job in pending if job not in jobs]
        for job in jobs:
            who, name = taker(job)
            if job not in pending and text_in(ends.at(who, f"got/{name}")) != filler(name, 700 * int(name[-1])):
                faults.append(f"{job} is gone, and has not come")
        for name in names_in(ends.at(end, "got")):
            if not name.startswith(".part.") and text_of(ends.at(end, f"got/{name}")) != filler(name, 700 * int(name[-1])):
                faults.append(f"{name} is not whole at {end}")
        if os.path.exists(ends.at(end, "failed")):
            faults.append(f"{end} gave up: {text_of(ends.at(end, 'failed'))}")
    return faults


def all_done(ends):
    return not (text_of(ends.at("alpha", "jobs")) or text_of(ends.at("beta", "jobs")))


def finish(ends, most=3):
    """Runs sessions until nothing waits. Returns what is wrong then."""
    for _ in range(most):
        if all_done(ends):
            break
        caller, called = ends.talk(call=["--timeout", "10"], answer=["--timeout", "10", "--wait", "10"])
    faults = wrong(ends) + ([] if all_done(ends) else [f"jobs wait still; the last session: {caller.all()}, {called.all()}"])
    return faults + [f"{name} is left at {end}" for end in ("alpha",
            "beta") for name in names_in(ends.at(end, "got")) if name.startswith(".")]


@scene()
def lines_that_break(one):
    """After so many bytes the line is gone for both: each says so, nothing is lost, and the next session does the rest."""
    for most in (3, 20, 300, 1100, 1900, 3600, 5200, 8200):
        ends = load(one)
        called = ends.answer(one.line, "--timeout", "10")
        caller = ends.call(Cable(one, most=most).line, "--timeout", "10")
        one.row(f"who calls where it breaks behind {most} bytes", (caller.status, caller.out.split()[:2]),
                (1, ["caller", "hungup"]))
        if most < 100:
            # One that is not let in yet is passed over, and the next one may call.
            one.row(f"who is called where it breaks behind {most} bytes", called.process.poll(), None)
            called.kill()
        else:
            called = called.end()
            one.row(f"who is called where it breaks behind {most} bytes", (called.status, called.out.split()[:2]),
                    (1, ["called", "hungup"]))
        one.row(f"what is there where it breaks behind {most} bytes", wrong(ends), [])
        one.row(f"what has come behind that, {most}", finish(ends), [])
    for number in range(1, 9):
        # the file is stored, and its giver has not read it
        ends = load(one)
        called = ends.answer(one.line, "--timeout", "10")
        caller = ends.call(Cable(one, before=(b"CY\0", number)).line, "--timeout", "10")
        statuses = (caller.status, called.end().status)
        one.row(f"where it breaks before answer {number}", (statuses, wrong(ends), finish(ends)), ((1, 1), [], []))


@scene()
def lines_that_lose(one):
    """Each so-manieth packet is lost, doubled or garbled."""
    for every in (11, 23, 37):
        ends = load(one)
        called = ends.answer(one.line, "--timeout", "1")
        caller = ends.call(Cable(one, every=every, seed=every).line, "--timeout", "1")
        one.row(f"each {every}th packet", (caller.all(), called.end().all()),
                ((0, report("caller", struck=4), ""), (0, report("called", struck=4), "")))
        one.row(f"what is there, each {every}th", finish(ends, 0), [])


@scene()
def a_line_that_loses_nothing(one):
    """On a clean line no packet is repeated, damaged or refused, and no timer runs out."""
    ends = load(one)
    caller, called = ends.talk(call=["-v"], answer=["-v"])
    for name, ended in (("call", caller), ("answer", called)):
        lines = [line for line in ended.err.splitlines() if line.startswith(("uucpair: wrote", "uucpair: read",
                "uucpair: 0 timeouts"))]
        counts = [word for line in lines for word in line.split(", ")[1:]]
        one.holds(f"{name} counts none", len(lines) == 3 and all(word.startswith("0 ") for word in counts), ended.err)


@scene()
def a_line_that_is_silent(one):
    """An end gives up at the eighth timeout, and says that it has heard nothing; one whose caller says noise is hung up in time."""
    ends = load(one)
    with door_at(one, "mute"):
        begun = time.monotonic()
        caller = ends.call("unix:mute", "--timeout", "1")
        took = time.monotonic() - begun
    one.row("it gives up", caller.all(), (1, report("caller", "gaveup", pending=4), said("heard nothing (is the other end answering? a terminal has to be raw: stty raw -echo)")))
    one.holds("after eight seconds or so", 7 <= took < 20, took)
    one.row("its jobs stay", wrong(ends), [])


@scene()
def a_line_that_babbles(one):
    """Bytes that bring no session on hold nobody for more than 20 timers."""
    ends = load(one)
    called = ends.answer(one.line, "--timeout", "1", "-v")
    with let_in(one) as line:
        begun = time.monotonic()
        while called.process.poll() is None and time.monotonic() - begun < 40:
            try:
                line.sendall(b"noise")
            except OSError:
                break
            time.sleep(0.2)
        took = time.monotonic() - begun
    ended = called.end(10)
    one.row("it hangs up", (ended.status, ended.out), (1, report("called", "hungup", pending=4)))
    one.holds("after 20 seconds or so", 18 <= took < 35, took)


@scene()
def a_line_that_is_reset(one):
    """The program says why a line failed, where its session is not done."""
    ends = load(one)
    caller, line = caller_at(one, ends, "reset", "5")
    # what it says then is left unread
    select.select([line], [], [], 10)
    line.close()
    one.row("who calls", caller.end(20).all(), (1, report("caller", "hungup", pending=4),
            said('heard "Shere=beta", and then it hung up (it may not know the name of this end)', "unix:reset: connection reset")))


@scene()
def a_line_that_takes_no_more(one):
    """An end whose line takes nothing more is over with its next read, though nothing says that the other end is gone."""
    ends = load(one)
    caller, line = caller_at(one, ends, "deaf", "2")
    hear(line, b"Salpha")
    line.shutdown(socket.SHUT_RD)
    begun = time.monotonic()
    line.sendall(b"\x10ROK\0\x10Pg\0")
    one.row("who calls", caller.end(60).all(), (1, report("caller", "hungup", pending=4), said("unix:deaf: broken pipe")))
    one.holds("at once", time.monotonic() - begun < 8, time.monotonic() - begun)
    line.close()


@scene()
def ends_that_write_no_more(one):
    """An end whose other one dies is over at once, over a line on which it writes, and says why."""
    for role in ("call", "answer"):
        ends = load(one)
        if role == "answer":
            called = ends.answer(one.line, "--timeout", "5")
            line = let_in(one)
            line.sendall(INITA)
            hear(line, b"\x10\x09")
        else:
            called, line = caller_at(one, ends, "dying", "5")
            hear(line, b"Salpha")
        begun = time.monotonic()
        line.close()
        ended = called.end(20)
        one.row(f"how {role} ends", (ended.status, ended.out),
                (1, report("caller" if role == "call" else "called", "hungup", pending=4)))
        one.holds(f"{role}, at once", time.monotonic() - begun < 4, time.monotonic() - begun)
