"""Calls an end that waits: one after the other, several at once, strangers, a port scan, nobody; and runs over one folder."""
import os
import re
import socket
import time

from lines import Cable, door_at
from suite import Ends, filler, free_port, listens_at, names_in, report, said, scene, text_of, wait_until, write

UNCALLED = "heard nothing (is the other end calling? a terminal has to be raw: stty raw -echo)"
UNKNOWN = said('the other end refused: "RYou are unknown to me" (it does not know the name of this end)')


def send(ends, line, name, *more):
    ends.give("alpha", **{name: f"{name}\n"})
    ends.jobs("alpha", f"send {name} {name} me")
    return ends.call(line, *more)


def three_calls(one, line, is_there):
    ends = Ends(one)
    called = ends.answer(line, "--sessions", "3")
    send(ends, line, "x")
    one.row("it listens behind the first", is_there(), True)
    ends.give("beta", back="back\n")
    ends.jobs("beta", "send back back me", "send none none me")
    send(ends, line, "y")
    wait_until(lambda: "none" in called.said(), 5)
    why = said("send none none me: no file beta/send/none")
    one.row("what is said of a session is said behind it", called.said(), why)
    send(ends, line, "z")
    ended = called.end()
    one.row("its reports", ended.all(), (0, report("called") + report("called", struck=1,
            failed=["send none none me"]) + report("called"), why))
    one.row("what has come", {name: text_of(ends.at("beta", f"got/{name}")) for name in names_in(ends.at("beta", "got"))},
            {name: f"{name}\n" for name in "xyz"})
    one.row("what came back", text_of(ends.at("alpha", "got/back")), "back\n")
    one.row("it listens no more", is_there(), False)


@scene()
def three_calls_at_a_unix_socket(one):
    three_calls(one, one.line, lambda: listens_at(one.line[5:]))
    one.row("the socket is gone", os.path.lexists(one.path(one.line[5:])), False)


@scene()
def three_calls_at_a_port(one):
    from suite import listens_on

    port = free_port()
    three_calls(one, f"tcp:127.0.0.1:{port}", lambda: listens_on(port))


@scene()
def a_port_scan_before_the_caller(one):
    """A caller that says nothing, or something else, counts for none, and keeps nobody off."""
    ends = Ends(one)
    port = free_port()
    line = f"tcp:127.0.0.1:{port}"
    called = ends.answer(line, "--timeout", "10", "--log", "log")
    for words in (b"", b"GET / HTTP/1.0\r\n\r\n", b"\x10Salpha\0", b"\x10Sgamma\0", b"\0" * 500):
        with socket.create_connection(("127.0.0.1", port)) as stream:
            stream.sendall(words)
    stranger = ends.one.run(["call", line, "alpha", "--me", "gamma", "--peer", "beta", "--timeout", "10"])
    one.row("a stranger", stranger.all(), (1, report("caller", "refused"), UNKNOWN))
    caller, ended = send(ends, line, "x"), called.end()
    one.row("the caller", caller.all(), (0, report("caller", struck=1), ""))
    one.row("who is called", (ended.status, ended.out), (0, report("called")))
    one.holds("it says of strangers who they were", said('heard "Sgamma", expected "alpha"') in ended.err, ended.err)
    one.row("the file", text_of(ends.at("beta", "got/x")), "x\n")


@scene()
def callers_who_say_nothing(one):
    """Each is heard for one read only while others wait, so who calls behind three of them is let in."""
    ends = Ends(one)
    called = ends.answer(one.line, "--timeout", "2")
    silent = [socket.socket(socket.AF_UNIX) for _ in range(3)]
    for stream in silent:
        stream.connect(one.path(one.line[5:]))
    caller, ended = send(ends, one.line, "x", "--timeout", "2"), called.end()
    for stream in silent:
        stream.close()
    one.row("who calls behind them", caller.all(), (0, report("caller", struck=1), ""))
    one.row("who is called", (ended.status, ended.out), (0, report("called")))
    one.row("the file", text_of(ends.at("beta", "got/x")), "x\n")


@scene()
def three_callers_who_say_nothing(one):
    """With the timers as they are each holds who calls behind them for eight seconds, and it is said of each."""
    ends = Ends(one)
    port = free_port()
    called = ends.answer(f"tcp:127.0.0.1:{port}")
    silent = [socket.create_connection(("127.0.0.1", port)) for _ in range(3)]
    begun = time.monotonic()
    caller, ended = send(ends, f"tcp:127.0.0.1:{port}", "x"), called.end()
    took = time.monotonic() - begun
    for stream in silent:
        stream.close()
    one.row("who calls behind them", caller.all(), (0, report("caller", struck=1), ""))
    # On a busy host a session takes a second or two.
    one.holds("they hold it for 24 seconds, and not for 30", 23 < took < 28, took)
    one.row("what is said of them", re.sub(r"for \d+ s", "for N s", ended.err),
            said(*["the caller said nothing for N s, while others waited"] * 3))


@scene()
def who_is_called_by_nobody(one):
    ends = Ends(one)
    ended = one.run(ends.words("answer", one.line, "--wait", "1", "--log", "log"), 20)
    one.row("it ends in time", ended.all(), (1, report("called", "gaveup"), said(UNCALLED)))
    one.row("the socket is gone", os.path.lexists(one.path(one.line[5:])), False)
    ended = one.run(ends.words("answer", one.line, "--sessions", "5", "--wait", "1"), 20)
    one.row("the same of one that has five sessions", ended.all(), (1, report("called", "gaveup"), said(UNCALLED)))


@scene()
def the_status_of_several_sessions(one):
    """It is the greatest of all; a fault of one does not end them."""
    ends = Ends(one)
    called = ends.answer(one.line, "--sessions", "2", "--timeout", "10")
    ends.give("alpha", long=filler("long", 9000))
    ends.jobs("alpha", "send long long me")
    ends.call(Cable(one, most=3000).line, "--timeout", "10")
    send(ends, one.line, "x")
    ended = called.end()
    one.row("one that broke, and one that is well", (ended.status, ended.out), (1, report("called", "hungup") + report("called")))
    called = ends.answer(one.line, "--sessions", "3")
    send(ends, one.line, "y")
    write(ends.at("beta", "jobs"), "put x\n")
    caller = send(ends, one.line, "z")
    one.row("who called where the jobs are bad", (caller.status, text_of(ends.at("alpha", "jobs"))), (1, "send z z me\n"))
    write(ends.at("beta", "jobs"), "")
    one.row("who called when they were mended", send(ends, one.line, "z").all(), (0, report("caller", struck=1), ""))
    one.row("a fault does not end it", called.end().all(), (2, report("called") * 2, said("bad jobs at line 1",
            'beta/jobs: line 1: "put" is neither send nor request', "bad jobs at line 1")))
    one.row("the socket is gone", os.path.lexists(one.path(one.line[5:])), False)


@scene()
def sockets_that_were_left(one):
    """The socket of one that was killed is taken over; that of one that waits, and what is none, are not."""
    ends = Ends(one)
    place = one.line[5:]
    called = ends.answer(one.line)
    os.makedirs(one.path("other/got"))
    other = one.run(["answer", one.line, "other", "--me", "beta", "--peer", "alpha"], 10)
    one.row("another waits there", other.all(), (3, "", said("device fault", f"{one.line}: address in use")))
    called.kill()
    one.row("its socket is left", os.path.lexists(one.path(place)), True)
    called = ends.answer(one.line)
    one.row("it is taken over", (send(ends, one.line, "x").status, called.end().status), (0, 0))
    write(one.path("file"), "mine\n")
    ended = one.run(ends.words("answer", "unix:file"), 10)
    one.row("a file", (ended.all(), text_of(one.path("file"))),
            ((3, "", said("device fault", "unix:file: address in use")), "mine\n"))


@scene()
def a_folder_that_is_in_use(one):
    """While a session runs over a folder no other begins there; who waits for its caller holds none."""
    ends = Ends(one)
    ends.give("alpha", long=filler("long", 30_000))
    ends.jobs("alpha", "send long long me")
    called = ends.answer(one.line, "-v")
    cable = Cable(one, rate=8000)
    caller = one.start(ends.words("call", cable.line))
    wait_until(lambda: "peer's send" in called.said() or caller.process.poll() is not None, 10)
    one.row("the socket is gone once the last is let in", os.path.lexists(one.path(one.line[5:])), False)
    in_use = {end: (3, "", said("device fault", f"{end} is in use")) for end in ("alpha", "beta")}
    one.row("a second call", one.run(ends.words("call", "unix:none")).all(), in_use["alpha"])
    one.row("a second answer", one.run(ends.words("answer", "unix:second")).all(), in_use["beta"])
    one.row("a pair", one.run(["pair", "-v", "pair", "alpha", "beta"]).all(), in_use["alpha"])
    cable.rate = 10_000_000
    one.row("the first", (caller.end().all(), called.end().all()[:2]),
            ((0, report("caller", struck=1), ""), (0, report("called"))))
    one.row("its file", text_of(ends.at("beta", "got/long")), filler("long", 30_000))


@scene()
def four_who_call_at_once(one):
    ends = Ends(one)
    called = ends.answer(one.line, "--sessions", "4")
    callers = []
    for name in "abcd":
        write(one.path(f"{name}/send/{name}"), filler(name, 20_000))
        os.makedirs(one.path(f"{name}/got"))
        write(one.path(f"{name}/jobs"), f"send {name} {name} me\n")
        callers.append(one.start(["call", one.line, name, "--me", "alpha", "--peer", "beta"]))
    one.row("who calls", [caller.end().all() for caller in callers], [(0, report("caller", struck=1), "")] * 4)
    one.row("who is called", called.end().all(), (0, report("called") * 4, ""))
    one.row("what has come", {name: text_of(ends.at("beta", f"got/{name}")) for name in "abcd"},
            {name: filler(name, 20_000) for name in "abcd"})


@scene()
def what_is_heard(one):
    """The program says what it has heard, where the other end is another one, refuses, or is no end."""
    ends = Ends(one)
    ends.give("alpha", x="x\n")
    for what, texts, phase, words in (
        ("another end", (b"\x10Shere=other\0",), "wrongname", 'heard "Shere=other", expected "beta"'),
        ("one that is busy", (b"\x10Shere=beta\0", b"\x10RLCK\0"), "refused",
        'the other end refused: "RLCK" (it is busy: call later)'),
        ("one without the protocol", (b"\x10Shere=beta\0", b"\x10ROK\0\x10Pxyz\0"), "noprotocol", 'no protocol g: heard "Pxyz"'),
        ("a getty", (b"\r\nlogin: ",), "hungup", 'heard 9 bytes and no text: "\\x0d\\x0alogin: "'),
    ):
        ends.jobs("alpha", "send x x me")
        with door_at(one, f"at{phase}") as door:
            caller = one.start(ends.words("call", f"unix:at{phase}", "--timeout", "10"))
            stream, _ = door.accept()
            for text in texts:
                stream.sendall(text)
                if text is not texts[-1]:
                    stream.recv(4096)
            if phase == "hungup":
                stream.shutdown(socket.SHUT_WR)
            ended = caller.end(20)
            stream.close()
        one.row(what, ended.all(), (1, report("caller", phase, pending=1), said(words)))
