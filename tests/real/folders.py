"""Jobs over folders: each way, both roles, over each kind of line, and what each file and stream has then."""
import os
import pty
import select
import socket
import threading
import time
import tty
from datetime import datetime, timedelta, timezone

from suite import Ends, FRONT, filler, free_port, masked, names_in, report, said, scene, text_of, too_large, wait_until, write

MEND_NUMBERS = " (write the same number to both number files, or remove both, while neither end runs)"
NOT_GIVEN = ("not given by the other end: no such file in its send, or barred there; "
             "or it can't be put in its place here")


def prepare(one, numbered=7):
    """Five jobs of alpha, of which two fail, and three of beta, of which one fails; and what is to be of them."""
    ends = Ends(one, numbered)
    ends.give("alpha", x="of alpha\n", empty="", a="q", long=filler("long", 9000), asked="asked of alpha\n")
    ends.give("beta", y=filler("y", 5000), r="asked of beta\n")
    ends.jobs("alpha", "# mine", "send x ~/x me", "send  empty empty me", "send none n me", "request r r2 you",
            "request gone g you", "send long long me")
    ends.jobs("beta", "send y /y me", "request asked asked me", "send y .hidden me")
    return ends


CALLER = report("caller", struck=4, failed=["send none n me", "request gone g you"])
CALLED = report("called", struck=2, failed=["send y .hidden me"])
CALLER_SAID = said("send none n me: no file alpha/send/none", f"request gone g you: {NOT_GIVEN}")
PATH = "refused by the other end: in a folder a target is a name, NAME or ~/NAME, without a leading dot"
CALLED_SAID = said(f"send y .hidden me: {PATH}")


def refused_of(size):
    """What is said of a file of so many bytes that the other end has refused."""
    return f"refused by the other end: maybe {size} bytes are over its --file-limit, or a folder has that name there"


CALLER_LOG = [
    "Calling system beta (port {line})", "Sending x (9 bytes)", "Sending empty (0 bytes)", "Receiving r2 (14 bytes)",
    "ERROR: request gone g: refused", "Sending long (9000 bytes)", "Receiving /y (5000 bytes)", "Sending asked (15 bytes)",
    "ERROR: send y .hidden: refused", "ERROR: 2 jobs were given up", "Call complete (14038 bytes)",
    "ERROR: send none n me: no file alpha/send/none", f"ERROR: request gone g you: {NOT_GIVEN}",
]
CALLED_LOG = [
    "Incoming call (login - port {line})", "Receiving ~/x (9 bytes)", "Receiving empty (0 bytes)", "Sending r (14 bytes)",
    "ERROR: request gone g: refused", "Receiving long (9000 bytes)", "Sending y (5000 bytes)", "Receiving asked (15 bytes)",
    "ERROR: send y .hidden: refused", "ERROR: 1 job was given up", "Call complete (14038 bytes)",
    f"ERROR: send y .hidden me: {PATH}",
]


def judge(one, ends, caller, called, lines, streams=("out", "out")):
    """All that is there of the session of `prepare`, byte for byte."""
    for name, ended, expected, told, stream in (("call", caller, CALLER, CALLER_SAID, streams[0]),
            ("answer", called, CALLED, CALLED_SAID, streams[1])):
        printed = ("", expected + told) if stream == "err" else (expected, told)
        one.row(f"{name}'s status, report and standard error", ended.all(), (0, *printed))
    one.row("alpha's folder", ends.state("alpha"), {
        "jobs": "# mine\n", "number": "8\n", "got/r2": "asked of beta\n", "got/y": filler("y", 5000),
        "failed": "# no such file to send, or it is too large\nsend none n me\n"
                  "# not given by the other end, or can't be put in its place here\nrequest gone g you\n",
    })
    one.row("beta's folder", ends.state("beta"), {
        "jobs": "", "number": "8\n", "got/x": "of alpha\n", "got/empty": "", "got/long": filler("long", 9000),
        "got/asked": "asked of alpha\n",
        "failed": "# refused by the other end\nsend y .hidden me\n",
    })
    one.row("alpha's log", masked(ends.at("alpha", "log")), logged("beta", CALLER_LOG, lines[0]))
    one.row("beta's log", masked(ends.at("beta", "log")), logged("alpha", CALLED_LOG, lines[1], first="-"))
    one.row("what alpha gives is as it was", names_in(ends.at("alpha", "send")), ["a", "asked", "empty", "long", "x"])


def logged(system, lines, line, first=None):
    systems = [first or system, *[system] * (len(lines) - 1)]
    return [f"uucpair {who} - (TIME) {words.format(line=line)}" for who, words in zip(systems, lines)]


LOGS = (("--log", "alpha/log"), ("--log", "beta/log"))


@scene()
def over_a_unix_socket(one):
    ends = prepare(one)
    caller, called = ends.talk(None, *LOGS)
    judge(one, ends, caller, called, (one.line, one.line))
    one.row("the socket is gone", os.path.lexists(one.path(one.line[5:])), False)


@scene()
def over_tcp(one):
    ends = prepare(one)
    line = f"tcp:127.0.0.1:{free_port()}"
    caller, called = ends.talk(line, *LOGS)
    judge(one, ends, caller, called, (line, line))


@scene()
def over_standard_streams(one):
    ends = prepare(one)
    near, far = socket.socketpair()
    called = one.start(ends.words("answer", "-", *LOGS[1]), stdin=far, stdout=far)
    caller = one.start(ends.words("call", "-", *LOGS[0]), stdin=near, stdout=near)
    near.close()
    far.close()
    judge(one, ends, caller.end(), called.end(), ("-", "-"), ("err", "err"))


@scene()
def over_pipes(one):
    ends = prepare(one)
    (there_out, there_in), (back_out, back_in) = os.pipe(), os.pipe()
    called = one.start(ends.words("answer", "-", *LOGS[1], "--report", "beta.report"), stdin=there_out, stdout=back_in)
    caller = one.start(ends.words("call", "-", *LOGS[0], "--report", "alpha.report"), stdin=back_out, stdout=there_in)
    for descriptor in (there_out, there_in, back_out, back_in):
        os.close(descriptor)
    caller, called = caller.end(), called.end()
    caller.out, called.out = text_of(one.path("alpha.report")), text_of(one.path("beta.report"))
    judge(one, ends, caller, called, ("-", "-"))


class Terminals:
    """Two terminals that are raw, but for the `cooked` one, and what is written to either comes to the other."""

    def __init__(self, cooked=None):
        pairs = [pty.openpty() for _ in range(2)]
        self.masters, self.slaves = [pair[0] for pair in pairs], [pair[1] for pair in pairs]
        for number, slave in enumerate(self.slaves):
            if number != cooked:
                tty.setraw(slave)
        self.names = [os.ttyname(slave) for slave in self.slaves]
        self.is_over = False
        self.mover = threading.Thread(target=self.move, daemon=True)
        self.mover.start()

    def move(self):
        while not self.is_over:
            for master in select.select(self.masters, [], [], 0.05)[0]:
                other = self.masters[1 - self.masters.index(master)]
                try:
                    os.write(other, os.read(master, 4096))
                except OSError:
                    return

    def close(self):
        self.is_over = True
        self.mover.join()
        for descriptor in self.masters + self.slaves:
            os.close(descriptor)


@scene()
def over_terminals(one):
    ends = prepare(one)
    os.mkdir(one.path("locks"))
    terminals = Terminals()
    near, far = terminals.names
    called = one.start(ends.words("answer", far, *LOGS[1], "--locks", "locks", "--wait", "30", "--timeout", "10"))
    caller = one.run(ends.words("call", near, *LOGS[0], "--locks", "locks", "--timeout", "10"))
    judge(one, ends, caller, called.end(), (near, far))
    one.row("no lock file is left", names_in(one.path("locks")), [])
    terminals.close()


@scene()
def terminals_over_which_no_session_begins(one):
    """Where both ends answer or call, or a terminal is not raw, each end says what to do."""
    Ends(one)
    os.mkdir(one.path("locks"))
    ends_alone = "(only line breaks: both ends call, or a terminal is not raw: stty raw -echo)"
    both = "(both ends answer, and one has to call; or a terminal echoes: stty raw -echo)"
    raw = "a terminal has to be raw: stty raw -echo"
    for what, verbs, cooked, hints in (
        ("both answer", ("answer", "answer"), None, (both, both)),
        ("both call", ("call", "call"), None, (ends_alone, ends_alone)),
        ("who answers is not raw", ("call", "answer"), 1, (f"and then no answer ({raw}, at the other end too)", ends_alone)),
        ("who calls is not raw", ("call", "answer"), 0,
         (f"(is the other end answering? {raw})", "(a terminal echoes: stty raw -echo, at the other end too)")),
    ):
        terminals = Terminals(cooked)
        ends = [one.start([verb, name, me, "--me", me, "--peer", peer, "--locks", "locks", "--timeout", "1"])
                for verb, name, me, peer in zip(verbs, terminals.names, ("alpha", "beta"), ("beta", "alpha"))]
        for name, ended, hint in zip(("alpha", "beta"), [end.end(40) for end in ends], hints):
            one.holds(f"{what}: what {name} says", ended.status == 1 and ended.err.startswith("uucpair: heard ")
                      and ended.err.endswith(hint + "\n"), ended.err)
        terminals.close()


@scene()
def a_terminal_that_is_locked(one):
    ends = prepare(one)
    terminals = Terminals()
    near = terminals.names[0]
    lock = one.path(f"locks/LCK..{os.path.basename(near)}")
    path = f"locks/LCK..{os.path.basename(near)}"
    rows = (("of a process that lives", f"{os.getpid():10d}\n",
             f"process {os.getpid()} holds it, by {path}: call again when that has ended"),
            ("of a text that is no number", "hello\n",
             f"by {path}, which names no process: remove that file if nobody uses the line"))
    for what, text, who in rows:
        write(lock, text)
        ended = one.run(ends.words("call", near, "--locks", "locks", "--timeout", "1"))
        in_use = (3, "", said("device fault", f"{near} is in use", who))
        one.row(f"a lock {what} turns it away", (ended.all(), text_of(lock)), (in_use, text))
    for what, text in (("of a process that is gone", " 999999999\n"), ("that is empty", ""), ("of process 0", "         0\n")):
        write(lock, text)
        caller = one.start(ends.words("call", near, "--locks", "locks", "--timeout", "1"))
        one.row(f"a lock {what} is taken over", (one_line(lock, caller), caller.process.poll()),
                (f"{caller.process.pid:10d}\n", None))
        caller.kill()
    terminals.close()


def one_line(lock, caller):
    """The text of the lock file once this run has it, or has ended."""
    mine = f"{caller.process.pid:10d}\n"
    wait_until(lambda: text_of(lock) == mine or caller.process.poll() is not None, 5)
    return text_of(lock)


@scene("minutes")
def large_files(one):
    """Files of more than a MiB go both ways; one over the limit of its taker is refused before it comes, and one over that of its giver
    is not sent."""
    ends = Ends(one)
    text = filler("large", 1_200_000)
    for end in ("alpha", "beta"):
        ends.give(end, large=text)
        ends.jobs(end, "send large large me")
    caller, called = ends.talk()
    one.row("both ways", (caller.all(), called.all()), ((0, report("caller", struck=1), ""), (0, report("called", struck=1), "")))
    one.row("they are whole", [text_of(ends.at(end, "got/large")) == text for end in ("alpha", "beta")], [True, True])
    job = "send large other me"
    for who, limits, why, before in (("taker", {"answer": ["--file-limit", "1199999"]}, refused_of(1_200_000), []),
                                     ("giver", {"call": ["--file-limit", "1199999"]}, "alpha/send/large is larger than --file-limit",
                                      [too_large("alpha/send/large", 1_200_000, 1_199_999)])):
        ends.jobs("alpha", job)
        caller, called = ends.talk(**limits)
        one.row(f"over the limit of its {who}", (caller.all(), called.status),
                ((0, report("caller", failed=[job]), said(*before, f"{job}: {why}")), 0))
    one.row("none of them came", names_in(ends.at("beta", "got")), ["large"])
    ends.jobs("alpha", job)
    limit = ["--file-limit", "1200000"]
    caller, called = ends.talk(call=limit, answer=limit)
    one.row("just as large as it may be", (caller.all(), called.status, text_of(ends.at("beta", "got/other")) == text),
            ((0, report("caller", struck=1), ""), 0, True))


@scene("minutes")
def files_about_as_large_as_they_may_be(one):
    """Around each limit: what one end may give, and what the other may take."""
    for limit in (1, 100, 1_048_576, 1_200_000):
        ends = Ends(one)
        sizes = {"less": limit - 1, "just": limit, "more": limit + 1}
        ends.give("alpha", **{name: filler(name, size) for name, size in sizes.items()})
        for who in ("call", "answer"):
            ends.jobs("alpha", *(f"send {name} {name} me" for name in sizes))
            words = {end: ["--size", "1024"] for end in ("call", "answer")}
            words[who] += ["--file-limit", str(limit)]
            caller, called = ends.talk(**words)
            why = "alpha/send/more is larger than --file-limit" if who == "call" else refused_of(limit + 1)
            before = [too_large("alpha/send/more", limit + 1, limit)] if who == "call" else []
            job = "send more more me"
            one.row(f"{limit}, {who}", (caller.all(), called.status),
                    ((0, report("caller", struck=2, failed=[job]), said(*before, f"{job}: {why}")), 0))
            one.row(f"what has come, {limit}, {who}", {name: len(text_of(ends.at("beta", f"got/{name}"))) for name in names_in(ends.at("beta", "got"))},
                    {"less": limit - 1, "just": limit})
            for name in names_in(ends.at("beta", "got")):
                os.remove(ends.at("beta", f"got/{name}"))


@scene("minutes")
def the_sizes_of_files(one):
    """Files of no byte, of one, of the most that may go, and of one more; each way."""
    ends = Ends(one)
    sizes = {"none": 0, "one": 1, "most": 1_048_576, "more": 1_048_577}
    for end in ("alpha", "beta"):
        ends.give(end, **{f"{name}-{end}": filler(name + end, size) for name, size in sizes.items()})
        ends.jobs(end, *(f"send {name}-{end} {name} me" for name in sizes))
    write(ends.at("alpha", "jobs"), "request more-beta asked me\n", "ab")
    limit = ["--file-limit", "1048576"]
    caller, called = ends.talk(call=limit, answer=limit)
    one.row("call", caller.all(), (0, report("caller", struck=3, failed=["send more-alpha more me",
            "request more-beta asked me"]),
                                   said(too_large("alpha/send/more-alpha", 1_048_577, 1_048_576),
                                        "send more-alpha more me: alpha/send/more-alpha is larger than --file-limit", f"request more-beta asked me: {NOT_GIVEN}")))
    one.row("answer", called.all(), (0, report("called", struck=3, failed=["send more-beta more me"]),
            said(too_large("beta/send/more-beta", 1_048_577, 1_048_576),
                 "send more-beta more me: beta/send/more-beta is larger than --file-limit")))
    for end, other in (("alpha", "beta"), ("beta", "alpha")):
        found = {name: text_of(ends.at(end, f"got/{name}")) for name in names_in(ends.at(end, "got"))}
        expected = {name: filler(name + other, size) for name, size in sizes.items() if name != "more"}
        one.row(f"what has come to {end}", {name: len(found[name]) for name in found},
                {name: len(expected[name]) for name in expected})
        one.row(f"the bytes of it at {end}", found == expected, True)


@scene()
def what_is_there_already(one):
    """A file that has the name of one that comes is replaced; what stands in `got` beside it stays."""
    ends = Ends(one)
    ends.give("alpha", x="new\n", y="deep\n")
    ends.jobs("alpha", "send x x me", "send y ~/dir/y me", "send x ../x me", "send x ~/.h me", "send x dir me")
    write(ends.at("beta", "got/x"), "an old one, which is longer\n")
    write(ends.at("beta", "got/other"), "other\n")
    write(ends.at("beta", "got/dir/f"), "below\n")
    write(ends.at("beta", "got/.part.1.0"), "left")
    write(ends.at("alpha", "got/mine"), "mine\n")
    write(ends.at("alpha", ".part.9.9"), "left")
    caller, called = ends.talk()
    refused = ["send y ~/dir/y me", "send x ../x me", "send x ~/.h me", "send x dir me"]
    one.row("call", caller.all(), (0, report("caller", struck=1, failed=refused),
            said(*(f"{job}: {PATH}" for job in refused[:3]), f"{refused[3]}: {refused_of(4)}")))
    one.row("answer", called.all(), (0, report("called"), ""))
    one.row("beta's folder", ends.state("beta"), {"got/x": "new\n", "got/other": "other\n", "got/dir/f": "below\n"})
    one.row("alpha's folder", {name: text for name, text in ends.state("alpha").items() if name != "failed"},
            {"jobs": "", "got/mine": "mine\n"})
    one.row("nothing is outside", sorted(name for name in names_in(one.work) if not name.startswith(".")), ["alpha", "beta"])


@scene()
def files_that_are_not_given(one):
    """Hidden files, copies, folders and links that lead nowhere are not given to who asks."""
    ends = Ends(one)
    write(ends.at("beta", "secret"), "secret\n")
    ends.give("beta", **{".h": "hidden\n", ".part.1.1": "part\n", "x": "x\n"})
    os.mkdir(ends.at("beta", "send/folder"))
    os.symlink("nowhere", ends.at("beta", "send/lost"))
    asked = [".h", "~/.h", "../secret", "~/../secret", "/secret", "folder", "lost", ".part.1.1", "send/x"]
    jobs = [f"request {name} got{number} me" for number, name in enumerate(asked)]
    ends.jobs("alpha", *jobs, "request ~/x x1 me", "request /x x2 me", "request x ~/x3 me")
    caller, called = ends.talk()
    one.row("call", caller.all(), (0, report("caller", struck=3, failed=jobs), said(*(f"{job}: {NOT_GIVEN}" for job in jobs))))
    one.row("answer", called.all(), (0, report("called"), ""))
    one.row("what has come", {name: text_of(ends.at("alpha", f"got/{name}")) for name in names_in(ends.at("alpha", "got"))},
            {"x1": "x\n", "x2": "x\n", "x3": "x\n"})


@scene()
def the_number(one):
    """Both keep a number; a caller that is one behind is let in; a stranger is not, and both say which numbers they have."""
    ends = Ends(one)
    ends.give("alpha", x="x\n")
    ends.jobs("alpha", "send x x me")
    caller, called = ends.talk(call=["--number"], answer=["--number"])
    one.row("both begin", (caller.status, called.status, text_of(ends.at("alpha", "number")), text_of(ends.at("beta", "number"))),
            (0, 0, "1\n", "1\n"))
    caller, called = ends.talk()
    one.row("they go on without the option", (caller.status, called.status, text_of(ends.at("alpha", "number")),
            text_of(ends.at("beta", "number"))),
            (0, 0, "2\n", "2\n"))
    write(ends.at("alpha", "number"), "1\n")
    caller, called = ends.talk()
    one.row("a caller that is one behind", (caller.status, called.status, text_of(ends.at("alpha", "number")),
            text_of(ends.at("beta", "number"))),
            (0, 0, "2\n", "2\n"))
    for place, (what, number) in enumerate((("far behind", "0"), ("ahead", "9"), ("none", None))):
        kept = 2 + place
        write(ends.at("alpha", "number"), f"{number}\n") if number else os.remove(ends.at("alpha", "number"))
        ends.jobs("alpha", "send x x me")
        called = ends.answer(one.line)
        caller = ends.call(one.line)
        mine = (f"the number of this end is {number}" if number else "this end keeps no number") + MEND_NUMBERS
        one.row(f"a caller that is {what}", caller.all(), (1, report("caller", "badsequence", pending=1), said(mine)))
        one.row(f"the files of one that is {what}", (text_of(ends.at("alpha", "number")), text_of(ends.at("beta", "number")),
                text_of(ends.at("alpha", "jobs"))),
                (f"{number}\n" if number else "", f"{kept}\n", "send x x me\n"))
        write(ends.at("alpha", "number"), f"{kept}\n")
        caller = ends.call(one.line)
        heard = f", that of the other end {number}" if number else ""
        one.row(f"the called end of one that is {what}, and the right one behind it", (caller.status, *called.end().all()),
                (0, 0, report("called"), said(f"the number of this end is {kept}{heard}{MEND_NUMBERS}")))
    write(ends.at("beta", "number"), "two\n")
    one.row("a bad number", one.run(ends.words("answer", one.line)).all(), (2, "", said("bad number file", "beta/number: not a number up to 4294967295")))


@scene()
def words_that_follow(one):
    """-v tells each job and what went; without it nothing is said of a session that is well."""
    ends = Ends(one)
    ends.give("alpha", x="x\n")
    ends.give("beta", y="y\n")
    ends.jobs("alpha", "send x x me", "request y y me")
    caller, called = ends.talk(call=["-v"], answer=["-v"])
    for name, ended, expected in (
        ("call", caller, ["send x x", "send x x: done 2 bytes", "request y y", "request y y: done 2 bytes"]),
        ("answer", called, ["peer's send x x", "peer's send x x: done 2 bytes", "peer's request y y",
        "peer's request y y: done 2 bytes"]),
    ):
        lines = [line.split(" s: ", 1)[1] for line in ended.err.splitlines() if " s: " in line]
        lines = [line.rsplit(" bytes", 1)[0] + " bytes" if " bytes" in line else line for line in lines]
        one.row(f"{name} tells its jobs", [line for line in lines if " x" in line or " y" in line], expected)
        one.holds(f"{name} tells of the start and the end", all(f"s: {word}" in ended.err for word in ("starting", "talking",
                "done")), ended.err)
        one.holds(f"{name} counts", f"{FRONT}wrote " in ended.err and f"{FRONT}read " in ended.err, ended.err)


@scene()
def reports_in_files(one):
    """A report takes the place of what its file held; one that can't be written is told."""
    ends = Ends(one)
    ends.give("alpha", x="x\n")
    ends.jobs("alpha", "send x x me")
    write(one.path("report"), "an old report, longer than the new one is, by some words that are to go\n" * 3)
    caller, called = ends.talk(call=["--report", "report"], answer=["--report", "/dev/full"])
    one.row("call", (caller.all(), text_of(one.path("report"))), ((0, "", ""), report("caller", struck=1)))
    one.row("a report to a full disk", called.all(), (3, "", said("device fault", "/dev/full: no space left")))
    ends.jobs("alpha", "send x x2 me")
    with open("/dev/full", "wb") as full:
        called = ends.answer(one.line)
        caller = one.start(ends.words("call", one.line), stdout=full).end()
    one.row("standard output that is full", caller.all(), (3, "", said("device fault", "standard output: no space left")))
    one.row("all else is done", (called.end().all(), text_of(ends.at("alpha", "jobs")), text_of(ends.at("beta", "got/x2"))),
            ((0, report("called"), ""), "", "x\n"))
    os.mkfifo(one.path("pipe"))
    for option in ("--report", "--log"):
        ended = one.run(ends.words("call", one.line, option, "pipe"), 10)
        one.row(f"a pipe without a reader as {option}", ended.all(),
                (3, "", said("device fault", "pipe: a named pipe may have no reader: name a file, /dev/stdout or /dev/stderr")))


@scene()
def the_log_is_appended_to(one):
    ends = Ends(one)
    ends.give("alpha", x="x\n")
    write(one.path("log"), "what was there\n")
    for number in range(2):
        ends.jobs("alpha", f"send x x{number} me")
        ends.talk(call=["--log", "log"])
    start, end = "uucpair beta - (TIME) Calling system beta (port " + one.line + ")", "uucpair beta - (TIME) Call complete (2 bytes)"
    one.row("each session is behind the one before", masked(one.path("log")),
            ["what was there", start, "uucpair beta - (TIME) Sending x (2 bytes)", end, start,
            "uucpair beta - (TIME) Sending x (2 bytes)", end])
    ends.jobs("alpha", "put x")
    ended = one.run(ends.words("call", one.line, "--log", "fault"))
    one.row("bad jobs", ended.all(), (2, "", said("bad jobs at line 1", 'alpha/jobs: line 1: "put" is neither send nor request')))
    one.row("their log", masked(one.path("fault")), [start,
            'uucpair beta - (TIME) ERROR: bad jobs at line 1: alpha/jobs: line 1: "put" is neither send nor request'])
    one.row("bad jobs stay", text_of(ends.at("alpha", "jobs")), "put x\n")
    os.remove(ends.at("alpha", "jobs"))
    ended = one.run(ends.words("call", "unix:none", "--log", "none.log"))
    one.row("nobody listens", ended.all(), (3, "", said("device fault", "unix:none: no such file or directory")))
    one.row("its log", masked(one.path("none.log")), [start.replace(one.line, "unix:none"),
            "uucpair beta - (TIME) ERROR: device fault: unix:none: no such file or directory"])


@scene()
def the_time_of_the_log(one):
    ends = Ends(one)
    for zone, hours in (("UTC", 0), ("Asia/Tokyo", 9), ("XYZ-3:30", 3.5)):
        if os.path.exists(one.path("log")):
            os.remove(one.path("log"))
        one.run(ends.words("call", "unix:none", "--log", "log"), env={"TZ": zone})
        at = text_of(one.path("log")).split("(", 1)[1][:19]
        there = datetime.strptime(at, "%Y-%m-%d %H:%M:%S").replace(tzinfo=timezone(timedelta(hours=hours)))
        one.holds(f"it is that of {zone}", abs(there.timestamp() - time.time()) < 30, at)


@scene()
def jobs_that_cant_be_told(one):
    """Where `failed` can't be appended to the job stays; what was told stays, and a line of it that is appended to `jobs` is tried again."""
    ends = Ends(one)
    lines = ["# mine", "send gone g me", "send y y me"]
    ends.give("alpha", y="y\n")
    ends.jobs("alpha", *lines)
    os.mkdir(ends.at("alpha", "failed"))
    called = ends.answer(one.line)
    caller = ends.call(one.line)
    # It has opened no line, and the other end waits on.
    called.stop()
    one.row("call", (caller.status, caller.err), (3, said("device fault", "alpha/failed: is a directory")))
    one.row("the jobs stay", text_of(ends.at("alpha", "jobs")), "".join(f"{line}\n" for line in lines))
    os.rmdir(ends.at("alpha", "failed"))
    write(ends.at("alpha", "failed"), "# of another day\nsend other o me\n")
    ends.talk()
    told = "# of another day\nsend other o me\n# no such file to send, or it is too large\nsend gone g me\n"
    one.row("then it is told", (text_of(ends.at("alpha", "jobs")), text_of(ends.at("alpha", "failed"))), ("# mine\n", told))
    ends.give("alpha", gone="here\n")
    write(ends.at("alpha", "jobs"), "send gone g me\n", "ab")
    caller, called = ends.talk()
    one.row("and tried again", (caller.out, text_of(ends.at("beta", "got/g")), text_of(ends.at("alpha", "failed"))),
            (report("caller", struck=1), "here\n", told))


@scene()
def what_the_file_of_jobs_keeps(one):
    """Its mode, its owner, and the link that it is; and the mode of what comes."""
    ends = Ends(one)
    ends.give("alpha", x="x\n")
    write(one.path("elsewhere/list"), "# mine\nsend x x me\n")
    os.chmod(one.path("elsewhere/list"), 0o640)
    owner = 1 if os.geteuid() == 0 else os.geteuid()
    os.chown(one.path("elsewhere/list"), owner, -1)
    os.symlink("../elsewhere/list", ends.at("alpha", "jobs"))
    ends.talk()
    there = os.stat(one.path("elsewhere/list"))
    one.row("the link, and what is behind it", (os.path.islink(ends.at("alpha", "jobs")), text_of(one.path("elsewhere/list")),
            oct(there.st_mode & 0o7777), there.st_uid),
            (True, "# mine\n", "0o640", owner))
    one.row("nothing is beside it", names_in(one.path("elsewhere")), ["list"])
    one.row("the mode of what came", oct(os.stat(ends.at("beta", "got/x")).st_mode & 0o7777), "0o644")


@scene()
def lines_that_are_none(one):
    ends = Ends(one)
    port = free_port()
    for line, why in ((f"tcp:127.0.0.1:{port}", "connection refused"), (f"tcp:{port}", "connection refused"),
            ("tcp:nobody.invalid:540", "unknown host"),
                      ("unix:none", "no such file or directory"), ("/dev/ttyNONE", "no such file or directory"),
                      ("-", "standard input or output is not a socket, pipe or terminal")):
        ended = one.run(ends.words("call", line, "--locks", "."))
        one.row(line.replace(str(port), "PORT"), (ended.status, ended.out, ended.err),
                (3, "", said("device fault", f"{line}: {why}")))
    for line, why in (("tcp:127.0.0.1", "tcp:127.0.0.1 has no port number (0 to 65535): give tcp:HOST:PORT"), ("tcp::540", "tcp::540 has no host"),
            ("unix:", "unix: has no path"), ("", "LINE is empty")):
        one.row(f"bad usage: {line}", one.run(ends.words("call", line)).all(), (2, "", said("bad usage", why)))
    ends.give("alpha", x="x\n")
    ends.jobs("alpha", "send x x me")
    caller, called = ends.talk(f"tcp:{port}")
    one.row("a port of this machine", (caller.all(), called.all()),
            ((0, report("caller", struck=1), ""),
             (0, report("called"), said(f"waiting on 127.0.0.1:{port} (this machine only; tcp:0.0.0.0:{port} for all)"))))
    one.row("a file in the place of a folder", one.run(["call", "unix:none", "alpha/send/x", "--me", "alpha", "--peer",
            "beta"]).all(),
            (3, "", said("device fault", "alpha/send/x: not a directory")))


@scene()
def who_wakes_whom_at_a_terminal(one):
    """One that calls writes a carriage return; one that waits to be called says nothing before the first byte."""
    ends = Ends(one)
    os.mkdir(one.path("locks"))
    for verb, first in (("call", b"\r"), ("answer", b"")):
        master, slave = pty.openpty()
        tty.setraw(slave)
        more = ["--wait", "600"] if verb == "answer" else []
        running = one.start(ends.words(verb, os.ttyname(slave), "--locks", "locks", "--timeout", "5", *more))
        said_first = os.read(master, 100) if select.select([master], [], [], 20 if verb == "call" else 1)[0] else b""
        one.row(f"what {verb} says first", said_first, first)
        if verb == "answer":
            os.write(master, b"\r")
            said_first = os.read(master, 100) if select.select([master], [], [], 10)[0] else b""
            one.row("and when it is called", said_first, b"\x10Shere=beta\0")
        running.kill()
        os.close(master)
        os.close(slave)


@scene()
def sessions_that_say_other_things(one):
    """Each option of a session that is well: the report is the same."""
    ends = Ends(one)
    ends.give("alpha", x=filler("x", 3000))
    ends.give("beta", y=filler("y", 3000))
    for number, words in enumerate((["--no-quiet"], ["--every-ack"], ["--fill-commands"], ["--strict"], ["--no-digest"],
            ["--window", "1", "--size", "32"],
                                    ["--size", "4096", "--window", "3"], ["--speed", "9600"])):
        ends.jobs("alpha", f"send x x{number} me")
        ends.jobs("beta", f"send y y{number} me")
        caller, called = ends.talk(call=words, answer=words)
        one.row(" ".join(words), (caller.all(), called.all()),
                ((0, report("caller", struck=1), ""), (0, report("called", struck=1), "")))
        one.row(f"{' '.join(words)}, what has come", (text_of(ends.at("beta", f"got/x{number}")), text_of(ends.at("alpha",
                f"got/y{number}"))), (filler("x", 3000), filler("y", 3000)))
