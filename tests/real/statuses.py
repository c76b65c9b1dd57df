"""`status`: what it shows of a folder or a spool, in lines and as JSON, and that it changes nothing, also while a session runs."""
import json
import os
import re
import subprocess
import time

from disks import NOBODY
from lines import Cable
from resumes import cut, digest, held
from spools import AS_NOBODY, Nodes
from suite import Ends, files_below, filler, masked, report, said, scene, text_of, wait_until, write

EMPTY = '{"session":null,"log":[],"pending":[],"held":[],"failed":[]}\n'


def status(one, *words, folder="alpha", front=()):
    return one.run(["status", folder, *words], front=front)


def without_ages(text):
    """Returns a status without its ages."""
    return re.sub(r"\d+ (s|min|h|d) old", "AGE", re.sub(r'"age":\d+', '"age":N', text))


def aged(path, seconds, contents=None):
    """Sets the age of a file, which gets these contents."""
    if contents is not None:
        write(path, contents)
    then = time.time() - seconds
    os.utime(path, (then, then))


def partial(ends, name, whole, size, seconds, text=None):
    """Puts the first bytes of a file where an end holds them. Returns the path."""
    text = filler(name, whole) if text is None else text
    path = ends.at("alpha", f"partial/{digest(text)}")
    aged(path, seconds, f'{name} "" 0x{whole:08x} sha256:{digest(text)}\n{text[:size]}')
    return path


def both(one, what, lines, parsed, *words, told="", **how):
    """Adds rows for both texts: the lines, and the object with its ages within a minute. This is told on standard error."""
    one.row(f"{what}: the lines", status(one, *words, **how).all(), (0, "".join(f"{line}\n" for line in lines), told))
    ended = status(one, "--json", *words, **how)
    one.row(f"{what}: JSON's status", (ended.status, ended.err, ended.out.count("\n")), (0, told, 1))
    found = json.loads(ended.out)
    late = []
    for key in ("pending", "held"):
        for there, expected in zip(found[key], parsed[key]):
            age = expected["age"]
            if age is not None and there["age"] is not None and not age <= there["age"] < age + 60:
                late.append((key, there, expected))
            elif age is not None and there["age"] is not None:
                there["age"] = age
    one.row(f"{what}: the ages", late, [])
    one.row(f"{what}: the object", found, parsed)
    # byte for byte, in the order of the members
    spelled = json.dumps(parsed, separators=(",", ":")) + "\n"
    one.row(f"{what}: its text", re.sub(r'"age":\d+', '"age":N', ended.out), re.sub(r'"age":\d+', '"age":N', spelled))


def job(kind, source, target, **more):
    return {"kind": kind, "source": source, "target": target, "user": "me", **more}


@scene()
def what_status_shows(one):
    """Each kind of line, in the order of `jobs`, of names, and of `failed`."""
    ends = Ends(one)
    both(one, "an empty folder", ["0 pending, 0 held, 0 failed"], {"session": None, "log": [], "pending": [], "held": [], "failed": []})
    one.row("its JSON", status(one, "--json").out, EMPTY)
    ends.jobs("alpha", "# mine", "send x y me", "", "request q ~/r me", "send none n me", "send  ~/new ~/new me", "send old o me",
            "send again a me", 'send "b\\ c me', "send ../up u me", "send folder f me")
    for name, seconds, size in (("x", 7300, 9000), ("new", 10, 1), ("old", 200_000, 0), ('"b\\', 600, 5)):
        aged(ends.at("alpha", f"send/{name}"), seconds, filler("file", size))
    aged(ends.at("alpha", "failed.files/again"), 3599, "again\n")
    os.makedirs(ends.at("alpha", "send/folder"))
    partial(ends, "long", 60_000, 23_000, 7300)
    partial(ends, "long", 50_000, 22_000, 86_399, filler("other", 50_000))
    partial(ends, "first", 100, 0, 59)
    write(ends.at("alpha", "failed"), b"# refused by the other end\nsend failed .no me\n# no file\n\nrequest gone g me\nsend two t me\n"
            b"# \xff\xfe \"q\" \\ \xc3\xa9\t\nsend bad b me\nnothing\nsend short\n# a last one\n")
    lines = [
        "9 pending, 3 held, 4 failed",
        "pending send x y me: 9000 bytes, 2 h old",
        "pending request q ~/r me",
        "pending send none n me: no file",
        "pending send ~/new ~/new me: 1 bytes, 10 s old",
        "pending send old o me: 0 bytes, 2 d old",
        "pending send again a me: 6 bytes, 59 min old",
        'pending send "b\\ c me: 5 bytes, 10 min old',
        "pending send ../up u me: no file",
        "pending send folder f me: no file",
        "held first: 0 of 100 bytes, 59 s old",
        "held long: 22000 of 50000 bytes, 23 h old",
        "held long: 23000 of 60000 bytes, 2 h old",
        "failed send failed .no me: refused by the other end",
        "failed request gone g me: no file",
        "failed send two t me: no file",
        'failed send bad b me: \\xff\\xfe "q" \\x5c \\xc3\\xa9\\x09',
    ]
    none = {"bytes": None, "age": None}
    parsed = {
        "session": None,
        "log": [],
        "pending": [
            job("send", "x", "y", bytes=9000, age=7300), job("request", "q", "~/r", **none), job("send", "none", "n", **none),
            job("send", "~/new", "~/new", bytes=1, age=10), job("send", "old", "o", bytes=0, age=200_000),
            job("send", "again", "a", bytes=6, age=3599), job("send", '"b\\x5c', "c", bytes=5, age=600),
            job("send", "../up", "u", **none), job("send", "folder", "f", **none),
        ],
        "held": [
            {"name": "first", "bytes": 0, "whole": 100, "age": 59}, {"name": "long", "bytes": 22_000, "whole": 50_000, "age": 86_399},
            {"name": "long", "bytes": 23_000, "whole": 60_000, "age": 7300},
        ],
        "failed": [
            job("send", "failed", ".no", why="refused by the other end"), job("request", "gone", "g", why="no file"),
            job("send", "two", "t", why="no file"), job("send", "bad", "b", why='\\xff\\xfe "q" \\x5c \\xc3\\xa9\\x09'),
        ],
    }
    before = files_below(ends.at("alpha"))
    both(one, "a full folder", lines, parsed)
    one.row("nothing is changed", files_below(ends.at("alpha")), before)
    aged(ends.at("alpha", "send/x"), -3600)
    one.row("a file of the future has no age", status(one).out.splitlines()[1], "pending send x y me: 9000 bytes")
    one.row("nor in JSON", json.loads(status(one, "--json").out)["pending"][0]["age"], None)


@scene()
def what_status_passes_over(one):
    """What is no partial file, what can't be read, and names that are no text."""
    ends = Ends(one)
    there = partial(ends, "long", 60_000, 23_000, 7300)
    folder = ends.at("alpha", "partial")
    line = ["0 pending, 1 held, 0 failed", "held long: 23000 of 60000 bytes, 2 h old"]
    shown = lambda: status(one).out.splitlines()
    write(os.path.join(folder, "note"), "mine\n")
    write(os.path.join(folder, "a" * 64), "no line\n")
    write(os.path.join(folder, "b" * 64), "")
    os.makedirs(os.path.join(folder, "c" * 64))
    os.symlink(there, os.path.join(folder, "d" * 64))
    os.mkfifo(os.path.join(folder, "e" * 64))
    with open(os.path.join(folder, ".part.1.0"), "w") as file:
        file.write("not whole")
    for at in ("partial", "send", ""):
        with open(os.path.join(os.fsencode(ends.at("alpha", at)), b"bad\xff"), "w") as file:
            file.write("bad")
    one.row("what is no partial file", shown(), line)
    one.row("it stays", len(os.listdir(os.fsencode(folder))), 9)
    os.rename(folder, ends.at("alpha", "elsewhere"))
    os.symlink("elsewhere", folder)
    one.row("a link to such a folder", shown(), ["0 pending, 0 held, 0 failed"])
    os.remove(folder)
    write(folder, "a file")
    one.row("a file in its place", shown(), ["0 pending, 0 held, 0 failed"])


@scene("root")
def what_status_may_not_read(one):
    """A folder that can't be read is a fault, and so is what the end itself could not read."""
    ends = Ends(one)
    ends.give("alpha", x="x\n")
    ends.jobs("alpha", "send x y me")
    write(ends.at("alpha", "failed"), "# why\nsend f g me\n")
    partial(ends, "long", 60_000, 23_000, 7300)
    fault = lambda *lines: (3, "", said("device fault", *lines))
    shown = lambda: status(one, front=NOBODY)
    os.chmod(one.work, 0o755)
    os.chmod(ends.at("alpha", "partial"), 0o700)
    one.row("what is held can't be read", (shown().status, shown().out.splitlines()[0]), (0, "1 pending, 0 held, 1 failed"))
    for name in ("failed", "jobs"):
        os.chmod(ends.at("alpha", name), 0o600)
        one.row(f"{name} can't be read", shown().all(), fault(f"alpha/{name}: permission denied"))
    os.chmod(ends.at("alpha"), 0o700)
    for words in ((), ("--json",)):
        one.row(f"nor the folder {words}", status(one, *words, front=NOBODY).all(), fault("alpha: permission denied"))


@scene()
def mistakes_about_status(one):
    ends = Ends(one)
    write(one.path("file"), "")
    fault = lambda *lines: (3, "", said("device fault", *lines))
    for words in ((), ("--json",)):
        one.row(f"no folder {words}", status(one, *words, folder="none").all(), fault("none: no such file or directory"))
        one.row(f"no name {words}", status(one, *words, folder="").all(), fault(": no such file or directory"))
        one.row(f"a file {words}", status(one, *words, folder="file").all(), fault("file: not a directory"))
        ends.jobs("alpha", "send x y me", "send x")
        one.row(f"bad jobs {words}", status(one, *words).all(),
                (2, "", said("bad jobs at line 2", "alpha/jobs: line 2: TARGET and USER are missing")))
        os.remove(ends.at("alpha", "jobs"))
    for name in ("jobs", "failed"):
        for make, what in ((os.mkdir, "a folder"), (os.mkfifo, "a pipe")):
            make(ends.at("alpha", name))
            one.row(f"{what} in the place of {name}", status(one).all(), fault(f"alpha/{name}: not a regular file"))
            (os.rmdir if make is os.mkdir else os.remove)(ends.at("alpha", name))
    one.row("a name that is no text", one.start(["status", os.fsdecode(b"a\xff")]).end().status, 2)
    one.row("no folder is named", (one.run(["status"]).status, one.run(["status", "alpha", "beta"]).status), (2, 2))


@scene()
def status_while_a_session_runs(one):
    """Both ends are looked at all the time: what is shown is of then, nothing waits, and the session goes on."""
    ends = Ends(one)
    ends.give("alpha", long=filler("long", 60_000), last="last\n")
    ends.jobs("alpha", "send long long me", "send none none me", "send last last me")
    called = ends.answer(one.line, "--log", "beta/log")
    cable = Cable(one, rate=20_000)
    caller = one.start(ends.words("call", cable.line, "--log", "alpha/log"))
    shown = {"alpha": [], "beta": []}

    def look():
        for end, seen in shown.items():
            begun = time.monotonic()
            ended = status(one, folder=end)
            seen.append((ended.status, ended.err, without_ages(ended.out)))
            one.holds("it waits for nothing", time.monotonic() - begun < 5, time.monotonic() - begun)
        return any("held long" in text for _, _, text in shown["beta"])

    one.holds("what comes is seen", wait_until(look), shown["beta"])
    cable.rate = 10_000_000
    wait_until(lambda: look() and caller.process.poll() is not None)
    one.row("the session", (caller.end().status, called.end().status), (0, 0))
    one.row("no status fails", [seen for seen in shown["alpha"] + shown["beta"] if seen[:2] != (0, "")], [])
    first = ("3 pending, 0 held, 0 failed\nsession not over: its mark is there, AGE\npending send long long me: 60000 bytes, AGE\n"
             "pending send none none me: no file\npending send last last me: 5 bytes, AGE\n")
    one.holds("at the end that calls", any(text == first for _, _, text in shown["alpha"]), shown["alpha"][:3])
    seen = [re.fullmatch(r"0 pending, 1 held, 0 failed\nsession not over: its mark is there, AGE\n"
            r"held long: (\d+) of 60000 bytes, AGE\n", text) for _, _, text in shown["beta"]]
    counts = [int(match[1]) for match in seen if match]
    one.holds("at the one that is called", counts and counts == sorted(counts) and 0 < counts[0] <= 60_000, (counts, shown["beta"][-1]))
    one.row("then", [status(one, folder=end).out for end in ("alpha", "beta")],
            ["0 pending, 0 held, 1 failed\nfailed send none none me: no such file to send, or it is too large\n", "0 pending, 0 held, 0 failed\n"])


@scene()
def status_of_what_a_session_left(one):
    """Real files: what a session that was cut off holds, jobs that `queue` made, and the mark of one that was killed."""
    ends = Ends(one)
    write(one.path("files/long"), filler("long", 60_000))
    one.run(["queue", "alpha", "send", "files/long", "--user", "me"])
    cut(one, ends, 30_000)
    ((_, size),) = held(ends, "beta").values()
    one.row("the end that sends", without_ages(status(one).out),
            "1 pending, 0 held, 0 failed\npending send long long me: 60000 bytes, AGE\n")
    one.row("the one that takes", without_ages(status(one, folder="beta").out),
            f"0 pending, 1 held, 0 failed\nheld long: {size} of 60000 bytes, AGE\n")
    called = ends.answer(one.line)
    caller = one.start(ends.words("call", Cable(one, rate=1000).line, "--log", "alpha/log"))
    wait_until(lambda: os.path.exists(ends.at("alpha", ".session")))
    caller.kill()
    called.stop()
    mark = "session not over: its mark is there, AGE"
    one.row("after a kill", without_ages(status(one).out).splitlines()[1], mark)
    one.row("and in JSON", without_ages(status(one, "--json").out).split(',"log"')[0], '{"session":{"age":N}')
    caller, called = ends.talk(call=["--log", "alpha/log"])
    one.row("it comes", (caller.out, status(one).out, status(one, folder="beta").out),
            (report("caller", struck=1), "0 pending, 0 held, 0 failed\n", "0 pending, 0 held, 0 failed\n"))


def shown_of(log, *lines):
    """Returns what a status shows of these lines of a log, by their numbers, and the entries of its JSON."""
    entries = []
    for number in lines:
        head, _, text = text_of(log).splitlines()[number].partition(") ")
        _, system, _, date, at, _ = head.split(" ")
        entries.append({"system": system, "date": date[1:], "time": at, "text": text})
    return [f"session {e['system']} {e['date']} {e['time']}: {e['text']}" for e in entries], entries


def log_rows(one, ends, what, *lines, end="alpha"):
    """Adds rows for the last session in the log of an end: these lines of it are shown."""
    log = ends.at(end, "log")
    shown, entries = shown_of(log, *lines)
    words = ("--log", f"{end}/log")
    one.row(what, [line for line in status(one, *words, folder=end).out.splitlines() if line.startswith("session ")], shown)
    one.row(f"{what}: JSON", json.loads(status(one, *words, "--json", folder=end).out)["log"], entries)


@scene()
def the_last_session_in_a_log(one):
    """The other system, when the last session began, and how it ended: what the log says, at both ends."""
    ends = Ends(one)
    ends.give("alpha", x="x\n")
    logs = {"call": ["--log", "alpha/log"], "answer": ["--log", "beta/log"]}
    ends.jobs("alpha", "send x x me", "request none none me")
    ends.talk(**logs)
    one.row("a session that is done: the log", [line.split("(TIME) ")[1] for line in masked(ends.at("alpha", "log"))],
            [f"Calling system beta (port {one.line})", "Sending x (2 bytes)", "ERROR: request none none: refused", "ERROR: 1 job was given up",
            "Call complete (2 bytes)", "ERROR: request none none me: not given by the other end: no such file in its send, or barred there; "
            "or it can't be put in its place here"])
    log_rows(one, ends, "a session that is done", 0, 2, 3, 4, 5)
    log_rows(one, ends, "at the other end", 0, 2, 3, end="beta")
    one.row("without a log", [line for line in status(one).out.splitlines() if line.startswith("session")], [])
    called = ends.answer(one.line, *logs["answer"])
    one.run(["call", one.line, "alpha", "--me", "other", "--peer", "beta", *logs["call"]])
    called.stop()
    log_rows(one, ends, "a stranger", 6, 7, 8)
    write(ends.at("alpha", "log"), b"no line\nuucpair \xff - (d t 1) Calling system \xff \\\nuucpair b - (d t 1) ERROR: \xc3\xa9 \"q\"\n"
            b"uucpair b - (d t 2) ERROR: another's\nuucpair b - (d t 1) Call complete x")
    one.row("bytes that are no text", status(one, "--log", "alpha/log").out.splitlines()[1:-1],
            ["session \\xff d t: Calling system \\xff \\x5c", 'session b d t: ERROR: \\xc3\\xa9 "q"', "session b d t: Call complete x"])
    for what, text in (("an empty log", ""), ("a log without a start", "uucpair b - (d t 1) Call complete x\n")):
        write(ends.at("alpha", "log"), text)
        one.row(what, json.loads(status(one, "--json", "--log", "alpha/log").out)["log"], [])
    with open(ends.at("alpha", "log"), "w") as file:
        file.write("uucpair a - (d t 1) Calling system a\n")
        file.seek(17_000_000)
        file.write("\nuucpair b - (d t 1) Calling system b\n")
    one.row("the end of a long log", status(one, "--log", "alpha/log").out.splitlines()[1:-1], ["session b d t: Calling system b"])


@scene()
def mistakes_about_a_log(one):
    ends = Ends(one)
    os.mkfifo(one.path("pipe"))
    for log, why in (("none", "no such file or directory"), ("alpha", "not a regular file"), ("pipe", "not a regular file")):
        one.row(log, status(one, "--log", log).all(), (3, "", said("device fault", f"can't read {log}", f"{log}: {why}")))


# ---- of a spool


def of(nodes, node="alpha", *words, peer=None):
    """Returns the words of a status behind its folder: of the other node's part of a spool."""
    return ("--spool", "--peer", peer or nodes.other(node), "--locks", nodes.at(node, "lock"), *words)


def shown_at(one, nodes, node="alpha", *words, **how):
    return status(one, *of(nodes, node, *words, **how), folder=nodes.at(node, "spool"))


@scene("root", "uucp")
def status_of_what_uucp_queued(one):
    """Jobs that Debian's `uucp` and `uux` queue: of each line what goes where, and its data; by their grades."""
    os.chmod(one.work, 0o755)
    at = lambda name: one.path(f"uucp/{name}")
    for folder in ("spool", "pub", "log", "lock", "src"):
        os.makedirs(at(folder))
    for name, lines in {
        "config": ["nodename alpha", f"spool {at('spool')}", f"pubdir {at('pub')}", f"lockdir {at('lock')}", f"sysfile {at('sys')}",
                   f"logfile {at('log/Log')}", f"statfile {at('log/Stats')}", f"debugfile {at('log/Debug')}", f"portfile {at('port')}"],
        "port": ["port gate", "type tcp"],
        "sys": [f"system {name}\ntime any\nport gate\nchat \"\"\nprotocol g\nlocal-send /\n" for name in ("beta", "gamma")],
    }.items():
        write(at(name), "".join(f"{line}\n" for line in lines))
    for name, text in (("x", "hello\n"), ("y", "")):
        aged(at(f"src/{name}"), 7300, text)
    subprocess.run(["chown", "-R", "uucp:uucp", at("")], check=True)

    def queue(program, *words, **how):
        subprocess.run(["runuser", "-u", "uucp", "--", program, "-I", at("config"), "-r", *words], check=True, **how)

    queue("uucp", "-gB", "-C", at("src/x"), "beta!~/x")
    queue("uucp", "-gC", "-c", at("src/y"), "beta!~/y2")
    queue("uucp", "-gA", "-C", at("src/y"), "beta!~/first")
    queue("uucp", "-ga", "beta!~/asked", at("pub/got"))
    queue("uucp", "-C", at("src/x"), "gamma!~/other")
    queue("uux", "-gb", "-", "beta!rmail", "(you@beta)", input=b"a mail\n")
    for number, seconds in ((1, 600), (3, 200_000), (4, 90)):
        aged(at(f"spool/beta/D./D.000{number}"), seconds)
    src, got, before = at("src"), at("pub/got"), files_below(at(""))
    lines = [
        "5 pending, 0 held, 0 failed",
        f"pending send {src}/y ~/first uucp: 0 bytes, 2 d old",
        f"pending send {src}/x ~/x uucp: 6 bytes, 10 min old",
        f"pending send {src}/y ~/y2 uucp: 0 bytes, 2 h old",
        f"pending request ~/asked {got} uucp",
        "pending send D.0004 D.alphab0004 uucp: 7 bytes, 1 min old",
    ]
    sent = lambda source, target, size, age: {**job("send", source, target, bytes=size, age=age), "user": "uucp"}
    parsed = {"session": None, "log": [], "held": [], "failed": [], "pending": [
        sent(f"{src}/y", "~/first", 0, 200_000), sent(f"{src}/x", "~/x", 6, 600), sent(f"{src}/y", "~/y2", 0, 7300),
        {**job("request", "~/asked", got, bytes=None, age=None), "user": "uucp"}, sent("D.0004", "D.alphab0004", 7, 90),
    ]}
    # an object has its members in this order
    parsed = {key: parsed[key] for key in ("session", "log", "pending", "held", "failed")}
    words = ("--spool", "--peer", "beta", "--locks", at("lock"))
    both(one, "what uucp queued", lines, parsed, *words, folder=at("spool"))
    one.row("nothing is changed", files_below(at("")), before)
    queue("uucp", "beta!~/w*", "~/")
    ended = status(one, *words, folder=at("spool"))
    one.row("a wildcard for the other system", (ended.status, ended.out.splitlines(), re.sub("C.N[^:]*", "C.N", ended.err)),
            (0, lines, said("C.N: a line that can't be sent stays")))


@scene()
def what_status_shows_of_a_spool(one):
    """The lines of C. files that are not over, what is held, and the lock file of a session: of the system that is named."""
    nodes = Nodes(one)
    src, spool = nodes.at("alpha", "src"), nodes.at("alpha", "spool")
    empty = {"session": None, "log": [], "pending": [], "held": [], "failed": []}
    nodes.known("alpha", "beta")
    both(one, "an empty spool", ["0 pending, 0 held, 0 failed"], empty, *of(nodes), folder=spool)
    one.row("its JSON", shown_at(one, nodes, "alpha", "--json").out, EMPTY)
    nodes.queue("alpha", "C.Z1", f"S {src}/gone ~/gone me -c D.0 0644 ", "", f"S {src} ~/folder me -c D.0 0644 ", f"S {src}/x ~/x me -c D.0 0644 ",
                "S ~/x ~/over me -C D.0001 0644 ", "S ~/x ~/copied me -C D.0002 0644 ", "R ~/q /tmp/q me -d", _0002="copied\n")
    nodes.mail("alpha", "0003", "mail\n")
    nodes.queue("alpha", "C.A9", "S ~/z ~/z me -C D.X0004 0644 ", system="beta")
    write(f"{spool}/beta/D.X/D.X0004", "text\n")
    nodes.queue("alpha", "C.A1", "S ~/other ~/other me -C D.0002 0644 ", system="gamma", _0002="other\n")
    for name, seconds in (("src/x", 90), ("spool/beta/D./D.0002", 3660), ("spool/beta/D./D.0003", 600), ("spool/beta/D.X/D.X0004", 200_000)):
        aged(nodes.at("alpha", name), seconds, "x\n" if name == "src/x" else None)
    text = filler("long", 60_000)
    for system, size in (("beta", 23_000), ("gamma", 5)):
        aged(f"{spool}/.Partial/{system}/{digest(text)}", 7300, f'long "" 0x{60_000:08x} sha256:{digest(text)}\n{text[:size]}')
    write(nodes.at("alpha", "lock/LCK..gamma"), "")
    lines = [
        "7 pending, 1 held, 0 failed",
        "pending send ~/z ~/z me: 5 bytes, 2 d old",
        "pending send D.0003 D.alphaN0003 u: 5 bytes, 10 min old",
        f"pending send {src}/gone ~/gone me: no file",
        f"pending send {src} ~/folder me: no file",
        f"pending send {src}/x ~/x me: 2 bytes, 1 min old",
        "pending send ~/x ~/copied me: 7 bytes, 1 h old",
        "pending request ~/q /tmp/q me",
        "held long: 23000 of 60000 bytes, 2 h old",
    ]
    none = {"bytes": None, "age": None}
    parsed = {**empty, "pending": [
        job("send", "~/z", "~/z", bytes=5, age=200_000), {**job("send", "D.0003", "D.alphaN0003", bytes=5, age=600), "user": "u"},
        job("send", f"{src}/gone", "~/gone", **none), job("send", src, "~/folder", **none), job("send", f"{src}/x", "~/x", bytes=2, age=90),
        job("send", "~/x", "~/copied", bytes=7, age=3660), job("request", "~/q", "/tmp/q", **none),
    ], "held": [{"name": "long", "bytes": 23_000, "whole": 60_000, "age": 7300}]}
    before = files_below(nodes.at("alpha"))
    both(one, "a full spool", lines, parsed, *of(nodes), folder=spool)
    one.row("nothing is changed", files_below(nodes.at("alpha")), before)
    one.row("another system", without_ages(shown_at(one, nodes, peer="gamma").out), "1 pending, 1 held, 0 failed\n"
            "session not over: its mark is there, AGE\npending send ~/other ~/other me: 6 bytes, AGE\nheld long: 5 of 60000 bytes, AGE\n")
    one.row("its mark in JSON", without_ages(shown_at(one, nodes, "alpha", "--json", peer="gamma").out).split(',"log"')[0], '{"session":{"age":N}')


@scene()
def lines_that_status_cant_show(one):
    """A line that no session offers is told on standard error, once of a C. file; the others are shown."""
    nodes = Nodes(one)
    told = lambda *names: said(*(f"{name}: a line that can't be sent stays" for name in names))
    first, rest = "pending send ~/a ~/a me: 2 bytes, AGE\n", "pending send ~/b ~/b me: 2 bytes, AGE\n"
    for number, line in enumerate(("nothing", "S ~/x ~/y me -C", "S ~/x ~/y me -C C.N1 0644 ", "S ~/x ~/y me -C D.0007 rw ", "S x ~/y me -c D.0 0644 ",
                                   "X ~/w* beta!~/ me -d", "S ~/a\\040b ~/y me -Cq D.0007 0644 ", f"R ~/{'n' * 200} ~/y me -d", "\xff \0")):
        nodes.queue("alpha", "C.N1", "S ~/a ~/a me -C D.0001 0644 ", line, line, "S ~/b ~/b me -C D.0002 0644 ", _0001="a\n", _0002="b\n", _0007="c\n")
        ended = shown_at(one, nodes)
        one.row(f"line {number}: {line[:30]!r}", (ended.status, without_ages(ended.out), ended.err),
                (0, f"2 pending, 0 held, 0 failed\n{first}{rest}", told("C.N1")))
    nodes.queue("alpha", "C.A2", "S ~/b ~/b me -C D.0002 0644 \nnothing")
    ended = shown_at(one, nodes, "alpha", "--json")
    one.row("two files, as JSON", (ended.status, len(json.loads(ended.out)["pending"]), ended.err), (0, 3, told("C.A2", "C.N1")))
    spool = nodes.at("alpha", "spool")
    for name in ("none", "C.", "N3", "C.N4.part"):
        write(f"{spool}/beta/C./{name}", "S ~/b ~/b me -C D.0002 0644 \n")
    os.makedirs(f"{spool}/beta/C./C.N5")
    os.mkfifo(f"{spool}/beta/C./C.N6")
    shown = lambda: shown_at(one, nodes).out.splitlines()[0]
    one.holds("what is no C. file", shown() in ("3 pending, 0 held, 0 failed", "4 pending, 0 held, 0 failed"), shown())
    with open(f"{spool}/beta/C./C.N7", "w") as file:
        file.truncate(1_048_577)
    one.row("a C. file that is too long", (shown_at(one, nodes).status, shown_at(one, nodes).out), (3, ""))


@scene()
def mistakes_about_a_spool(one):
    nodes = Nodes(one)
    spool = nodes.at("alpha", "spool")
    usage = lambda line: (2, "", said("bad usage", line))
    fault = lambda *lines: (3, "", said("device fault", *lines))
    nodes.known("alpha", "beta")
    write(one.path("file"), "")
    for words in ((), ("--json",)):
        one.row(f"no spool {words}", status(one, *of(nodes), *words, folder="none").all(), fault("none: no such file or directory"))
        one.row(f"a file {words}", status(one, *of(nodes), *words, folder="file").all(), fault("file: not a directory"))
        one.row(f"no system {words}", status(one, "--spool", *words, folder=spool).all(), usage("the name of the other end is missing: --peer"))
        one.row(f"no --spool {words}", status(one, "--peer", "beta", *words, folder=spool).all(), usage("--peer names a system of a spool: add --spool"))
        one.row(f"no log {words}", status(one, *of(nodes), "--log", "none", *words, folder=spool).all(),
                fault("can't read none", "none: no such file or directory"))
    one.row("an empty name", status(one, "--spool", "--peer", "", folder=spool).all(), usage("the name of the other end is missing: --peer"))
    one.row("two words", status(one, "--spool", "--peer", "a b", folder=spool).all(),
            usage('"a b" is not a system name: 1 to 200 printable characters without spaces'))
    for name in (".", "..", ".Status", "../x", "x/y"):
        one.row(f"the name {name}", status(one, "--spool", "--peer", name, folder=spool).all(),
                usage(f'"{name}" is not a system name for a spool: no slash, no leading dot'))
    there = files_below(nodes.at("alpha"))
    for words, out in (((), "0 pending, 0 held, 0 failed\n"), (("--json",), EMPTY)):
        one.row(f"a system that is not known {words}", shown_at(one, nodes, "alpha", *words, peer="delta").all(),
                (0, out, said("the spool has no folder for delta")))
    one.row("nothing is made", (files_below(nodes.at("alpha")), os.listdir(spool)), (there, ["beta"]))


@scene("root")
def what_status_may_not_read_of_a_spool(one):
    """What can't be read of a spool is a fault, rather than left out."""
    nodes = Nodes(one)
    os.chmod(one.work, 0o755)
    spool = nodes.at("alpha", "spool")
    nodes.queue("alpha", "C.N1", "S ~/a ~/a me -C D.0001 0644 ", _0001="a\n")
    shown = lambda: status(one, *of(nodes), folder=spool, front=NOBODY)
    one.row("it can be read", (shown().status, shown().out.splitlines()[0]), (0, "1 pending, 0 held, 0 failed"))
    for name in ("beta/C./C.N1", "beta/C.", "beta/D.", "beta", ""):
        path = f"{spool}/{name}"
        mode = os.stat(path).st_mode
        os.chmod(path, 0o600)
        one.row(f"{name} can't be read", shown().all(), (3, "", said("device fault", f"{spool}: permission denied")))
        os.chmod(path, mode)


@scene()
def status_of_a_session_over_a_spool(one):
    """While a session runs, after one that was cut off, and the last one with that system in a log that several share."""
    nodes = Nodes(one)
    text = filler("long", 60_000)
    nodes.known("beta", "alpha")
    nodes.queue("alpha", "C.N1", "S ~/long ~/long me -C D.0001 0644 ", _0001=text)
    called = nodes.answer("beta")
    cable = Cable(one, rate=10_000)
    nodes.own()
    caller = one.start(nodes.words("call", "alpha", cable.line, "beta"), front=AS_NOBODY)
    look = lambda node: status(one, *of(nodes, node), folder=nodes.at(node, "spool"), front=AS_NOBODY)
    one.holds("what comes is seen", wait_until(lambda: "held " in look("beta").out), look("beta").out)
    one.row("at the end that calls", without_ages(look("alpha").out), "1 pending, 0 held, 0 failed\n"
            "session not over: its mark is there, AGE\npending send ~/long ~/long me: 60000 bytes, AGE\n")
    one.row("at the one that is called", re.sub(r"D.0001: \d+", "D.0001: N", without_ages(look("beta").out)),
            "0 pending, 1 held, 0 failed\nsession not over: its mark is there, AGE\nheld D.0001: N of 60000 bytes, AGE\n")
    cable.rate = 10_000_000
    one.row("both are well", (caller.end().status, called.end().status), (0, 0))
    for node in nodes.names:
        one.row(f"then, at {node}", look(node).all(), (0, "0 pending, 0 held, 0 failed\n", ""))


@scene()
def the_last_session_with_a_system(one):
    """A log of a spool has the sessions with all systems: shown is the last one with that which is named, and what is said of its end."""
    nodes = Nodes(one)
    nodes.known("beta", "alpha")
    log = nodes.at("alpha", "Log")
    nodes.queue("alpha", "C.N1", f"S {nodes.at('alpha', 'src')}/none ~/none me -c D.0 0644 ")
    nodes.talk()
    write(log, text_of(log) + "uucico gamma - (d t 1) Calling system gamma (port p)\nuucico gamma - (d t 1) ERROR: no\n"
          "uucico - - (d t 2) Incoming call (login x port p)\nuucico delta - (d t 1) Calling system delta (port p)\n"
          "uucico  gamma - (d t 1) Call complete (3 bytes)\nnothing\n\ngamma\n")
    starts = [number for number, line in enumerate(text_of(log).splitlines()) if " beta " in line and re.search("Calling|ERROR|complete", line)]
    expected, entries = shown_of(log, *starts)
    one.holds("there is a start, an error and an end", len(starts) > 2, text_of(log))
    words = ("--log", log)
    sessions = lambda **how: [line for line in shown_at(one, nodes, "alpha", *words, **how).out.splitlines() if line.startswith("session ")]
    one.row("with beta", sessions(), expected)
    one.row("with beta, as JSON", json.loads(shown_at(one, nodes, "alpha", *words, "--json").out)["log"], entries)
    one.row("with gamma", sessions(peer="gamma"), ["session gamma d t: Calling system gamma (port p)", "session gamma d t: ERROR: no"])
    one.row("with delta", sessions(peer="delta"), ["session delta d t: Calling system delta (port p)"])
    one.row("with another", sessions(peer="epsilon"), [])
    one.row("without a log", [line for line in shown_at(one, nodes).out.splitlines() if line.startswith("session")], [])
