"""`queue`: what it does and says; copies, which go where their jobs go; jobs that come while a session runs; and jobs that are
cancelled."""
import fcntl
import os
import threading
import time

from kills import traced
from lines import Cable
from suite import Ends, filler, names_in, report, said, scene, text_in, text_of, wait_until, write


def queue(one, *words, front=()):
    return one.run(["queue", "alpha", *words], front=front)


def names(ends, folder):
    return names_in(ends.at("alpha", folder))


@scene()
def what_queue_says(one):
    ends = Ends(one)
    write(one.path("files/x"), "one\n")
    write(one.path("x"), "two\n")
    write(one.path("most"), filler("most", 1_048_576))
    write(one.path("more"), "")
    os.truncate(one.path("more"), 268_435_457)
    write(one.path("a b"), "")
    write(one.path(".h"), "")
    os.mkfifo(one.path("pipe"))
    cant = lambda name, why: (3, "", said("device fault", f"can't read {name}", f"{name}: {why}"))
    bad = "SOURCE, TARGET and the user are names of 1 to 200 printing characters without a space"
    for what, words, expected in (
        ("nothing waits", (), (0, "", "")),
        ("send", ("send", "files/x", "--user", "me"), (0, "queued send x x me\n", "")),
        ("a name that is taken", ("send", "x", "y", "--user", "me"), (0, "queued send x.1 y me\n", "")),
        ("request", ("request", "~/q", "--user", "me"), (0, "queued request ~/q q me\n", "")),
        ("request with a target", ("request", "q", "r", "--user", "me"), (0, "queued request q r me\n", "")),
        ("the list", (), (0, "send x x me\nsend x.1 y me\nrequest ~/q q me\nrequest q r me\n", "")),
        ("a large file", ("send", "most", "--user", "me"), (0, "queued send most most me\n", "")),
        ("a longer one", ("send", "more"), (3, "", said("over a limit", "more: too large"))),
        ("no file", ("send", "none"), cant("none", "no such file or directory")),
        ("a folder", ("send", "files"), cant("files", "not a regular file")),
        ("a pipe", ("send", "pipe"), cant("pipe", "not a regular file")),
    ):
        one.row(what, queue(one, *words).all(), expected)
    for what, words in (("a hidden file", ("send", ".h")), ("a space", ("send", "a b")), ("no file is named", ("send",)),
            ("another order", ("fetch", "x"))):
        ended = queue(one, *words)
        one.row(what, (ended.status, ended.out, ended.err.splitlines()[0]), (2, "", "uucpair: bad usage"))
    one.row("the copies", {name: text_of(ends.at("alpha", f"send/{name}")) for name in names(ends, "send")},
            {"x": "one\n", "x.1": "two\n", ".copy.x": "one\n", ".copy.x.1": "two\n", "most": filler("most", 1_048_576),
            ".copy.most": filler("most", 1_048_576)})
    one.row("the jobs", text_of(ends.at("alpha", "jobs")),
            "send x x me\nsend x.1 y me\nrequest ~/q q me\nrequest q r me\nsend most most me\n")
    write(ends.at("alpha", "jobs"), "send z z me")
    one.row("behind a line without its line feed", queue(one, "send", "files/x", "--user", "me").out, "queued send x.2 x me\n")
    one.row("which gets one", text_of(ends.at("alpha", "jobs")), "send z z me\nsend x.2 x me\n")


@scene()
def copies_go_where_their_jobs_go(one):
    ends = Ends(one)
    for name in ("done", "failed", "waits", "theirs"):
        write(one.path(f"files/{name}"), f"{name}\n")
    ends.give("alpha", mine="mine\n")
    queue(one, "send", "files/done", "--user", "me")
    queue(one, "send", "files/failed", ".no", "--user", "me")
    one.row("the copies", names(ends, "send"), [".copy.done", ".copy.failed", "done", "failed", "mine"])
    caller, called = ends.talk()
    one.row("the session", caller.out, report("caller", struck=1, failed=["send failed .no me"]))
    one.row("that of a job that is done is gone, and mine is not", names(ends, "send"), ["mine"])
    one.row("that of one that failed is kept", {name: text_of(ends.at("alpha", f"failed.files/{name}")) for name in names(ends,
            "failed.files")}, {"failed": "failed\n"})
    one.row("its name is taken", queue(one, "send", "files/failed", "again", "--user", "me").out,
            "queued send failed.1 again me\n")
    ends.jobs("alpha", "send failed tried me")
    caller, called = ends.talk()
    one.row("it is tried again with its copy", (caller.out, text_of(ends.at("beta", "got/tried"))),
            (report("caller", struck=1), "failed\n"))
    one.row("and stays as long as it is told of", names(ends, "failed.files"), ["failed"])
    ends.give("alpha", failed="mine\n")
    ends.jobs("alpha", "send failed mine me")
    ends.talk()
    one.row("a file in `send` goes before it", text_of(ends.at("beta", "got/mine")), "mine\n")
    os.remove(ends.at("alpha", "send/failed"))
    # a job waits whose file is not there, and one whose copy is another's file by now
    ends.jobs("alpha", "send waits early me")
    one.row("a name that a job has", queue(one, "send", "files/waits", "late", "--user", "me").out,
            "queued send waits.1 late me\n")
    queue(one, "send", "files/theirs", "--user", "me")
    os.remove(ends.at("alpha", "send/theirs"))
    write(ends.at("alpha", "send/theirs"), "another's\n")
    ends.jobs("alpha", "send waits.1 late me")
    queue(one, "request", "q", "--user", "me")
    queue(one, "send", "files/done", "--user", "me")
    one.row("copies that wait, and another's file", {name: text_of(ends.at("alpha", f"send/{name}")) for name in names(ends,
            "send") if name != "mine"},
            {"waits.1": "waits\n", ".copy.waits.1": "waits\n", "done": "done\n", ".copy.done": "done\n", "theirs": "another's\n",
            # a copy whose line somebody has taken out stays
            "failed.1": "failed\n", ".copy.failed.1": "failed\n"})
    # nothing goes while somebody replaces the file of jobs, or where it can't be seen which have failed
    os.rename(ends.at("alpha", "jobs"), one.path("aside"))
    ends.talk()
    one.row("without a file of jobs nothing goes", names(ends, "send"),
            [".copy.done", ".copy.failed.1", ".copy.waits.1", "done", "failed.1", "mine", "theirs", "waits.1"])
    os.rename(one.path("aside"), ends.at("alpha", "jobs"))
    ends.jobs("alpha", "send none none me")
    os.rename(ends.at("alpha", "failed"), one.path("told"))
    os.mkdir(ends.at("alpha", "failed"))
    queue(one, "send", "files/theirs", "--user", "me")
    one.row("nor where `failed` can't be read", names(ends, "failed.files") + [name for name in names(ends,
            "send") if "waits" in name],
            ["failed", ".copy.waits.1", "waits.1"])


def append(path, lines):
    """Appends to the jobs as `queue` does it: with their lock, to the file that has their name then."""
    while True:
        with open(path, "a") as file:
            fcntl.flock(file, fcntl.LOCK_EX)
            if os.path.samestat(os.fstat(file.fileno()), os.stat(path)):
                file.write(lines)
                return


@scene()
def jobs_that_come_meanwhile(one):
    """While a session runs, jobs are queued and appended: none is lost, none is done twice, comments stay."""
    ends = Ends(one)
    ends.give("alpha", **{f"f{number}": filler(f"f{number}", 4000) for number in range(6)}, late="late\n")
    write(one.path("files/q"), "queued\n")
    ends.jobs("alpha", "# first", *(f"send f{number} f{number} me" for number in range(6)), "# last")
    called = ends.answer(one.line)
    cable = Cable(one, rate=12_000)
    caller = one.start(ends.words("call", cable.line))
    wait_until(lambda: len(names_in(ends.at("beta", "got"))) > 1)
    one.row("queue", queue(one, "send", "files/q", "--user", "me").all(), (0, "queued send q q me\n", ""))
    append(ends.at("alpha", "jobs"), "# mine\nsend late late me\nsend f0 f0 me\n")
    wait_until(lambda: len(names_in(ends.at("beta", "got"))) > 3)
    one.row("a job that is queued without a file", queue(one, "request", "none", "--user", "me").out,
            "queued request none none me\n")
    cable.rate = 10_000_000
    one.row("the session", (caller.end().all(), called.end().all()),
            ((0, report("caller", struck=6), ""), (0, report("called"), "")))
    one.row("the jobs then", text_of(ends.at("alpha", "jobs")),
            "# first\n# last\nsend q q me\n# mine\nsend late late me\nsend f0 f0 me\nrequest none none me\n")
    one.row("the copy waits", text_of(ends.at("alpha", "send/q")), "queued\n")
    caller, called = ends.talk()
    one.row("the next session", (caller.out, text_of(ends.at("alpha", "jobs"))),
            (report("caller", struck=3, failed=["request none none me"]), "# first\n# last\n# mine\n"))
    one.row("what came of them", (text_of(ends.at("beta", "got/q")), text_of(ends.at("beta", "got/late"))),
            ("queued\n", "late\n"))


@scene("strace")
def jobs_that_come_late(one):
    """While another file of jobs takes the place of the old one, which lasts a while here, jobs are appended: none is lost."""
    ends = Ends(one)
    ends.give("alpha", x="x\n")
    ends.jobs("alpha", *(f"send x x{number} me" for number in range(3)))
    calls = "flock,rename,renameat,renameat2,fsync"
    called = ends.answer(one.line)
    caller = one.start(ends.words("call", one.line), front=("strace", "-f", "-qq", "-o", "/dev/null", "-e", f"trace={calls}",
            "-e", f"inject={calls}:delay_enter=60000"))
    appended, number = [], 0
    while caller.process.poll() is None and number < 300:
        number += 1
        line = f"send x late{number} me"
        file = os.open(ends.at("alpha", "jobs"), os.O_WRONLY | os.O_APPEND)
        os.write(file, f"{line}\n".encode())
        # what is written to a file that has no name any more may be lost
        if os.fstat(file).st_nlink:
            appended.append(line)
        os.close(file)
        time.sleep(0.02)
    ended = caller.end()
    called.end()
    jobs = text_of(ends.at("alpha", "jobs")).splitlines()
    one.holds("the session is done, and nothing has failed",
            ended.status == 0 and ended.out.startswith("caller done pending 0 ") and ended.out.endswith(" failed 0\n"),
            ended.all())
    come = names_in(ends.at("beta", "got"))
    one.row("no job is lost", [line for line in appended if line not in jobs and line.split()[2] not in come], [])
    one.row("none is there twice", len(jobs), len(set(jobs)))
    one.holds("jobs were appended", len(appended) > 5, appended)


@scene("strace")
def a_kill_behind_the_renaming(one):
    """A job that is appended just before the file of jobs is locked is in the new one as soon as that has its name."""
    ends = Ends(one)
    ends.give("alpha", x="x\n")
    opened = lambda: [line for line in text_of(one.path("trace")).splitlines() if "openat(" in line]

    def start(*more):
        ends.jobs("alpha", "send x x me")
        front = traced(one, "-e", "trace=openat,flock", "-P", "alpha/jobs", *more)
        return ends.answer(one.line), one.start(ends.words("call", one.line), front=front)

    called, caller = start()
    one.row("a session", (caller.end().status, called.end().status), (0, 0))
    # the new file is opened to be appended to when it has its name; before that the old one is opened, and locked
    before = next(number for number, line in enumerate(opened()) if "O_APPEND" in line)
    os.remove(one.path("trace"))
    called, caller = start("-e", "inject=flock:delay_enter=500000", "-e", f"inject=openat:signal=SIGKILL:when={before + 1}")
    wait_until(lambda: len(opened()) == before)
    write(ends.at("alpha", "jobs"), "send y y me\n", "ab")
    caller.end()
    called.end()
    one.row("the jobs behind a kill", text_of(ends.at("alpha", "jobs")), "send y y me\n")


@scene()
def the_same_job_twice(one):
    """Of two lines that are the same each is one job."""
    ends = Ends(one)
    ends.give("alpha", x="x\n")
    ends.jobs("alpha", "send x x me", "send x x me", "send  x   x me")
    caller, called = ends.talk()
    one.row("three jobs", (caller.out, text_of(ends.at("alpha", "jobs"))), (report("caller", struck=3), ""))
    ends.jobs("alpha", "send x x me", "send none none me", "send x x me")
    called = ends.answer(one.line)
    caller = ends.call(Cable(one, most=700).line, "--timeout", "10")
    called.end()
    struck = int(caller.out.split()[5])
    one.row("as many lines are left as were not done", text_of(ends.at("alpha", "jobs")).count("send x x me") + struck, 2)


@scene("minutes")
def more_than_a_session_offers(one):
    """--most: the jobs behind the first whose files have so many bytes wait, which is said."""
    ends = Ends(one)
    ends.give("alpha", a=filler("a", 600_000), b=filler("b", 600_000), c="c\n")
    ends.jobs("alpha", "send a a me", "send b b me", "send c c me")
    caller, called = ends.talk(call=["--most", "1048576"])
    one.row("the first session", caller.all(), (0, report("caller", struck=1), said("2 jobs wait for the next session")))
    one.row("what waits", text_of(ends.at("alpha", "jobs")), "send b b me\nsend c c me\n")
    caller, called = ends.talk(call=["--most", "1048576"])
    one.row("the next one", (caller.all(), text_of(ends.at("alpha", "jobs"))), ((0, report("caller", struck=2), ""), ""))
    one.row("what has come", {name: text_of(ends.at("beta", f"got/{name}")) for name in names_in(ends.at("beta", "got"))},
            {"a": filler("a", 600_000), "b": filler("b", 600_000), "c": "c\n"})


@scene()
def a_job_that_is_held_back(one):
    """A job whose line is a comment, or is missing while somebody writes `jobs` anew, keeps its copy."""
    ends = Ends(one)
    for name in ("kept", "other", "third"):
        write(one.path(name), f"{name}\n")
    queue(one, "send", "kept", "--user", "me")
    held_back = "# send kept kept me\n"
    for what, jobs in (("as a comment", held_back), ("while jobs is empty", "")):
        write(ends.at("alpha", "jobs"), jobs)
        ends.talk()
        queue(one, "send", "other", "--user", "me")
        queue(one, "send", "third", "--user", "me")
        one.run(["queue", "alpha", "--cancel", "2"])
        one.row(f"{what}: its copy stays", [name for name in names(ends, "send") if "kept" in name], [".copy.kept", "kept"])
        ends.talk()
        one.row(f"{what}: the others are gone", names(ends, "send"), [".copy.kept", "kept"])
    write(ends.at("alpha", "jobs"), "send kept kept me\n")
    caller, called = ends.talk()
    one.row("then it is sent", (caller.out, text_of(ends.at("beta", "got/kept"))), (report("caller", struck=1), "kept\n"))
    one.row("and its copy goes", names(ends, "send"), [])


@scene()
def jobs_that_are_edited_under_their_lock(one):
    """A session waits for the lock of `jobs`, and takes its jobs out of what somebody has made of the file meanwhile."""
    ends = Ends(one)
    mine = ends.at("alpha", "jobs")
    for how in ("by another file", "in place"):
        name = how.split()[0]
        ends.give("alpha", **{f"{name}.1": "first\n", f"{name}.2": "more\n"})
        ends.jobs("alpha", f"send {name}.1 {name}.1 me")
        added = f"# mine\nsend {name}.2 {name}.2 me\n"
        talked = []
        talking = threading.Thread(target=lambda: talked.extend(ends.talk()))
        with open(mine, "rb") as held:
            fcntl.flock(held, fcntl.LOCK_EX)
            talking.start()
            wait_until(lambda: text_of(ends.at("beta", f"got/{name}.1")) == "first\n", 20)
            text = added + text_of(mine)
            if name == "by":
                write(f"{mine}.new", text)
                os.rename(f"{mine}.new", mine)
            else:
                write(mine, text)
        talking.join()
        one.row(f"{how}: the session", [ended.status for ended in talked], [0, 0])
        one.row(f"{how}: what is left", text_of(mine), added)
        ends.talk()
        one.row(f"{how}: the added job", text_of(ends.at("beta", f"got/{name}.2")), "more\n")


@scene()
def many_who_queue(one):
    """Four processes queue ten jobs each while sessions run over the folder: each comes once."""
    ends = Ends(one)
    faults = []

    def feed(who):
        for number in range(10):
            write(one.path(f"feed{who}/f"), f"file {who} {number}\n")
            ended = one.run(["queue", "alpha", "send", f"feed{who}/f", f"t{who}.{number}", "--user", "me"])
            if ended.status:
                faults.append(ended.all())

    feeders = [threading.Thread(target=feed, args=(who,)) for who in range(4)]
    for feeder in feeders:
        feeder.start()
    struck, rounds = 0, 0
    while rounds < 60 and (any(feeder.is_alive() for feeder in feeders) or text_of(ends.at("alpha", "jobs"))):
        rounds += 1
        caller, called = ends.talk()
        if caller.status or called.status:
            faults.append((caller.all(), called.all()))
            break
        struck += int(caller.out.split()[5])
    for feeder in feeders:
        feeder.join()
    one.row("nothing fails", faults, [])
    one.row("each is done once", struck, 40)
    one.row("each has come", {name: text_of(ends.at("beta", f"got/{name}")) for name in names_in(ends.at("beta", "got"))},
            {f"t{who}.{number}": f"file {who} {number}\n" for who in range(4) for number in range(10)})
    one.row("no copy is left", names(ends, "send"), [])


@scene("strace")
def a_copy_that_cant_be_removed_once(one):
    """It keeps its mark, and the next session removes both; so does the next one who queues."""
    ends = Ends(one)
    refused = traced(one, "-P", "alpha/send/x", "-e", "inject=unlink,unlinkat:error=EIO:when=1")
    write(one.path("files/x"), "x\n")
    write(one.path("files/y"), "y\n")
    for what, then in (("session", ends.talk), ("one who queues", lambda: queue(one, "send", "files/y", "--user", "me"))):
        queue(one, "send", "files/x", "--user", "me")
        called = ends.answer(one.line)
        caller = ends.call(one.line, front=refused)
        called.end()
        one.row("the job is done", (caller.status, caller.out, text_of(ends.at("alpha", "jobs")), names(ends, "send")),
                (0, report("caller", struck=1), "", [".spare.x", "x"]))
        then()
        one.row(f"the next {what} removes them", [name for name in names(ends, "send") if name.endswith("x")], [])


@scene("strace")
def kills_of_who_queues(one):
    """A kill at each change leaves a job with its copy, or none of both but for what the next one takes away."""
    changes = "openat,write,rename,link,linkat,unlink,unlinkat,fsync,ftruncate"
    faults = []
    for when in range(1, 60):
        ends = Ends(one)
        write(one.path("files/x"), "x\n")
        ended = queue(one, "send", "files/x", "--user", "me",
                front=("strace", "-f", "-qq", "-o", "/dev/null", "-e", f"trace={changes}", "-e",
                f"inject={changes}:signal=SIGKILL:when={when}"))
        jobs = text_of(ends.at("alpha", "jobs"))
        if jobs not in ("", "send x x me\n") or jobs and text_in(ends.at("alpha", "send/x")) != "x\n":
            faults.append((when, jobs, names(ends, "send")))
        if jobs:
            caller, _ = ends.talk()
            if caller.out != report("caller", struck=1) or text_of(ends.at("beta", "got/x")) != "x\n":
                faults.append((when, caller.all()))
        queue(one, "send", "files/x", "y", "--user", "me")
        caller, _ = ends.talk()
        if caller.out != report("caller", struck=1) or [name for name in names(ends, "send") if not jobs or name != "x"]:
            faults.append((when, caller.all(), names(ends, "send")))
        for end in ("alpha", "beta"):
            for folder in ("send", "got"):
                for name in names_in(ends.at(end, folder)):
                    os.remove(ends.at(end, f"{folder}/{name}"))
            if os.path.exists(ends.at(end, "jobs")):
                os.remove(ends.at(end, "jobs"))
        if ended.status == 0:
            break
    one.row("what is left", faults, [])


def cancel(one, word, **how):
    return one.run(["queue", "alpha", "--cancel", word], **how)


def unknown(word, why):
    return (1, "", said(f'"{word}": no such job: {why}'))


IN_USE = (3, "", said("device fault", "alpha is in use"))


@scene()
def a_job_that_is_cancelled(one):
    """It is named by its number or its line, and leaves the list with its copy. All else stays, in its order."""
    ends = Ends(one)
    one.row("without a file of jobs", cancel(one, "1").all(), unknown("1", "none waits"))
    one.row("none is made", names_in(ends.at("alpha")), ["got", "send"])
    for name in ("a", "b", "c"):
        write(one.path(f"files/{name}"), f"{name}\n")
        queue(one, "send", f"files/{name}", "--user", "me")
    ends.give("alpha", mine="mine\n")
    write(ends.at("alpha", "jobs"), "# first\n\nsend mine mine me\n  request  q q me\nsend ~/a again me\n# last\nrequest q q me", "ab")
    for word, why in (("0", "1 to 7"), ("8", "1 to 7"), ("4294967296", "1 to 7"), ("send a a you", "1 to 7"), ("a", "1 to 7"),
            ("", "1 to 7"), ("send a a me\nsend b b me", "1 to 7")):
        shown = word.replace("\n", "\\x0a")
        one.row(f"no such job: {shown}", cancel(one, word).all(),
                unknown(shown, f"give a number from {why}, or a line of the list"))
    one.row("what can't be seen is escaped", cancel(one, "\t\\").err, said(
            '"\\x09\\x5c": no such job: give a number from 1 to 7, or a line of the list'))
    one.row("nothing has changed", text_of(ends.at("alpha", "jobs")), "send a a me\nsend b b me\nsend c c me\n# first\n\n"
            "send mine mine me\n  request  q q me\nsend ~/a again me\n# last\nrequest q q me")
    one.row("by its number", cancel(one, "2").all(), (0, "cancelled send b b me\n", ""))
    one.row("its copy goes with it", names(ends, "send"), [".copy.a", ".copy.c", "a", "c", "mine"])
    one.row("by its line", cancel(one, " send  a a me ").all(), (0, "cancelled send a a me\n", ""))
    one.row("a copy that another job needs stays", names(ends, "send"), [".copy.a", ".copy.c", "a", "c", "mine"])
    one.row("of equal ones the first", cancel(one, "request q q me").all(), (0, "cancelled request q q me\n", ""))
    one.row("all else stays", text_of(ends.at("alpha", "jobs")),
            "send c c me\n# first\n\nsend mine mine me\nsend ~/a again me\n# last\nrequest q q me\n")
    one.row("a file that is no copy stays", (cancel(one, "2").all(), names(ends, "send")),
            ((0, "cancelled send mine mine me\n", ""), [".copy.a", ".copy.c", "a", "c", "mine"]))
    one.row("the last one", cancel(one, "3").all(), (0, "cancelled request q q me\n", ""))
    one.row("with leading zeros", cancel(one, "002").all(), (0, "cancelled send ~/a again me\n", ""))
    one.row("the copies then", names(ends, "send"), [".copy.c", "c", "mine"])
    caller, called = ends.talk()
    one.row("the next session", (caller.all(), names_in(ends.at("beta", "got"))), ((0, report("caller", struck=1), ""), ["c"]))
    one.row("the jobs then", text_of(ends.at("alpha", "jobs")), "# first\n\n# last\n")
    one.row("none is left", cancel(one, "1").all(), unknown("1", "none waits"))
    write(ends.at("alpha", "jobs"), "send x x me\nsend x\n")
    ended = cancel(one, "1")
    one.row("bad jobs", (ended.all(), text_of(ends.at("alpha", "jobs"))),
            ((2, "", said("bad jobs at line 2", "alpha/jobs: line 2: TARGET and USER are missing")), "send x x me\nsend x\n"))
    one.row("no folder", one.run(["queue", "none", "--cancel", "1"]).all(),
            (3, "", said("device fault", "none: no such file or directory")))
    one.row("with an order", one.run(["queue", "alpha", "send", "files/a", "--cancel", "1"]).all(),
            (2, "", said("bad usage", "queue a job or cancel one, not both")))


@scene()
def a_cancel_while_a_session_runs(one):
    """A session holds its jobs: none is cancelled then, none is lost, and none is done twice."""
    ends = Ends(one)
    write(one.path("files/q"), "queued\n")
    for number in range(4):
        write(one.path(f"files/f{number}"), filler(f"f{number}", 4000))
        queue(one, "send", f"files/f{number}", "--user", "me")
    one.run(["queue", "beta", "send", "files/q", "--user", "me"])
    called = ends.answer(one.line)
    one.row("while an end waits to be called", (one.run(["queue", "beta", "--cancel", "1"]).all(), names_in(ends.at("beta", "send"))),
            ((0, "cancelled send q q me\n", ""), []))
    cable = Cable(one, rate=12_000)
    caller = one.start(ends.words("call", cable.line))
    wait_until(lambda: len(names_in(ends.at("beta", "got"))) > 1)
    queue(one, "send", "files/q", "--user", "me")
    one.row("at the end that calls", [cancel(one, word).all() for word in ("1", "send f3 f3 me", "send q q me", "9")], [IN_USE] * 4)
    one.row("at the one that is called", one.run(["queue", "beta", "--cancel", "1"]).all(),
            (3, "", said("device fault", "beta is in use")))
    cable.rate = 10_000_000
    one.row("the session", (caller.end().all(), called.end().all()),
            ((0, report("caller", struck=4), ""), (0, report("called"), "")))
    one.row("what has come", names_in(ends.at("beta", "got")), ["f0", "f1", "f2", "f3"])
    one.row("the jobs then", text_of(ends.at("alpha", "jobs")), "send q q me\n")
    one.row("when it is over", (cancel(one, "send q q me").all(), names(ends, "send")), ((0, "cancelled send q q me\n", ""), []))
    # a session that is killed holds nothing any more
    queue(one, "send", "files/q", "--user", "me")
    called = ends.answer(one.line)
    cable = Cable(one, rate=1_000)
    caller = one.start(ends.words("call", cable.line))
    wait_until(lambda: cancel(one, "9").all() == IN_USE)
    caller.kill()
    one.row("behind a kill", cancel(one, "1").all(), (0, "cancelled send q q me\n", ""))
    called.stop()


@scene()
def many_who_cancel(one):
    """Of four processes that cancel each line one does it; what is queued meanwhile stays."""
    ends = Ends(one)
    ends.jobs("alpha", *(f"request q{number} q me" for number in range(20)))
    ended, faults = [], []

    def take():
        for number in range(20):
            while True:
                came = cancel(one, f"request q{number} q me")
                if came.all() != IN_USE:
                    break
            ended.append((number, came.status, came.out))

    def feed():
        for number in range(20):
            write(one.path("feed/f"), f"file {number}\n")
            came = queue(one, "send", "feed/f", f"t{number}", "--user", "me")
            if came.status:
                faults.append(came.all())

    threads = [threading.Thread(target=take) for _ in range(4)] + [threading.Thread(target=feed)]
    for thread in threads:
        thread.start()
    for thread in threads:
        thread.join()
    one.row("each is cancelled once", sorted(came for came in ended if came[1] == 0),
            [(number, 0, f"cancelled request q{number} q me\n") for number in range(20)])
    one.row("the others hear that it is gone", sorted(came for came in ended if came[1]), [(number, 1, "") for number in range(20)
            for _ in range(3)])
    one.row("nothing fails", faults, [])
    caller, called = ends.talk()
    one.row("what was queued meanwhile", (caller.all(), names(ends, "send")), ((0, report("caller", struck=20), ""), []))
    one.row("has come", {name: text_of(ends.at("beta", f"got/{name}")) for name in names_in(ends.at("beta", "got"))},
            {f"t{number}": f"file {number}\n" for number in range(20)})


@scene("strace")
def kills_of_who_cancels(one):
    """A kill at each change leaves the job with its copy, or neither; a copy that is left goes with the next session."""
    changes = "openat,write,rename,unlink,unlinkat,fsync,fchown,fchmod"
    faults, when, status = [], 0, None
    while status != 0 and when < 80:
        when += 1
        ends = Ends(one)
        write(one.path("files/x"), "x\n")
        write(one.path("files/y"), "y\n")
        write(ends.at("alpha", "jobs"), "")
        queue(one, "send", "files/x", "--user", "me")
        queue(one, "send", "files/y", "--user", "me")
        status = cancel(one, "1", front=("strace", "-f", "-qq", "-o", "/dev/null", "-e", f"trace={changes}", "-e",
                f"inject={changes}:signal=SIGKILL:when={when}")).status
        jobs = text_of(ends.at("alpha", "jobs"))
        if jobs not in ("send x x me\nsend y y me\n", "send y y me\n") or jobs.startswith("send x") and text_in(
                ends.at("alpha", "send/x")) != "x\n":
            faults.append((when, jobs, names(ends, "send")))
        caller, _ = ends.talk()
        if caller.all() != (0, report("caller", struck=jobs.count("\n")), "") or names(ends, "send"):
            faults.append((when, caller.all(), names(ends, "send")))
        come = names_in(ends.at("beta", "got"))
        if come != (["x", "y"] if jobs.startswith("send x") else ["y"]):
            faults.append((when, jobs, come))
        for name in come:
            os.remove(ends.at("beta", f"got/{name}"))
    one.row("what is left", faults, [])
    one.holds("it was killed at many points", 10 < when < 80, when)


@scene("strace")
def refused_calls_of_who_cancels(one):
    """Where the system refuses a call, at each one in turn, the job is there with its copy, or gone; nothing else changes."""
    faults, said_so = [], 0
    for call in ("openat", "flock", "lseek", "write", "fsync", "rename", "unlink"):
        when, ended = 0, None
        while when < 30 and (ended is None or ended.status != 0 or when < 12):
            when += 1
            ends = Ends(one)
            write(one.path("files/x"), "x\n")
            write(ends.at("alpha", "jobs"), "# mine\n")
            queue(one, "send", "files/x", "--user", "me")
            queue(one, "request", "q", "--user", "me")
            ended = cancel(one, "1", front=("strace", "-f", "-qq", "-o", "/dev/null", "-e", f"trace={call}", "-e",
                    f"inject={call}:error=EIO:when={when}"))
            jobs = text_of(ends.at("alpha", "jobs"))
            said_so += ended.status == 3
            whole, left = "# mine\nsend x x me\nrequest q q me\n", "# mine\nrequest q q me\n"
            if jobs not in (whole, left) or jobs == whole and text_in(ends.at("alpha", "send/x")) != "x\n" or (
                    jobs == whole) and ended.out or ended.status == 0 and jobs == whole:
                faults.append((call, when, ended.all(), jobs, names(ends, "send")))
            queue(one, "request", "r", "--user", "me")
            # a copy that can't be removed stays, and so does one whose mark can't be renamed
            if jobs == left and call != "unlink" and (call, when) != ("rename", 1) and cancel(one, "request r r me").status == 0 and names(ends, "send"):
                faults.append((call, when, names(ends, "send")))
            for name in names(ends, "send"):
                os.remove(ends.at("alpha", f"send/{name}"))
    one.row("what is left", faults, [])
    one.holds("it was told", said_so > 6, said_so)


@scene()
def who_queues(one):
    """The user of a job is that of --user, else of USER or LOGNAME where they are names, else `uucp`."""
    Ends(one)
    for what, env, user in (("USER", {"USER": "u", "LOGNAME": "l"}, "u"),
            ("a USER that is no name", {"USER": "a b", "LOGNAME": "l"}, "l"),
                            ("none", {"USER": "", "LOGNAME": ""}, "uucp")):
        ended = one.run(["queue", "alpha", "request", "q"], env=env)
        one.row(what, ended.all(), (0, f"queued request q q {user}\n", ""))
    one.row("a folder that is not there", one.run(["queue", "none"]).all(),
            (3, "", said("device fault", "none: no such file or directory")))
    write(one.path("alpha/jobs"), "send x\n")
    ended = one.run(["queue", "alpha", "request", "q"])
    one.row("bad jobs", (ended.all(), text_of(one.path("alpha/jobs"))),
            ((2, "", said("bad jobs at line 1", "alpha/jobs: line 1: TARGET and USER are missing")), "send x\n"))
