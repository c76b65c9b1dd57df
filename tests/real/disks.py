"""Disks that are full, folders that can't be written, are barred or not there, and files that can't be read."""
import os
import shutil
import subprocess

from kills import traced
from lines import Cable, finish, load, wrong
from suite import Ends, fill_disk, filler, names_in, report, said, scene, text_of, write

NOBODY = ("setpriv", "--reuid=65534", "--regid=65534", "--clear-groups")
# Runs a command whose files have at most 8 KiB: the system takes so much of a longer one.
LIMITED = ("bash", "-c", "trap '' XFSZ; ulimit -f 8; exec \"$@\"", "bash")


def broken(one, what, at, break_it, mend_it, told, status=3):
    """Runs a session while something is broken at an end, checks what is told, and what comes when it is mended."""
    ends = load(one)
    break_it(ends, at)
    called = ends.answer(one.line, "--timeout", "10")
    caller = ends.call(one.line, "--timeout", "10")
    # Whom nobody has called waits on.
    called = called.end() if caller.out or called.process.poll() is not None else called.stop()
    ended = caller if at == "alpha" else called
    one.row(f"{what} at {at}: its status", ended.status, status)
    one.holds(f"{what} at {at}: what is told", told is None or said(told.format(at=at)) in ended.err, ended.err)
    mend_it(ends, at)
    one.row(f"{what} at {at}: what is there", wrong(ends), [])
    one.row(f"{what} at {at}: what has come when it is mended", finish(ends), [])


@scene("root")
def full_disks(one):
    for at in ("alpha", "beta"):
        one.mount(one.path(at), "100k")

        broken(one, "a full disk", at, lambda ends, at: fill_disk(ends.at(at, "filler")), lambda ends,
                at: os.remove(ends.at(at, "filler")), None,
               status=3 if at == "alpha" else 1)
        subprocess.run(["umount", "-l", one.mounted.pop()], check=True)
        shutil.rmtree(one.path("alpha"), ignore_errors=True)
        shutil.rmtree(one.path("beta"), ignore_errors=True)


@scene()
def a_file_that_is_cut_short(one):
    """A file of which the system takes only a part is not kept: its job waits, and the next session brings it."""
    ends = Ends(one)
    ends.give("alpha", long=filler("long", 9000))
    ends.jobs("alpha", "send long long me")
    called = ends.answer(one.line, front=LIMITED)
    caller, called = ends.call(one.line), called.end()
    one.row("who calls", (caller.status, caller.out), (1, report("caller", "peerclosed", pending=1)))
    one.row("who is called", (called.status, called.out), (1, report("called", "spoolfault")))
    one.row("what is there", ends.state("beta"), {})
    caller, called = ends.talk()
    one.row("the next session", (caller.all(), called.all(), ends.state("beta")),
            ((0, report("caller", struck=1), ""), (0, report("called"), ""), {"got/long": filler("long", 9000)}))


@scene()
def folders_that_are_not_there(one):
    move = lambda name: (lambda ends, at: os.rename(ends.at(at, name), one.path("aside")), lambda ends,
            at: os.rename(one.path("aside"), ends.at(at, name)))
    for at in ("alpha", "beta"):
        broken(one, "no got", at, *move("got"), "{at}/got: no such file or directory (make it; only a spool, with --spool, has none)")
        for end in ("alpha", "beta"):
            shutil.rmtree(one.path(end))
        broken(one, "no send", at, *move("send"), "{at}/send: no such file or directory (make it: the files of jobs go there)")
        for end in ("alpha", "beta"):
            shutil.rmtree(one.path(end))


@scene("root")
def folders_that_cant_be_written(one):
    def shut(name):
        def change(ends, at):
            subprocess.run(["mount", "--bind", ends.at(at, name).rstrip("/"), ends.at(at, name).rstrip("/")], check=True)
            subprocess.run(["mount", "-o", "remount,ro,bind", ends.at(at, name).rstrip("/")], check=True)
            one.mounted.append(ends.at(at, name).rstrip("/"))

        def mend(ends, at):
            subprocess.run(["umount", one.mounted.pop()], check=True)

        return change, mend

    for at in ("alpha", "beta"):
        for name, told in (("", "{at}"), ("got", "{at}/got")):
            broken(one, f"a folder {name or 'of an end'} that can't be written", at, *shut(name),
                   f"{told}: read-only file system")
            for end in ("alpha", "beta"):
                shutil.rmtree(one.path(end))


@scene("root")
def jobs_that_cant_be_removed(one):
    """An end that could not take a job out of `jobs` opens no line: the file would come again in each session."""
    ends = Ends(one)
    line = f"unix:open/{one.line[5:]}"
    ends.give("alpha", x="x\n")
    ends.jobs("alpha", "send x x me")
    os.mkdir(one.path("open"))
    for folder in ("open", *(f"{end}/{name}" for end in ("alpha", "beta") for name in ("", "send", "got"))):
        os.chmod(one.path(folder), 0o777)
    at_alpha = lambda verb, *more: [verb, line, "alpha", "--me", "alpha", "--peer", "beta", "--timeout", "2", *more]

    def refused(what, told, name, mode):
        os.chmod(ends.at("alpha", name), mode)
        there = names_in(ends.at("alpha"))
        fault = (3, "", said("device fault", f"{told}: permission denied"))
        called = ends.answer(line)
        caller = one.run(at_alpha("call"), front=NOBODY)
        one.row(f"{what}: who calls", caller.all(), fault)
        one.row(f"{what}: nobody is called, and nothing comes", (called.stop().status, names_in(ends.at("beta", "got"))),
                ("waits", []))
        for place in (one.path(line[5:]), ends.at("beta", "got/x")):
            if os.path.lexists(place):
                os.remove(place)
        one.row(f"{what}: who waits to be called", one.run(at_alpha("answer", "--wait", "2"), front=NOBODY).all(), fault)
        one.row(f"{what}: no socket is made, and nothing is left", (names_in(one.path("open")), names_in(ends.at("alpha"))),
                ([], there))
        os.chmod(ends.at("alpha", name), 0o777)

    refused("a folder that can't be written", "alpha", "", 0o555)
    refused("a folder that keeps the files of others", "alpha/jobs", "", 0o1777)
    os.chown(ends.at("alpha", "jobs"), 65534, 65534)
    write(ends.at("alpha", "failed"), "")
    refused("a list of failed jobs that can't be written", "alpha/failed", "failed", 0o444)
    refused("a folder got that can't be written", "alpha/got", "got", 0o555)
    write(ends.at("alpha", "number"), "7\n")
    refused("a number that can't be written", "alpha/number", "", 0o1777)
    os.remove(ends.at("alpha", "number"))
    os.chmod(ends.at("beta"), 0o555)
    called = ends.answer(line, front=NOBODY)
    caller = one.run(at_alpha("call"), front=NOBODY)
    one.row("who has no jobs needs got alone", (caller.all(), called.end().all(), ends.state("beta"), ends.state("alpha")),
            ((0, report("caller", struck=1), ""), (0, report("called"), ""), {"got/x": "x\n"}, {"jobs": "", "failed": ""}))


@scene("root")
def files_that_cant_be_read(one):
    """Where a job names it that is a fault, and the job stays; where none does, it is passed over, and said."""
    ends = Ends(one)
    ends.give("alpha", x="x\n", shut="shut\n")
    os.chmod(ends.at("alpha", "send/shut"), 0)
    for end in ("alpha", "beta"):
        for folder in ("", "send", "got"):
            os.chmod(ends.at(end, folder), 0o777)
    ends.jobs("alpha", "send x x me")
    os.chmod(ends.at("alpha", "jobs"), 0o666)
    called = ends.answer(one.line)
    caller = one.run(ends.words("call", one.line), front=NOBODY)
    called.end()
    path = "alpha/send/shut"
    one.row("it is passed over", caller.all(), (0, report("caller", struck=1), said(f"{path} is not given: it can't be read")))
    ends.jobs("alpha", "send x x2 me", "send shut shut me")
    called = ends.answer(one.line)
    caller = one.run(ends.words("call", one.line), front=NOBODY)
    called.stop()
    one.row("a job names it", caller.all(), (3, "", said("device fault", f"{path}: permission denied")))
    one.row("the jobs stay", (text_of(ends.at("alpha", "jobs")), os.path.exists(ends.at("alpha", "failed"))),
            ("send x x2 me\nsend shut shut me\n", False))
    os.chmod(ends.at("alpha", "jobs"), 0)
    one.row("jobs that can't be read", one.run(ends.words("call", one.line), front=NOBODY).all(),
            (3, "", said("device fault", "alpha/jobs: permission denied")))
    os.chmod(ends.at("alpha", "send"), 0)
    ends.jobs("alpha", "send x x me")
    os.chmod(ends.at("alpha", "jobs"), 0o666)
    one.row("a folder that can't be seen", one.run(ends.words("call", one.line), front=NOBODY).all(),
            (3, "", said("device fault", "alpha/send: permission denied")))
    one.row("its jobs stay", text_of(ends.at("alpha", "jobs")), "send x x me\n")


@scene("root")
def a_file_that_cant_be_looked_at(one):
    """A link to a file in a folder that nobody may enter: it may be there, so its job stays."""
    ends = Ends(one)
    write(one.path("shut/x"), "x\n")
    os.symlink(one.path("shut/x"), ends.at("alpha", "send/x"))
    for end in ("alpha", "beta"):
        for folder in ("", "send", "got"):
            os.chmod(ends.at(end, folder), 0o777)
    ends.jobs("alpha", "send x x me")
    os.chmod(ends.at("alpha", "jobs"), 0o666)
    os.chmod(one.path("shut"), 0o700)
    called = ends.answer(one.line)
    caller = one.run(ends.words("call", one.line), front=NOBODY)
    called.kill()
    one.row("a fault", caller.all(), (3, "", said("device fault", "alpha/send/x: permission denied")))
    one.row("the job stays", (text_of(ends.at("alpha", "jobs")), os.path.exists(ends.at("alpha", "failed"))),
            ("send x x me\n", False))


@scene("strace")
def a_file_that_cant_be_opened_for_a_moment(one):
    """The answer is that it may be given later: the job waits, and the next session brings the file."""
    ends = Ends(one)
    ends.give("beta", late="late\n", y="y\n")
    ends.jobs("alpha", "request late late me", "request y y me")
    refused = ("-P", "beta/send/late", "-e", "inject=openat:error=EMFILE:when=1")
    called = ends.answer(one.line, front=traced(one, *refused))
    cable = Cable(one)
    caller = ends.call(cable.line)
    later = "put off: the other end will give it later, or the digest was wrong"
    one.row("call", caller.all(), (0, report("caller", pending=1, struck=1), said(f"request late late me: {later}")))
    called = called.end()
    one.row("answer", (called.status, called.out), (0, report("called")))
    one.holds("it is said", said("beta/send/late is not given: it can't be read") in called.err, called.err)
    one.row("the answer, and the job", (b"RN6\0" in cable.heard, text_of(ends.at("alpha", "jobs"))), (True, "request late late me\n"))
    caller, called = ends.talk()
    one.row("the next session", (caller.all(), called.all(), text_of(ends.at("alpha", "got/late"))),
            ((0, report("caller", struck=1), ""), (0, report("called"), ""), "late\n"))


@scene()
def a_folder_that_comes_late(one):
    """A folder that bars a name, and comes once the session runs, ends it: the job stays."""
    from suite import wait_until

    ends = Ends(one)
    ends.give("alpha", a=filler("a", 8000), x="x\n")
    ends.jobs("alpha", "send a a me", "send x x me")
    called = ends.answer(one.line, "--timeout", "10", "-v")
    cable = Cable(one, rate=4000)
    caller = one.start(ends.words("call", cable.line, "--timeout", "10"))
    wait_until(lambda: "peer's send a" in called.said())
    write(ends.at("beta", "got/x/inside"), "inside\n")
    cable.rate = 10_000_000
    caller, called = caller.end(), called.end()
    one.row("who calls", (caller.status, caller.out), (1, report("caller", "peerclosed", pending=1, struck=1)))
    one.row("who is called", (called.status, called.out), (1, report("called", "spoolfault")))
    one.row("what is there", (text_of(ends.at("alpha", "jobs")), names_in(ends.at("beta", "got")), text_of(ends.at("beta",
            "got/x/inside"))), ("send x x me\n", ["a", "x"], "inside\n"))


@scene()
def names_that_are_too_long(one):
    """A name for whose path the system has no room is refused, and the session goes on."""
    ends = Ends(one)
    ends.give("alpha", x="x\n", y="y\n")
    name = "n" * 150
    ends.jobs("alpha", f"send x {name} me", "send y y me")
    deep = one.path("beta")
    deep += "/." * ((4000 - len(deep)) // 2)
    words = ends.words("answer", one.line)
    words[2] = deep + "/" * (4003 - len(deep))
    from suite import listens_at, wait_until

    called = one.start(words)
    wait_until(lambda: listens_at(one.line[5:]) or called.process.poll() is not None)
    caller = ends.call(one.line)
    one.row("who calls", caller.all(), (0, report("caller", struck=1, failed=[f"send x {name} me"]),
            said(f"send x {name} me: refused by the other end: maybe 2 bytes are over its --file-limit, or a folder has that name there")))
    one.row("who is called", called.end().all(), (0, report("called"), ""))


@scene()
def more_files_than_are_given(one):
    """Of 300 files in `send` 256 are given, and it is said of how many that is not so; what a job names is."""
    ends = Ends(one)
    ends.give("alpha", **{f"f{number}": f"{number}\n" for number in range(300)})
    ends.jobs("alpha", "send f7 f7 me", "send f299 f299 me")
    caller, called = ends.talk()
    one.row("call", (caller.status, caller.out, text_of(ends.at("beta", "got/f7")), text_of(ends.at("beta", "got/f299"))),
            (0, report("caller", struck=2), "7\n", "299\n"))
    one.holds("one is named", caller.err.startswith("uucpair: alpha/send/f"), caller.err)
    one.row("and how many more", caller.err.splitlines()[1:], ["uucpair: 41 more files in alpha/send are not given"])


@scene("root")
def jobs_on_a_full_disk(one):
    """Where a job has no room there is no part of it."""
    one.mount(one.path("alpha"), "60k")
    ends = Ends(one)
    text = "# " + "x" * 4087 + "\n"
    write(ends.at("alpha", "jobs"), text)
    fill_disk(ends.at("alpha", "filler"))
    ended = one.run(["queue", "alpha", "request", "q", "--user", "me"])
    one.row("queue", ended.all(), (3, "", said("device fault", "alpha/jobs: no space left")))
    one.row("the jobs are as before", text_of(ends.at("alpha", "jobs")) == text, True)
    os.remove(ends.at("alpha", "filler"))
    one.row("when there is room", one.run(["queue", "alpha", "request", "q", "--user", "me"]).all(),
            (0, "queued request q q me\n", ""))


@scene("root")
def a_cancel_on_a_full_disk(one):
    """Where the jobs that stay have no room all stay, with their copies."""
    one.mount(one.path("alpha"), "60k")
    ends = Ends(one)
    write(one.path("x"), "x\n")
    text = "# " + "x" * 4087 + "\n"
    write(ends.at("alpha", "jobs"), text)
    one.row("a job", one.run(["queue", "alpha", "send", "x", "--user", "me"]).out, "queued send x x me\n")
    fill_disk(ends.at("alpha", "filler"))
    cancelled = lambda: one.run(["queue", "alpha", "--cancel", "1"]).all()
    one.row("a cancel", cancelled(), (3, "", said("device fault", "alpha/jobs: no space left")))
    one.row("all is as before", (text_of(ends.at("alpha", "jobs")) == f"{text}send x x me\n", names_in(ends.at("alpha")),
            names_in(ends.at("alpha", "send"))), (True, ["filler", "got", "jobs", "send"], [".copy.x", "x"]))
    os.remove(ends.at("alpha", "filler"))
    one.row("when there is room", (cancelled(), text_of(ends.at("alpha", "jobs")) == text, names_in(ends.at("alpha", "send"))),
            ((0, "cancelled send x x me\n", ""), True, []))
