"""Files that take longer than the line holds: an end goes on with one where its last session was cut off."""
import hashlib
import os
import re
import shutil

from disks import NOBODY
from lines import Cable
from spools import Nodes
from suite import Ends, fill_disk, filler, names_in, read, report, scene, text_of, write

SIZE = 60_000
QUICK = ("--timeout", "10")


def ends_with(one, giver="alpha", **files):
    """Two ends, of which one gives these files."""
    ends = Ends(one)
    ends.give(giver, **files)
    ends.jobs(giver, *(f"send {name} {name} u" for name in files))
    return ends


def taker_of(giver):
    return "beta" if giver == "alpha" else "alpha"


def held(ends, taker):
    """Returns what an end holds of files: for each the line in front of the bytes, and how many these are."""
    found = {}
    for name in names_in(ends.at(taker, "partial")):
        line, _, front = read(ends.at(taker, f"partial/{name}")).partition(b"\n")
        found[name] = (line.decode(), len(front))
    return found


def digest(text):
    return hashlib.sha256(text.encode()).hexdigest()


def cut(one, ends, most, call=(), answer=()):
    """Runs a session over a line that is gone behind so many bytes. Returns both ends, and how many bytes passed."""
    called = ends.answer(one.line, *QUICK, *answer)
    cable = Cable(one, most=most)
    caller = ends.call(cable.line, *QUICK, *call)
    return caller, called.end(), cable.passed


def until_over(one, ends, giver, most, sessions=12, **how):
    """Runs such sessions until no job of the giver waits. Returns how many there were, and the bytes on the line."""
    passed = 0
    for number in range(1, sessions + 1):
        passed += cut(one, ends, most, **how)[2]
        if not text_of(ends.at(giver, "jobs")):
            return number, passed
    return None, passed


@scene()
def a_file_longer_than_the_line_holds(one):
    """What has come is not sent again, whoever sends it."""
    text = filler("long", SIZE)
    for giver in ("alpha", "beta"):
        taker = taker_of(giver)
        ends = ends_with(one, giver, long=text)
        caller, called, _ = cut(one, ends, SIZE // 2)
        one.row(f"the first session, from {giver}", (caller.status, called.status, names_in(ends.at(taker, "got"))), (1, 1, []))
        there = held(ends, taker)
        line = f'long "" 0x{SIZE:08x} sha256:{digest(text)}'
        one.row(f"what is held, from {giver}", {name: front for name, (front, _) in there.items()}, {digest(text): line})
        one.holds(f"most of what passed is held, from {giver}", all(23_000 <= size <= SIZE // 2 for _, size in there.values()), there)
        one.row(f"who may read it, from {giver}", [oct(os.stat(ends.at(taker, f"partial/{name}")).st_mode & 0o777) for name in there], ["0o600"])
        sessions, passed = until_over(one, ends, giver, SIZE // 2)
        one.holds(f"it comes in three sessions, from {giver}", sessions in (1, 2), sessions)
        one.holds(f"each byte passes once, from {giver}", SIZE // 2 + passed <= 1.25 * SIZE, passed)
        one.row(f"what has come, from {giver}", (text_of(ends.at(taker, "got/long")) == text, held(ends, taker), names_in(ends.at(taker, "got"))),
                (True, {}, ["long"]))


def job_lines(ended):
    """Returns the lines of -v on jobs, without their seconds."""
    return [re.sub(r"\b\d+ s\b", "N s", line) for line in ended.err.splitlines() if re.search(r" s: (peer's )?send ", line)]


def file_lines(log):
    """Returns the lines of a log on files, without their heads."""
    lines = [re.sub(r"^\S+ \S+ \S+ \([^)]*\) ", "", line) for line in text_of(log).splitlines()]
    return [line for line in lines if line.startswith(("Sending ", "Receiving "))]


@scene()
def where_a_file_goes_on(one):
    """With -v both ends say from which byte on a file is sent, and in the end how many bytes passed in this session. So do their logs."""
    ends = ends_with(one, long=filler("long", 9000))
    caller, called, _ = cut(one, ends, 5000, call=["-v"], answer=["-v"])
    one.row("a file that is cut off", (job_lines(caller), job_lines(called)),
            (["uucpair: N s: send long long"], ["uucpair: N s: peer's send long long"]))
    (start,) = (size for _, size in held(ends, "beta").values())
    caller, called = ends.talk(call=["-v", "--log", "alpha/log"], answer=["-v", "--log", "beta/log"])
    for who, ended, whose in (("who calls", caller, ""), ("who is called", called, "peer's ")):
        job = f"uucpair: N s: {whose}send long long"
        one.row(f"what the end says {who}", job_lines(ended), [job, f"{job}: resumed at {start}", f"{job}: done {9000 - start} bytes in N s"])
    for name, verb in (("alpha", "Sending"), ("beta", "Receiving")):
        one.row(f"the log of {name}", file_lines(ends.at(name, "log")), [f"{verb} long (9000 bytes resume at {start})", f"{verb} long ({9000 - start} bytes)"])


@scene()
def files_on_lines_that_hold_little(one):
    """A line that is cut at a tenth of the file, and at each place near the end of one."""
    text = filler("tenth", 20_000)
    ends = ends_with(one, tenth=text)
    sessions, passed = until_over(one, ends, "alpha", 4000, sessions=30)
    one.holds("it comes", sessions and text_of(ends.at("beta", "got/tenth")) == text, (sessions, passed))
    one.row("nothing is held then", held(ends, "beta"), {})
    for most in range(20_000, 22_600, 200):
        ends = ends_with(one, tenth=text)
        cut(one, ends, most)
        sessions, _ = until_over(one, ends, "alpha", 40_000)
        one.row(f"cut behind {most}", (sessions is not None, text_of(ends.at("beta", "got/tenth")) == text, held(ends, "beta"),
                os.path.exists(ends.at("alpha", "failed"))), (True, True, {}, False))


@scene()
def several_files_that_are_cut_off(one):
    """Each is held; one that is sent first the next time does not displace another; one that is no longer sent stays."""
    texts = {name: filler(name, 9000) for name in ("a", "b", "c")}
    ends = ends_with(one, **texts)
    for name in ("a", "b", "c"):
        ends.jobs("alpha", f"send {name} {name} u")
        cut(one, ends, 5000)
    one.row("each is held", sorted(line.split()[0] for line, _ in held(ends, "beta").values()), ["a", "b", "c"])
    ends.jobs("alpha", "send b b u")
    caller, called = ends.talk()
    one.row("one of them comes", (caller.all(), called.all()), ((0, report("caller", struck=1), ""), (0, report("called"), "")))
    one.row("the others are held", sorted(line.split()[0] for line, _ in held(ends, "beta").values()), ["a", "c"])
    ends.jobs("alpha", "send a a u", "send c c u")
    ends.talk()
    one.row("all have come", ({name: text_of(ends.at("beta", f"got/{name}")) == text for name, text in texts.items()}, held(ends, "beta")),
            ({name: True for name in texts}, {}))


@scene()
def both_hold_a_file_of_the_other(one):
    """One session goes on with both."""
    texts = {end: filler(end, 20_000) for end in ("alpha", "beta")}
    ends = Ends(one)
    for end, text in texts.items():
        ends.give(end, **{end: text})
    ends.jobs("alpha", "send alpha alpha u")
    cut(one, ends, 15_000)
    ends.jobs("alpha")
    ends.jobs("beta", "send beta beta u")
    cut(one, ends, 15_000)
    one.row("each holds one", {end: [line.split()[0] for line, _ in held(ends, end).values()] for end in texts}, {"alpha": ["beta"], "beta": ["alpha"]})
    ends.jobs("alpha", "send alpha alpha u")
    caller, called, passed = cut(one, ends, 100_000)
    one.row("both come", (caller.all(), called.all()), ((0, report("caller", struck=1), ""), (0, report("called", struck=1), "")))
    one.holds("only the rest passed", passed < 20_000, passed)
    one.row("they are whole", ({end: text_of(ends.at(taker_of(end), f"got/{end}")) == text for end, text in texts.items()},
            held(ends, "alpha"), held(ends, "beta")), ({"alpha": True, "beta": True}, {}, {}))


@scene()
def lines_that_garble_and_break(one):
    """Each so-manieth packet is lost, doubled or garbled, and the line is cut: what comes is right."""
    for seed in range(1, 7):
        text = filler(f"seed{seed}", 12_000)
        ends = ends_with(one, file=text)
        for number in range(1, 16):
            called = ends.answer(one.line, "--timeout", "1")
            ends.call(Cable(one, most=4000, every=17, seed=100 * seed + number).line, "--timeout", "1")
            called.end()
            if not text_of(ends.at("alpha", "jobs")):
                break
        one.row(f"seed {seed}", (text_of(ends.at("alpha", "jobs")), text_of(ends.at("beta", "got/file")) == text, held(ends, "beta")), ("", True, {}))


@scene()
def a_file_that_is_changed_meanwhile(one):
    """Another file under the same name is sent from its first byte on, and nothing of the two is mixed."""
    first, second = filler("first", 9000), filler("other", 9000)
    ends = ends_with(one, same=first)
    cut(one, ends, 5000)
    ends.give("alpha", same=second)
    ends.talk()
    one.row("the other one comes", text_of(ends.at("beta", "got/same")) == second, True)
    one.row("what was held of the first stays", list(held(ends, "beta")), [digest(first)])


@scene()
def what_is_held_is_spoilt(one):
    """The digest of the whole decides: a wrong front is thrown away, and the file comes whole, one session later."""
    text = filler("held", 9000)
    for what in ("a byte", "its end", "its line", "all of it", "a longer one"):
        ends = ends_with(one, held=text)
        cut(one, ends, 5000)
        path = ends.at("beta", f"partial/{digest(text)}")
        line, _, front = read(path).partition(b"\n")
        spoilt = {"a byte": line + b"\n" + b"#" + front[1:], "its end": line + b"\n" + front[:100], "its line": b"x" + line[:-9] + b"\n" + front,
                  "all of it": b"", "a longer one": line + b"\n" + front + bytes(20_000)}[what]
        write(path, spoilt)
        caller, called = ends.talk()
        once = what == "a byte"
        one.row(f"the first session behind that: {what}", (caller.status, called.status, caller.out), (0, 0, report("caller", pending=int(once), struck=int(not once))))
        if once:
            one.row(f"what is held then: {what}", held(ends, "beta"), {})
            ends.talk()
        one.row(f"it has come: {what}", (text_of(ends.at("beta", "got/held")) == text, text_of(ends.at("alpha", "jobs")), os.path.exists(ends.at("alpha", "failed"))),
                (True, "", False))


@scene()
def something_else_where_it_is_held(one):
    """A pipe, a folder, a link: it is not read, and does not keep the end waiting."""
    text = filler("held", 9000)
    for what in ("pipe", "folder", "link"):
        ends = ends_with(one, held=text)
        path = ends.at("beta", f"partial/{digest(text)}")
        os.makedirs(ends.at("beta", "partial"), exist_ok=True)
        write(one.path("mine"), "mine\n")
        {"pipe": os.mkfifo, "folder": os.mkdir, "link": lambda path: os.symlink(one.path("mine"), path)}[what](path)
        write(ends.at("beta", "partial/notes"), "mine\n")
        caller, called = ends.talk()
        one.row(f"a {what}", (caller.status, called.all(), text_of(ends.at("beta", "got/held")) == text, text_of(one.path("mine")),
                text_of(ends.at("beta", "partial/notes"))), (0, (0, report("called"), ""), True, "mine\n", "mine\n"))
        {"pipe": os.remove, "folder": os.rmdir, "link": os.remove}[what](path)
        os.remove(ends.at("beta", "got/held"))


@scene("root")
def what_is_held_may_not_be_read(one):
    """A front that belongs to another, or that its mode keeps from its end, is not read, and the file comes from its first byte on."""
    text = filler("unread", 9000)
    for what, owner, mode in (("of another", 0, 0o600), ("of no mode", 65534, 0o000)):
        ends = ends_with(one, unread=text)
        cut(one, ends, 5000)
        os.chmod(one.work, 0o777)
        for folder in ("", "got", "send", "partial"):
            os.chmod(ends.at("beta", folder), 0o777)
        for name in ("", "jobs", f"partial/{digest(text)}"):
            if os.path.exists(ends.at("beta", name)):
                os.chown(ends.at("beta", name), 65534, 65534)
        path = ends.at("beta", f"partial/{digest(text)}")
        os.chown(path, owner, owner)
        os.chmod(path, mode)
        called = ends.answer(one.line, *QUICK, front=NOBODY)
        cable = Cable(one)
        caller, called = ends.call(cable.line, *QUICK), called.end()
        cable.mover.join()
        one.row(f"a front {what}", (caller.all(), called.all(), text_of(ends.at("beta", "got/unread")) == text, held(ends, "beta")),
                ((0, report("caller", struck=1), ""), (0, report("called"), ""), True, {}))
        one.holds(f"the whole file passed behind a front {what}", cable.passed > 9000, cable.passed)
        shutil.rmtree(ends.at("beta"))


@scene("root")
def a_full_disk_on_which_nothing_can_be_held(one):
    """The end says so, and leaves nothing there; the file comes all the same, and once there is room it is held again."""
    text = filler("no room", 60_000)
    ends = ends_with(one, room=text)
    os.mkdir(ends.at("beta", "partial"))
    one.mount(ends.at("beta", "partial").rstrip("/"), "16k")
    fill_disk(ends.at("beta", "partial/filler"))
    caller, called, _ = cut(one, ends, 50_000)
    one.row("a session that is cut", (caller.status, called.status, [line for line in called.err.splitlines() if "partial" in line]),
            (1, 1, ["uucpair: beta/partial: no space left"]))
    one.row("what is there", names_in(ends.at("beta", "partial")), ["filler"])
    caller, called = ends.talk()
    one.row("a session that is not", (caller.all(), called.all(), text_of(ends.at("beta", "got/room")) == text),
            ((0, report("caller", struck=1), ""), (0, report("called"), ""), True))
    os.remove(ends.at("beta", "partial/filler"))
    ends.give("alpha", small=filler("small", 9000))
    ends.jobs("alpha", "send small small u")
    cut(one, ends, 5000)
    one.row("once there is room", [line.split()[0] for line, _ in held(ends, "beta").values()], ["small"])


@scene()
def a_link_in_place_of_the_folder(one):
    """It is not followed: what is there belongs to others."""
    text = filler("link", 9000)
    ends = ends_with(one, link=text)
    other = one.path(f"others/{digest(text)}")
    write(other, "mine\n")
    write(one.path("others/.part.1.0"), "mine\n")
    os.symlink(one.path("others"), ends.at("beta", "partial"))
    caller, called, _ = cut(one, ends, 5000)
    one.row("it is said", (caller.status, called.status, "uucpair: beta/partial: not a directory\n" in called.err), (1, 1, True))
    caller, called = ends.talk()
    one.row("the file comes", (caller.status, called.status, text_of(ends.at("beta", "got/link")) == text), (0, 0, True))
    one.row("what others have there stays", {name: text_of(one.path(f"others/{name}")) for name in names_in(one.path("others"))},
            {digest(text): "mine\n", ".part.1.0": "mine\n"})


@scene()
def ends_that_do_not_resume(one):
    """With --no-resume, or without digests, nothing is held, and a file begins anew."""
    text = filler("anew", 9000)
    for options in (["--no-resume"], ["--no-digest"]):
        for who in ("call", "answer"):
            ends = ends_with(one, anew=text)
            how = {who: options}
            cut(one, ends, 5000, **how)
            is_held = who == "call" and options == ["--no-resume"]
            one.row(f"{who} {options[0]}", len(held(ends, "beta")), int(is_held))
            ends.talk(**how)
            one.row(f"it comes, {who} {options[0]}", text_of(ends.at("beta", "got/anew")) == text, True)
            os.remove(ends.at("beta", "got/anew"))


@scene("root")
def a_disk_on_which_nothing_can_be_held(one):
    """The end says so; nothing is lost, and the file comes once there is a line that holds it."""
    text = filler("full", 9000)
    ends = ends_with(one, full=text)
    os.chmod(one.work, 0o777)
    for folder in ("", "got", "send"):
        os.chmod(ends.at("beta", folder), 0o777)
    write(ends.at("beta", "partial"), "a file\n")
    caller, called, _ = cut(one, ends, 5000)
    one.row("something else is there", (caller.status, called.status, "beta/partial: " in called.err), (1, 1, True))
    os.remove(ends.at("beta", "partial"))
    os.mkdir(ends.at("beta", "partial"), 0o555)
    called = ends.answer(one.line, *QUICK, front=NOBODY)
    caller = ends.call(Cable(one, most=5000).line, *QUICK)
    called = called.end()
    one.row("it may not be written", (caller.status, called.status, "uucpair: beta/partial: permission denied\n" in called.err),
            (1, 1, True))
    one.row("nothing is left there", names_in(ends.at("beta", "partial")), [])
    caller, called = ends.talk()
    one.row("it comes all the same", (caller.status, called.status, text_of(ends.at("beta", "got/full")) == text), (0, 0, True))


@scene()
def old_files_that_are_held(one):
    """What has not grown for 30 days goes, or for as many as are told, and what a killed run left in the middle of writing."""
    text = filler("old", 9000)
    ends = ends_with(one, old=text)
    cut(one, ends, 5000)
    path = ends.at("beta", f"partial/{digest(text)}")
    day = 86_400
    write(ends.at("beta", "partial/.part.1.0"), "left\n")
    write(ends.at("beta", "partial/mine"), "mine\n")
    held = read(path)
    for days, words, is_there in ((29, [], True), (31, [], False), (31, ["--keep-partials", "32"], True), (3, ["--keep-partials", "2"], False)):
        write(path, held)
        now = os.stat(path).st_ctime
        os.utime(path, (now - days * day, now - days * day))
        os.utime(ends.at("beta", "partial/mine"), (now - days * day, now - days * day))
        ends.jobs("alpha")
        ends.talk(answer=words)
        one.row(f"behind {days} days {words}", names_in(ends.at("beta", "partial")), [digest(text), "mine"] if is_there else ["mine"])


def kill_at(one, ends, giver, who, most):
    """Runs a session in which the giver or the taker is killed behind so many bytes. Returns how many passed."""
    running = {"beta": ends.answer(one.line, *QUICK)}
    victim = giver if who == "giver" else taker_of(giver)
    cable = Cable(one, most=most, then=lambda: running[victim].process.kill())
    running["alpha"] = one.start(ends.words("call", cable.line, *QUICK))
    for end in ("alpha", "beta"):
        running[end].end()
    cable.mover.join()
    return cable.passed


@scene("minutes")
def ends_that_are_killed(one):
    """What comes is written down as it comes: behind a kill the next session goes on there, but for a little."""
    text = filler("killed", 600_000)
    for giver in ("alpha", "beta"):
        for who in ("giver", "taker"):
            ends = ends_with(one, giver, killed=text)
            passed = sessions = 0
            while text_of(ends.at(giver, "jobs")) and sessions < 12:
                passed, sessions = passed + kill_at(one, ends, giver, who, 300_000), sessions + 1
            one.holds(f"{giver} gives, the {who} is killed: its bytes pass 1.2 times at most", passed <= 720_000, (passed, sessions))
            one.row(f"{giver} gives, the {who} is killed: it comes", (text_of(ends.at(taker_of(giver), "got/killed")) == text,
                    held(ends, taker_of(giver)), text_of(ends.at(giver, "jobs"))), (True, {}, ""))
            os.remove(ends.at(taker_of(giver), "got/killed"))


@scene()
def a_file_that_is_cut_off_over_a_spool(one):
    """What has come is held in the spool of its taker, for that system; it comes whole, and each byte once."""
    for giver, taker in (("alpha", "beta"), ("beta", "alpha")):
        nodes = Nodes(one)
        text = filler(giver, 40_000)
        nodes.known("beta", "alpha")
        nodes.queue(giver, "C.n0001", "S ~/src ~/came u -C D.0001 0644", _0001=text)
        passed = sessions = 0
        while names_in(nodes.at(giver, f"spool/{taker}/C.")) and sessions < 12:
            called = nodes.answer("beta")
            cable = Cable(one, most=15_000)
            nodes.call("alpha", line=cable.line, own=False)
            called.end()
            passed, sessions = passed + cable.passed, sessions + 1
            if sessions == 1:
                one.row(f"what is held of {giver}", names_in(nodes.at(taker, f"spool/.Partial/{giver}")), [digest(text)])
        for node, verb, name in ((giver, "Sending", "~/src"), (taker, "Receiving", "~/came")):
            goes_on = [line for line in file_lines(nodes.at(node, "Log")) if "resume at" in line]
            one.holds(f"the log of {node} says where it goes on", goes_on and all(line.startswith(f"{verb} {name} ({len(text)} bytes resume at ") for line in goes_on), goes_on)
        one.holds(f"each byte of {giver} passes once", passed <= 1.3 * len(text), (passed, sessions))
        one.row(f"it comes, from {giver}", (text_of(nodes.at(taker, "pub/came")) == text, names_in(nodes.at(taker, f"spool/.Partial/{giver}"))), (True, []))
        for node in nodes.names:
            shutil.rmtree(nodes.at(node))
