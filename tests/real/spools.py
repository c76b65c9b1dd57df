"""Sessions over spools, of which C. files and data are laid down as Taylor UUCP's `uucp` and `uux` lay them: mail, files both ways,
what is given up, put off, refused and told, who is let in, and who has the lock. Where root runs it, the ends run as nobody."""
import os
import re
import stat

from suite import fill_disk, filler, files_below, listens_at, masked, names_in, report, said, scene, text_of, too_large, wait_until, write

NOBODY = 65534
AS_NOBODY = ("setpriv", f"--reuid={NOBODY}", f"--regid={NOBODY}", "--clear-groups") if os.geteuid() == 0 else ()


class Nodes:
    """The spools of `alpha`, which calls, and of `beta`."""

    def __init__(self, one, names=("alpha", "beta")):
        self.one, self.names = one, names
        for node in names:
            for folder in ("spool", "pub", "lock", "src"):
                os.makedirs(self.at(node, folder))

    def at(self, node, name=""):
        return os.path.join(self.one.work, node, name)

    def queue(self, node, name, *lines, system=None, **data):
        """A C. file of this node for the other one, and its data."""
        here = self.at(node, f"spool/{system or self.other(node)}")
        write(f"{here}/C./{name}", "".join(f"{line}\n" for line in lines))
        for word, contents in data.items():
            write(f"{here}/D./D.{word[1:]}", contents)

    def mail(self, node, number, text, system=None, options="-CNZ", notify="0"):
        """A command and its data."""
        line = f"E D.{number} D.{node}N{number} u {options} D.{number} 0666 {notify} 0 rmail user@there"
        self.queue(node, f"C.N{number}", line, system=system, **{f"_{number}": text})

    def known(self, node, system):
        os.makedirs(self.at(node, f"spool/{system}/C."), exist_ok=True)

    def other(self, node):
        return self.names[1] if node == self.names[0] else self.names[0]

    def own(self):
        if AS_NOBODY:
            for at, folders, names in os.walk(self.one.work):
                for name in [at, *(os.path.join(at, name) for name in folders + names)]:
                    if not name.endswith(".root"):
                        os.chown(name, NOBODY, NOBODY, follow_symlinks=False)

    def words(self, verb, node, line, peer, *more):
        here = self.at(node)
        peers = ["--peer", peer] if peer else []
        return [verb, line, f"{here}spool", "--spool", "--me", node, *peers, "--public", f"{here}pub", "--locks", f"{here}lock",
                "--log", f"{here}Log", "--stats", f"{here}Stats", "--timeout", "10", *more]

    def answer(self, node, *more, peer=None, line=None, own=True, front=()):
        if own:
            self.own()
        line = line or self.one.line
        running = self.one.start(self.words("answer", node, line, peer, *more), front=(*front, *AS_NOBODY))
        wait_until(lambda: running.process.poll() is not None or listens_at(line[5:]))
        return running

    def call(self, node, *more, peer=None, line=None, own=True):
        if own:
            self.own()
        return self.one.run(self.words("call", node, line or self.one.line, peer or self.other(node), *more), front=AS_NOBODY)

    def talk(self, call=(), answer=()):
        caller, called = self.names
        running = self.answer(called, *answer, peer=caller)
        return self.call(caller, *call, own=False), running.end()

    def there(self, node):
        """Returns what is in a spool, but for the status of the other system."""
        return {name: contents.decode() for name, contents in files_below(self.at(node,
                "spool")).items() if not name.startswith(".Status")}

    def pub(self, node):
        return {name: contents.decode() for name, contents in files_below(self.at(node, "pub")).items()}

    def status(self, node, system=None):
        """The status of the other system, without its time."""
        text = text_of(self.at(node, f"spool/.Status/{system or self.other(node)}"))
        return re.sub(r"^(\d+ \d+) \d+ ", r"\1 TIME ", text)

    def log(self, node):
        return [line.replace(self.one.work, "WORK") for line in masked(self.at(node, "Log"))]

    def stats(self, node):
        return [re.sub(r"\(20\d\d-\d\d-\d\d \d\d:\d\d:\d\d\.\d\d\)", "(TIME)",
                line) for line in text_of(self.at(node, "Stats")).splitlines()]


def mode_of(path):
    return oct(stat.S_IMODE(os.stat(path).st_mode))


X_TEXT = "U u {node}\nF D.{node}N0003\nI D.{node}N0003\nN\nZ\nC rmail user@there\n"


def fill(nodes):
    """A file without a copy, one with a copy, a mail, and a file that is asked for; of both."""
    for node in nodes.names:
        other, src, pub = nodes.other(node), nodes.at(node, "src"), nodes.at(node, "pub")
        write(f"{src}/plain", f"plain {node}\n")
        write(f"{pub}/open-{node}", filler(f"open {node}", 3000))
        os.chmod(f"{pub}/open-{node}", 0o644)
        nodes.queue(node, "C.A1", f"S {src}/plain ~/plain u -c D.0 0644 ")
        # a copy goes as it was when it was queued
        write(f"{src}/copied", "changed since\n")
        nodes.queue(node, "C.A2", f"S {src}/copied /copied v -C D.0002 0644 ", _0002=filler(f"copied {node}", 5000))
        nodes.mail(node, "0003", f"mail of {node}\n")
        nodes.queue(node, "C.Z4", f"R ~/open-{other} {pub}/asked w -d")


def come(nodes, node):
    """Returns what has come to a node of `fill`."""
    other = nodes.other(node)
    spool = {f"{other}/D./D.{other}N0003": f"mail of {other}\n", f"{other}/X./X.{other}N0003": X_TEXT.format(node=other)}
    pub = {"plain": f"plain {other}\n", "copied": filler(f"copied {other}", 5000), "asked": filler(f"open {other}", 3000),
           f"open-{node}": filler(f"open {node}", 3000)}
    return spool, pub


def mail_log(line, node, other, caller):
    """Returns what the log of `fill` has at a node."""
    size = len(X_TEXT.format(node=node))
    begins = f"uucico {other} - (TIME) Calling system {other} (port {line})" if caller else \
        f"uucico {other} - (TIME) Incoming call (login {other} port {line})"
    sent = [f"u (TIME) Sending WORK/{node}/src/plain ({len(node) + 7} bytes)",
            f"v (TIME) Sending WORK/{node}/src/copied (5000 bytes)",
            f"u (TIME) Sending D.0003 ({len(node) + 9} bytes)", f"u (TIME) Sending D.X0003 ({size} bytes)"]
    came = [f"uucp (TIME) Receiving plain ({len(other) + 7} bytes)", "uucp (TIME) Receiving copied (5000 bytes)",
            f"uucp (TIME) Receiving D.{other}N0003 ({len(other) + 9} bytes)",
            f"uucp (TIME) Receiving X.{other}N0003 ({len(X_TEXT.format(node=other))} bytes)",
            "uucp (TIME) Receiving asked (3000 bytes)"]
    return begins, [f"uucico {other} {line}" for line in sent], [f"uucico {other} {line}" for line in came]


def judge_mail(one, nodes, caller, called):
    one.row("call", caller.all(), (0, report("caller", struck=5), ""))
    one.row("answer", called.all(), (0, report("called", struck=5), ""))
    for node in nodes.names:
        other = nodes.other(node)
        spool, pub = come(nodes, node)
        one.row(f"{node}'s spool", nodes.there(node), spool)
        one.row(f"{node}'s public folder", nodes.pub(node), pub)
        one.row(f"{node}'s status", nodes.status(node), f"0 0 TIME 0 Conversation complete {other}\n")
        front = nodes.at(node, f"spool/{other}")
        one.row(f"the modes at {node}", {name: mode_of(path) for name, path in (
            ("data", f"{front}/D./D.{other}N0003"), ("execution", f"{front}/X./X.{other}N0003"),
            ("public", nodes.at(node, "pub/plain")))},
            {"data": "0o600", "execution": "0o600", "public": "0o644"})
        begins, sent, came = mail_log(one.line, node, other, node == nodes.names[0])
        log = nodes.log(node)
        one.row(f"{node}'s log begins", log[:1], [begins])
        one.row(f"{node}'s log of what went", [line for line in log if "Sending" in line], sent)
        one.row(f"{node}'s log of what came", sorted(line for line in log if "Receiving" in line), sorted(came))
        one.row(f"{node}'s log has no fault", [line for line in log if "ERROR" in line], [])
        bytes_of = [sum(int(line.split("(")[-1].split()[0]) for line in lines) for lines in (sent, came)]
        one.row(f"{node}'s log ends", log[-1:], [f"uucico {other} - (TIME) Call complete ({sum(bytes_of)} bytes)"])
        sizes = [int(line.split("(")[-1].split()[0]) for line in sent]
        one.row(f"{node}'s statistics of what went", [line for line in nodes.stats(node) if " sent " in line],
                [f"{user} {other} (TIME) sent {size} bytes in 0.000 seconds (0 bytes/sec) on port {one.line}" for user,
                size in zip("uvuu", sizes)])
        one.row(f"{node}'s statistics of what came",
                len([line for line in nodes.stats(node) if f"uucp {other} (TIME) received " in line]), 5)
        one.row(f"{node}'s locks", names_in(nodes.at(node, "lock")), [])


@scene()
def mail_both_ways(one):
    nodes = Nodes(one)
    fill(nodes)
    judge_mail(one, nodes, *nodes.talk())


@scene()
def mail_both_ways_to_a_hub(one):
    nodes = Nodes(one)
    fill(nodes)
    called = nodes.answer("beta")
    judge_mail(one, nodes, nodes.call("alpha", own=False), called.end())


@scene()
def lines_of_one_file(one):
    """A C. file goes with its last line; a copy that two lines have goes with the second; a line that can't be offered stays."""
    nodes = Nodes(one)
    src = nodes.at("alpha", "src")
    for name in "abc":
        write(f"{src}/{name}", f"{name}\n")
    nodes.queue("alpha", "C.N1", f"S {src}/a ~/a u -c D.0 0644 ", f"X {src}/* beta!~/ u -d", f"S {src}/b ~/b u -C D.0007 0644 ",
                f"S {src}/b ~/b2 u -C D.0007 0644 ", f"S {src}/c ~/c u -c D.0 0644 ", _0007="seven\n")
    nodes.queue("alpha", "C.N2", "")
    caller, called = nodes.talk()
    one.row("call", caller.all(), (0, report("caller", struck=4), ""))
    # a line is over once its copy is gone, so those two may stand there
    one.row("alpha's spool", nodes.there("alpha"), {
        "beta/C./C.N1": f"X {src}/* beta!~/ u -d\nS {src}/b ~/b u -C D.0007 0644 \nS {src}/b ~/b2 u -C D.0007 0644 \n"})
    one.row("beta's public folder", nodes.pub("beta"), {"a": "a\n", "b": "seven\n", "b2": "seven\n", "c": "c\n"})
    one.row("alpha's log names what stays", [line for line in nodes.log("alpha") if "ERROR" in line],
            ["uucico beta - (TIME) ERROR: C.N1: a line that can't be sent stays"])


def plain_files(nodes, count, size):
    """Lays down so many files of alpha, and returns the lines that send them without a copy."""
    src = nodes.at("alpha", "src")
    for number in range(count):
        write(f"{src}/p{number}", filler(f"p{number}", size))
    return [f"S {src}/p{number} ~/p{number} u -c D.0 0644 " for number in range(count)]


@scene()
def a_file_of_which_some_lines_are_over(one):
    """The session breaks; what is over of a C. file is not done again, and not given up: all else is."""
    from lines import Cable

    nodes = Nodes(one)
    src, lines = nodes.at("alpha", "src"), plain_files(nodes, 6, 2000)
    nodes.queue("alpha", "C.N1", *lines, f"S {src}/c ~/c u -C D.0007 0644 ", _0007="copied\n")
    nodes.queue("alpha", "C.A1", f"S {src}/d ~/d u -C D.0008 0644 ", f"X {src}/* beta!~/ u -d", _0008="copied first\n")
    called = nodes.answer("beta", peer="alpha")
    caller = nodes.call("alpha", line=Cable(one, before=(b"CY\0", 5)).line, own=False)
    called.end()
    one.row("four are over", caller.out, report("caller", "hungup", pending=4, struck=4))
    text = text_of(nodes.at("alpha", "spool/beta/C./C.N1"))
    one.row("the lines that are left", text.split("\n"), [*lines[3:], f"S {src}/c ~/c u -C D.0007 0644 ", ""])
    caller, called = nodes.talk()
    one.row("the next session", caller.all(), (0, report("caller", struck=4), ""))
    caller, called = nodes.talk()
    one.row("and one more, with nothing to do", caller.all(), (0, report("caller"), ""))
    pub = {f"p{number}": filler(f"p{number}", 2000) for number in range(6)}
    one.row("what has come", nodes.pub("beta"), {**pub, "c": "copied\n", "d": "copied first\n"})
    one.row("nothing is told", [name for name in nodes.there("alpha") if ".Preserve" in name], [])


@scene()
def parts_that_were_left(one):
    """A part of a file that a stop has left bars nothing; a mail that has the next name is not written over."""
    nodes = Nodes(one)
    nodes.known("beta", "alpha")
    nodes.mail("alpha", "0003", "mail\n")
    nodes.queue("alpha", "C.Z1", f"S {nodes.at('alpha', 'src')}/gone ~/gone u -c D.0 0644 ")
    for name in ("D.alphaN0003", "X.alphaN0003"):
        write(nodes.at("beta", f"spool/.Temp/alpha/{name}"), "a part")
    write(nodes.at("alpha", "spool/beta/D./D.alphaM0001"), "a mail before\n")
    write(nodes.at("alpha", "spool/beta/X./X.alphaM0002"), "one whose data is gone\n")
    caller, called = nodes.talk()
    one.row("call", (caller.status, caller.out.splitlines()[0]), (0, "caller done pending 0 struck 2 failed 1"))
    one.row("the mail", text_of(nodes.at("beta", "spool/alpha/D./D.alphaN0003")), "mail\n")
    there = nodes.there("alpha")
    one.row("the mails before", (there.get("beta/D./D.alphaM0001"), there.get("beta/X./X.alphaM0002")),
            ("a mail before\n", "one whose data is gone\n"))
    one.row("the new one", sorted(name for name in there if "alphaM" in name),
            ["beta/D./D.alphaM0001", "beta/D./D.alphaM0003", "beta/X./X.alphaM0002", "beta/X./X.alphaM0003"])


@scene()
def a_copy_that_two_lines_have(one):
    """It stays until both are over: the line breaks between the two."""
    from lines import Cable

    nodes = Nodes(one)
    src = nodes.at("alpha", "src")
    write(f"{src}/long", filler("long", 9000))
    nodes.queue("alpha", "C.N1", f"S {src}/b ~/b u -C D.0007 0644 ", f"S {src}/long ~/long u -c D.0 0644 ",
            f"S {src}/b ~/b2 u -C D.0007 0644 ", _0007="seven\n")
    called = nodes.answer("beta", peer="alpha")
    caller = nodes.call("alpha", line=Cable(one, most=5000).line, own=False)
    called.end()
    one.row("the first is over", (caller.status, nodes.pub("beta")), (1, {"b": "seven\n"}))
    one.row("the copy waits", text_of(nodes.at("alpha", "spool/beta/D./D.0007")), "seven\n")
    caller, called = nodes.talk()
    # the first goes once more, since a line is over when its copy is gone
    one.row("the rest goes", (caller.all(), nodes.pub("beta"), nodes.there("alpha")),
            ((0, report("caller", struck=3), ""), {"b": "seven\n", "b2": "seven\n", "long": filler("long", 9000)}, {}))


def deliver(nodes, mails):
    """Delivers each mail that is there with its execution file, as a program that runs commands does."""
    for node in nodes.names:
        front = nodes.at(node, f"spool/{nodes.other(node)}")
        for name in names_in(f"{front}/X."):
            data = f"{front}/D./D{name[1:]}"
            if os.path.exists(data):
                mails.append(text_of(data))
                os.remove(data)
                os.remove(f"{front}/X./{name}")


@scene()
def mail_over_lines_that_break(one):
    """Each mail comes once, whatever of a session is cut off; what has come is run between the sessions."""
    from lines import Cable

    nodes = Nodes(one)
    faults = {}
    cuts = [*({"before": (b"CY\0", number)} for number in range(1, 5)), *({"most": most} for most in range(500, 2600, 300))]
    for number, cut in enumerate(cuts):
        name = f"{number:04}"
        for node in nodes.names:
            nodes.mail(node, name, f"mail {name} of {node}\n")
        mails = []
        called = nodes.answer("beta", peer="alpha")
        nodes.call("alpha", line=Cable(one, **cut).line, own=False)
        called.end()
        deliver(nodes, mails)
        caller, called = nodes.talk()
        deliver(nodes, mails)
        expected = [f"mail {name} of {node}\n" for node in nodes.names]
        if sorted(mails) != expected or (caller.status, called.status) != (0, 0):
            faults[str(cut)] = (sorted(mails), caller.all(), called.all())
    one.row("each came once", faults, {})
    one.row("nothing is left",
            {node: [name for name in nodes.there(node) if not name.startswith(".Received")] for node in nodes.names},
            {"alpha": [], "beta": []})


@scene()
def digests_over_a_spool(one):
    """A file that is not the one that was told of is not kept."""
    from digests import Peer, sends, telling
    from lines import let_in

    nodes = Nodes(one)
    nodes.known("beta", "alpha")
    called = nodes.answer("beta", peer="alpha")
    with let_in(one) as line:
        peer = Peer(line)
        peer.start()
        one.row("what is answered", (sends(peer, telling(b"hullo\n"), b"hello\n"), sends(peer, telling(b"hello\n"), b"hello\n")),
                ("CN4", "CY"))
        peer.say(b"H")
        one.row("it has no job", peer.hear(), "HY")
        peer.say(b"HY")
        peer.close()
    one.row("who is called", (called.end().all(), nodes.pub("beta")), ((0, report("called"), ""), {"y": "hello\n"}))


@scene()
def long_files_over_a_spool(one):
    """Each kind of file comes whole: a file without a copy, a copy, a mail, and a public file that is asked for."""
    nodes = Nodes(one)
    nodes.known("beta", "alpha")
    long = {name: filler(name, 70_000) for name in ("plain", "copied", "mail", "asked")}
    write(nodes.at("alpha", "src/plain"), long["plain"])
    write(nodes.at("beta", "pub/asked"), long["asked"])
    os.chmod(nodes.at("beta", "pub/asked"), 0o644)
    nodes.queue("alpha", "C.A1", f"S {nodes.at('alpha', 'src')}/plain ~/plain u -c D.0 0644 ", "R ~/asked ~/asked u -d",
            "S /copied ~/copied u -C D.0002 0644 ", _0002=long["copied"])
    nodes.mail("alpha", "0003", long["mail"])
    caller, called = nodes.talk()
    one.row("both are well", (caller.all(), called.all()), ((0, report("caller", struck=5), ""), (0, report("called"), "")))
    come = {**nodes.pub("beta"), **nodes.pub("alpha"), "mail": text_of(nodes.at("beta", "spool/alpha/D./D.alphaN0003"))}
    one.row("what has come", come, long)


@scene()
def a_file_that_is_cut_short_over_a_spool(one):
    """A file of which the system takes only a part is not kept: its job waits, and the next session brings it."""
    from disks import LIMITED

    nodes = Nodes(one)
    nodes.mail("alpha", "0003", filler("mail", 9000))
    nodes.known("beta", "alpha")
    called = nodes.answer("beta", peer="alpha", front=LIMITED)
    caller, called = nodes.call("alpha", own=False), called.end()
    one.row("who calls", (caller.status, caller.out), (1, report("caller", "peerclosed", pending=2)))
    one.row("who is called", (called.status, called.out), (1, report("called", "spoolfault")))
    one.row("what is incomplete", names_in(nodes.at("beta", "spool/.Temp/alpha")), [])
    caller, called = nodes.talk()
    one.row("the next session", (caller.all(), called.all(), text_of(nodes.at("beta", "spool/alpha/D./D.alphaN0003"))),
            ((0, report("caller", struck=2), ""), (0, report("called"), ""), filler("mail", 9000)))


@scene("minutes")
def more_over_a_spool_than_a_session_offers(one):
    """--most: what waits behind the first jobs whose files have so many bytes is told, in the log too."""
    nodes = Nodes(one)
    for number in ("0003", "0004"):
        nodes.mail("alpha", number, filler(number, 600_000))
    nodes.known("beta", "alpha")
    words = "more jobs wait for the next session"
    caller, called = nodes.talk(call=["--most", "1048576"])
    one.row("the first session", (caller.all(), called.all()), ((0, report("caller", struck=2), said(words)), (0, report("called"), "")))
    one.row("its log", sum(f"ERROR: {words}" in line for line in nodes.log("alpha")), 1)
    one.row("what waits", [name for name in nodes.there("alpha") if "/C./" in name], ["beta/C./C.N0004"])
    caller, called = nodes.talk(call=["--most", "1048576"])
    one.row("the next one", (caller.all(), nodes.there("alpha")), ((0, report("caller", struck=2), ""), {}))


@scene("root")
def spools_on_a_full_disk(one):
    """Nothing is said to be stored that is not, or is cut; and nothing is given up for it."""
    one.mount(one.path("beta"), "200k")
    nodes = Nodes(one)
    # the lock has room
    os.mkdir(one.path("locks"))
    os.rmdir(nodes.at("beta", "lock"))
    os.symlink(one.path("locks"), nodes.at("beta", "lock"))
    nodes.mail("alpha", "0003", filler("mail", 9000))
    nodes.queue("alpha", "C.Z1", f"S {nodes.at('alpha', 'src')}/f ~/f u -C D.0001 0644 ", _0001=filler("f", 9000))
    nodes.known("beta", "alpha")
    fill_disk(nodes.at("beta", "filler"))
    called = nodes.answer("beta", peer="alpha")
    caller, called = nodes.call("alpha", own=False), called.end()
    one.row("who calls", (caller.status, caller.out), (1, report("caller", "peerclosed", pending=3)))
    one.row("who is called", (called.status, called.out), (1, report("called", "spoolfault")))
    one.row("what waits", sorted(nodes.there("alpha")), ["beta/C./C.N0003", "beta/C./C.Z1", "beta/D./D.0001", "beta/D./D.0003"])
    os.remove(nodes.at("beta", "filler"))
    caller, called = nodes.talk()
    one.row("when there is room", (caller.all(), called.all(), nodes.there("alpha")),
            ((0, report("caller", struck=3), ""), (0, report("called"), ""), {}))
    one.row("what has come", (text_of(nodes.at("beta", "spool/alpha/D./D.alphaN0003")), nodes.pub("beta")),
            (filler("mail", 9000), {"f": filler("f", 9000)}))


@scene("root")
def a_public_folder_on_a_full_disk(one):
    """A file for which the public folder's disk has no room costs a session, and holds up nothing behind it."""
    nodes = Nodes(one)
    one.mount(nodes.at("beta", "pub"), "100k")
    long = filler("long", 300_000)
    nodes.queue("alpha", "C.A1", "S D.0001 ~/long u -C D.0001 0644 ", _0001=long)
    nodes.mail("alpha", "0003", "mail\n")
    caller, called = nodes.talk()
    one.row("the first session", (caller.status, called.status, called.out), (1, 1, report("called", "spoolfault")))
    caller, called = nodes.talk()
    one.row("the next one", (caller.status, caller.out, called.status, called.out),
            (0, report("caller", struck=2, failed=["send D.0001 ~/long u"]), 0, report("called")))
    one.row("it is set aside, and said", (text_of(nodes.at("beta", "spool/.Preserve/alpha.long")) == long, any("no space left" in line for line in nodes.log("beta"))),
            (True, True))
    one.row("nothing of it is in the public folder", nodes.pub("beta"), {})
    one.row("the mail has come", text_of(nodes.at("beta", "spool/alpha/D./D.alphaN0003")), "mail\n")
    one.row("nothing waits", sorted(name for name in nodes.there("alpha") if name.startswith("beta/C.")), [])


@scene()
def jobs_that_are_given_up(one):
    """A job that is refused is preserved, told and mailed of, and nothing of it is overwritten."""
    nodes = Nodes(one)
    src = nodes.at("alpha", "src")
    write(nodes.at("alpha", "spool/.Preserve/beta.D.0005"), "of an earlier job\n")
    nodes.queue("alpha", "C.N1", f"S {src}/x /etc/x u -C D.0005 0644 ", _0005="refused\n")
    nodes.queue("alpha", "C.N2", f"S {src}/gone ~/gone u -c D.0 0644 ")
    nodes.queue("alpha", "C.N3", "R ~/none ~/none v -d")
    nodes.queue("alpha", "C.N4", f"S {src}/y ~/y u -c D.0 0644 ")
    write(f"{src}/y", "y\n")
    os.makedirs(nodes.at("beta", "pub"), exist_ok=True)
    caller, called = nodes.talk()
    failed = [f"send {src}/x /etc/x u", f"send {src}/gone ~/gone u", "request ~/none ~/none v"]
    one.row("call", caller.all(), (0, report("caller", struck=1, failed=failed), ""))
    one.row("answer", called.all(), (0, report("called"), ""))
    there = nodes.there("alpha")
    one.row("what is preserved", {name: text for name, text in there.items() if name.startswith(".Preserve/beta")},
            {".Preserve/beta.D.0005": "of an earlier job\n", ".Preserve/beta.D.0005.1": "refused\n"})
    told = ["# refused by the other end", failed[0], "# no such file to send, or it is too large", failed[1],
            "# not given by the other end, or can't be put in its place here", failed[2]]
    one.row("what is told", there.get(".Preserve/failed", "").splitlines(), told)
    one.row("no C. file is left", [name for name in there if "/C./" in name], [])
    mails = {name: text for name, text in there.items() if "/D./" in name}
    one.row("three mails", sorted(mails), [f"beta/D./D.alphaM000{number}" for number in (1, 2, 3)])
    bodies = [text.split("\n", 1)[1] for _, text in sorted(mails.items())]
    front = "To: {user}\nSubject: UUCP failed\n\nMessage from UUCP on alpha\n\nThis job for beta was given up:\n"
    saved = f"\nFile saved as\n{nodes.at('alpha', 'spool/.Preserve/beta.D.0005.1')}\n"
    one.row("what they say", bodies, [
        f"{front.format(user='u')}{told[0]}\n{told[1]}\n{saved}", f"{front.format(user='u')}{told[2]}\n{told[3]}\n",
        f"{front.format(user='v')}{told[4]}\n{told[5]}\n"])
    one.row("who has them", [text for name, text in sorted(there.items()) if "/X./" in name],
            [f"U uucp alpha\nF D.alphaM000{number}\nI D.alphaM000{number}\nN\nC rmail {user}\n" for number,
            user in ((1, "u"), (2, "u"), (3, "v"))])
    one.row("the log", [line for line in nodes.log("alpha") if "ERROR" in line],
            ["uucico beta u (TIME) ERROR: WORK/alpha/src/x: given up",
            "uucico beta u (TIME) ERROR: WORK/alpha/src/gone: given up",
             "uucico beta v (TIME) ERROR: ~/none: given up"])
    one.row("the other one went", nodes.pub("beta"), {"y": "y\n"})


@scene("root")
def data_that_cant_be_read(one):
    """It is put off, and said; the others go, and it does in the next session."""
    nodes = Nodes(one)
    nodes.mail("alpha", "0001", "one\n")
    nodes.mail("alpha", "0002", "two\n")
    nodes.own()
    data = nodes.at("alpha", "spool/beta/D./D.0001")
    os.chown(data, 0, 0)
    os.chmod(data, 0o600)
    called = nodes.answer("beta", peer="alpha", own=False)
    caller = nodes.call("alpha", "-v", own=False)
    called.end()
    one.row("call", (caller.status, caller.out), (1, report("caller", struck=2)))
    one.holds("it is said", said("D.0001 is put off: permission denied") in caller.err, caller.err)
    one.row("the log", [line for line in nodes.log("alpha") if "ERROR" in line],
            ["uucico beta - (TIME) ERROR: D.0001 is put off: permission denied"])
    one.row("what waits", sorted(nodes.there("alpha")), ["beta/C./C.N0001", "beta/D./D.0001"])
    one.row("the other came", text_of(nodes.at("beta", "spool/alpha/D./D.alphaN0002")), "two\n")
    caller, called = nodes.talk()
    one.row("the next session", (caller.all(), nodes.there("alpha"), text_of(nodes.at("beta", "spool/alpha/D./D.alphaN0001"))),
            ((0, report("caller", struck=2), ""), {}, "one\n"))


@scene()
def files_that_are_asked_for(one):
    """Of the public folder, what everybody may read: no private file, no link out of it, no hidden place."""
    nodes = Nodes(one)
    nodes.known("beta", "alpha")
    pub = nodes.at("beta", "pub")
    write(f"{pub}/open", filler("open", 2000))
    write(f"{pub}/shut", "shut\n")
    write(nodes.at("beta", "outside"), "outside\n")
    os.symlink("../outside", f"{pub}/link")
    os.mkfifo(f"{pub}/pipe")
    write(f"{pub}/D.0001", "named as data\n")
    os.chmod(f"{pub}/open", 0o644)
    os.chmod(f"{pub}/shut", 0o660)
    asked = ["~/shut", "~/link", "~/pipe", "~/../outside", nodes.at("beta", "outside"), "/etc/hostname", "D.0001", "~/none"]
    lines = [f"R {name} ~/got{number} u -d" for number, name in enumerate(asked)]
    nodes.queue("alpha", "C.N1", "R ~/open ~/open1 u -d", *lines, "R /open ~/open2 u -d")
    caller, called = nodes.talk()
    failed = [f"request {name} ~/got{number} u" for number, name in enumerate(asked)]
    one.row("call", caller.all(), (0, report("caller", struck=2, failed=failed), ""))
    one.row("what has come", nodes.pub("alpha"), {"open1": filler("open", 2000), "open2": filler("open", 2000)})


@scene()
def folders_that_are_open(one):
    """The last folder of a list that holds a file decides. Nothing is given that is hidden, through a link, or of a folder that not
    everybody may search, or below one."""
    paths = ["x", "in/x", "shut/x", "in/.x", "in/deep/x", "closed/x", ".hidden/x", "in/private", "closed/open/x"]
    places = ["", "in/", "shut/"]
    deep = paths.index("in/deep/x")
    for number, (folders, are_open) in enumerate(((None, ["", "in/", "shut/"]), ("~ !~/shut", ["", "in/"]), ("!~/shut ~", ["", "in/", "shut/"]),
            ("~/in", ["in/"]), ("  ~/in/   ~/shut ", ["in/", "shut/"]), ("~ !~", []), ("", []), ("none ~/i", []))):
        nodes = Nodes(one, (f"alpha{number}", f"beta{number}"))
        caller, called = nodes.names
        nodes.known(called, caller)
        pub, src = nodes.at(called, "pub"), nodes.at(caller, "src")
        for path in paths:
            write(f"{pub}/{path}", f"{path}\n")
            os.chmod(f"{pub}/{path}", 0o600 if path.endswith("private") else 0o644)
        os.chmod(f"{pub}/closed", 0o750)
        os.makedirs(nodes.at(called, "outside"))
        write(nodes.at(called, "outside/x"), "outside\n")
        os.chmod(nodes.at(called, "outside/x"), 0o644)
        os.symlink("../outside", f"{pub}/link")
        write(f"{src}/f", "f\n")
        asked = [*paths, "link/x", "in/none", "none/x"]
        nodes.queue(caller, "C.N1", *(f"R ~/{path} ~/got{at} u -d" for at, path in enumerate(asked)),
                    *(f"S {src}/f ~/{place}new u -c D.0 0644 " for place in places))
        said = [] if folders is None else ["--give", folders, "--take", folders]
        talked, _ = nodes.talk(answer=said)
        failed = [f"request ~/{path} ~/got{at} u" for at, path in enumerate(asked)
                  if (at > 2 or places[at] not in are_open) and not (at == deep and "in/" in are_open)]
        failed += [f"send {src}/f ~/{place}new u" for place in places if place not in are_open]
        one.row(f"{folders}: call", talked.all(), (0, report("caller", struck=2 * len(are_open) + ("in/" in are_open), failed=failed), ""))
        given = {f"got{at}": f"{place}x\n" for at, place in enumerate(places) if place in are_open}
        given |= {f"got{deep}": "in/deep/x\n"} if "in/" in are_open else {}
        one.row(f"{folders}: what was given", nodes.pub(caller), given)
        one.row(f"{folders}: what was taken", [place for place in places if f"{place}new" in nodes.pub(called)], are_open)


@scene("strace")
def a_folder_of_the_public_one_that_cant_be_listed_for_a_moment(one):
    """A file of such a folder is put off, and given in the next session."""
    from kills import traced
    nodes = Nodes(one)
    nodes.known("beta", "alpha")
    pub = nodes.at("beta", "pub")
    write(f"{pub}/in/late", "late\n")
    os.chmod(f"{pub}/in/late", 0o644)
    nodes.queue("alpha", "C.N0", "R ~/in/late ~/late u -d")
    called = nodes.answer("beta", peer="alpha", front=traced(one, "-P", f"{pub}/in/", "-e", "inject=openat:error=EMFILE:when=1"))
    caller, called = nodes.call("alpha", own=False), called.end()
    one.row("call", caller.all(), (0, report("caller", pending=1), ""))
    one.row("answer", (called.status, called.out), (0, report("called")))
    caller, called = nodes.talk()
    one.row("the next session", (caller.all(), called.all(), nodes.pub("alpha")),
            ((0, report("caller", struck=1), ""), (0, report("called"), ""), {"late": "late\n"}))


@scene("strace")
def a_public_file_that_cant_be_opened_for_a_moment(one):
    """The answer is that it may be given later, also where the folder can't be listed: the job waits, and the next session brings
    the file."""
    from kills import traced
    from lines import Cable

    nodes = Nodes(one)
    nodes.known("beta", "alpha")
    pub = nodes.at("beta", "pub")
    write(f"{pub}/late", "late\n")
    os.chmod(f"{pub}/late", 0o644)
    for number, (what, path) in enumerate((("the file", f"{pub}/late"), ("its folder", f"{pub}/"))):
        nodes.queue("alpha", f"C.N{number}", f"R ~/late ~/late{number} u -d")
        nodes.mail("alpha", f"000{number}", "a mail\n")
        called = nodes.answer("beta", peer="alpha", front=traced(one, "-P", path, "-e", "inject=openat:error=EMFILE:when=1"))
        cable = Cable(one)
        caller, called = nodes.call("alpha", line=cable.line, own=False), called.end()
        one.row(f"{what}: call", caller.all(), (0, report("caller", pending=1, struck=2), ""))
        one.row(f"{what}: answer", (called.status, called.out), (0, report("called")))
        one.row(f"{what}: what is said, and the job", (b"RN6\0" in cable.heard, sorted(nodes.there("alpha"))),
                (True, [f"beta/C./C.N{number}"]))
        caller, called = nodes.talk()
        one.row(f"{what}: the next session", (caller.all(), called.all(), nodes.pub("alpha").get(f"late{number}")),
                ((0, report("caller", struck=1), ""), (0, report("called"), ""), "late\n"))


@scene()
def what_an_end_offers_gives_and_takes(one):
    """--grade offers jobs of a grade and higher ones, or none; --give and --take name the folders that are open, but not for the end's
    own requests; --port-name names the line."""
    for number, (options, sent, given, taken) in enumerate(((["--grade", "A"], "A", True, True), (["--grade", "0"], "", True, True),
            (["--grade=-"], "", True, True), (["--grade", "z"], "ABNz", True, True), (["--give", "none"], "ABNz", False, True),
            (["--take", "none"], "ABNz", True, False), (["--give=!~", "--take", "~/in", "--grade", "B"], "AB", False, False))):
        for who in ("alpha", "beta"):
            nodes = Nodes(one, (f"alpha{number}{who}", f"beta{number}{who}"))
            ours = nodes.names[who == "beta"]
            other = nodes.other(ours)
            for grade in "zNBA":
                nodes.queue(ours, f"C.{grade}9", f"S D.{ord(grade):04} ~/{grade} u -C D.{ord(grade):04} 0644 ", **{f"_{ord(grade):04}": grade})
            nodes.queue(other, "C.A1", f"R ~/open {nodes.at(other, 'pub')}/asked w -d")
            nodes.queue(other, "C.A2", "S D.0002 ~/sent u -C D.0002 0644 ", _0002="sent\n")
            write(f"{nodes.at(ours, 'pub')}/open", "open\n")
            os.chmod(f"{nodes.at(ours, 'pub')}/open", 0o644)
            nodes.talk(**{"call" if who == "alpha" else "answer": [*options, "--port-name", "ttyS5"]})
            name = f"{' '.join(options)} at {who}"
            there = nodes.pub(other)
            one.row(f"{name}: what went", "".join(sorted(set(there) - {"asked", "open"})), "".join(sorted(sent)))
            one.row(f"{name}: the others wait", sorted(names_in(nodes.at(ours, f"spool/{other}/C."))),
                    [f"C.{grade}9" for grade in "ABNz" if grade not in sent])
            one.row(f"{name}: what was given and taken", ("asked" in there, "sent" in nodes.pub(ours)), (given, taken))
            one.row(f"{name}: the name of the line", ("(port ttyS5)" if who == "alpha" else " port ttyS5)") in nodes.log(ours)[0], True)


@scene()
def what_is_asked_for_without_taking(one):
    """An end that takes no files into its public folder has there what it asks for itself."""
    nodes = Nodes(one)
    nodes.known("beta", "alpha")
    nodes.queue("alpha", "C.A1", f"R ~/open {nodes.at('alpha', 'pub')}/asked w -d")
    write(f"{nodes.at('beta', 'pub')}/open", "open\n")
    os.chmod(f"{nodes.at('beta', 'pub')}/open", 0o644)
    nodes.talk(call=["--take", "none", "--give", "none"])
    one.row("what came", nodes.pub("alpha"), {"asked": "open\n"})


@scene()
def a_caller_without_a_folder(one):
    """A system that the spool does not know gets no file of the public folder, though it is the one that is expected."""
    nodes = Nodes(one)
    write(nodes.at("beta", "pub/open"), "open\n")
    os.chmod(nodes.at("beta", "pub/open"), 0o644)
    nodes.queue("alpha", "C.N1", "R ~/open ~/open u -d")
    caller, called = nodes.talk()
    one.row("it is not given", (caller.all(), nodes.pub("alpha")),
            ((0, report("caller", failed=["request ~/open ~/open u"]), ""), {}))


@scene()
def places_in_the_public_folder(one):
    """Targets that are folders, also new ones, and those that are refused: hidden, outside, of the spool's own data, through a link,
    through a file."""
    nodes = Nodes(one)
    src, pub = nodes.at("alpha", "src"), nodes.at("beta", "pub")
    write(f"{src}/f", "f\n")
    os.makedirs(f"{pub}/dir/deep")
    write(f"{pub}/plain", "plain\n")
    os.makedirs(nodes.at("beta", "elsewhere"))
    os.symlink("../elsewhere", f"{pub}/link")
    taken = {"~/": "f", "~/dir": "dir/f", "~/dir/": "dir/f", "~/dir/g": "dir/g", "/h": "h", "~/x": "x",
            "~/dir/deep": "dir/deep/f", "~/dir/deep/x": "dir/deep/x", "/dir/x": "dir/x", "~/no/x": "no/x", "~/new/more/": "new/more/f"}
    refused = ["~/.x", "~/dir/.x", "~/../x", "/etc/x", "/etc/", "D.0001", "~/link/x", "~/plain/x", "~/dir//x", "../x"]
    for number, target in enumerate([*taken, *refused]):
        nodes.queue("alpha", f"C.N{number:02}", f"S {src}/f {target} u -c D.0 0644 ")
    caller, called = nodes.talk()
    one.row("call", caller.all(), (0, report("caller", struck=len(taken),
            failed=[f"send {src}/f {target} u" for target in refused]), ""))
    one.row("what has come", nodes.pub("beta"), {name: "f\n" for name in taken.values()} | {"plain": "plain\n"})
    one.row("nothing is elsewhere", (names_in(nodes.at("beta", "elsewhere")), names_in(nodes.at("beta")), nodes.there("beta")),
            ([], ["Log", "Stats", "elsewhere", "lock", "pub", "spool", "src"], {}))


@scene("root")
def folders_elsewhere(one):
    """A list may name a folder outside the public folder, here on another disk: its files are given, and files are taken into it."""
    nodes = Nodes(one)
    src, disk = nodes.at("alpha", "src"), one.path("disk")
    one.mount(disk, "1m")
    ftp = f"{disk}/ftp"
    for path in ("ftp/x", "ftp/in/x", "ftp/sealed/x", "other/x", "ftp/shut/x"):
        write(f"{disk}/{path}", f"{path}\n")
        os.chmod(f"{disk}/{path}", 0o644)
    write(f"{src}/f", "f\n")
    os.symlink("../other", f"{ftp}/link")
    nodes.known("beta", "alpha")
    asked = {f"{ftp}/x": True, f"{ftp}/in/x": True, f"{ftp}/sealed/x": True, f"{ftp}/shut/x": False, f"{disk}/other/x": False,
             f"{ftp}/link/x": False, f"{ftp}/../other/x": False}
    taken = {f"{ftp}/a": "a", ftp: "f", f"{ftp}/in/": "in/f", f"{ftp}/in/b": "in/b", f"{ftp}/x": "x"}
    refused = [f"{ftp}/{name}" for name in ("new/x", ".x", "link/x", "../other/y", "sealed/y", "shut/y")] + [f"{disk}/other/y", f"{ftp}2/y"]
    for number, path in enumerate(asked):
        nodes.queue("alpha", f"C.A{number}", f"R {path} ~/got{number} u -d")
    for number, target in enumerate([*taken, *refused]):
        nodes.queue("alpha", f"C.N{number:02}", f"S {src}/f {target} u -c D.0 0644 ")
    nodes.own()
    os.chown(f"{ftp}/sealed", 0, 0)
    os.chmod(one.work, 0o755)
    folders = f"~ {ftp} !{ftp}/shut"
    called = nodes.answer("beta", "--give", folders, "--take", folders, peer="alpha", own=False)
    caller, called = nodes.call("alpha", own=False), called.end()
    failed = [f"request {path} ~/got{number} u" for number, (path, is_given) in enumerate(asked.items()) if not is_given]
    one.row("call", caller.all(), (0, report("caller", struck=len(taken) + sum(asked.values()),
            failed=[*failed, *(f"send {src}/f {target} u" for target in refused)]), ""))
    one.row("answer", called.all(), (0, report("called"), ""))
    one.row("what was given", nodes.pub("alpha"),
            {f"got{number}": f"{path[len(disk) + 1:]}\n" for number, (path, is_given) in enumerate(asked.items()) if is_given})
    there = {name: contents.decode() for name, contents in files_below(disk).items() if not name.startswith("ftp/link")}
    one.row("what was taken", there, {"ftp/in/x": "ftp/in/x\n", "ftp/sealed/x": "ftp/sealed/x\n", "other/x": "other/x\n",
            "ftp/shut/x": "ftp/shut/x\n"} | {f"ftp/{name}": "f\n" for name in taken.values()})
    one.row("nothing is left", (nodes.there("beta"), nodes.pub("beta")), ({}, {}))


@scene("root")
def anothers_files(one):
    """A file of another, in a folder where each may take only their own, is refused; what comes behind goes."""
    nodes = Nodes(one)
    src, pub = nodes.at("alpha", "src"), nodes.at("beta", "pub")
    write(f"{src}/f", "f\n")
    nodes.queue("alpha", "C.N1", f"S {src}/f ~/theirs u -C D.0001 0644 ", _0001="f\n")
    nodes.mail("alpha", "0002", "two\n")
    nodes.own()
    write(f"{pub}/theirs", "theirs\n")
    os.chown(pub, 0, 0)
    os.chmod(pub, 0o1777)
    called = nodes.answer("beta", peer="alpha", own=False)
    caller, called = nodes.call("alpha", own=False), called.end()
    one.row("call", caller.all(), (0, report("caller", struck=2, failed=[f"send {src}/f ~/theirs u"]), ""))
    one.row("answer", called.all(), (0, report("called"), ""))
    one.row("theirs is as it was", nodes.pub("beta"), {"theirs": "theirs\n"})
    one.row("the data is preserved", text_of(nodes.at("alpha", "spool/.Preserve/beta.D.0001")), "f\n")
    one.row("the mail came", text_of(nodes.at("beta", "spool/alpha/D./D.alphaN0002")), "two\n")


@scene()
def what_a_stop_has_left(one):
    """Files that stood whole beside their markers get their places, once; what has no place any more is set aside, and said."""
    import hashlib

    nodes = Nodes(one)
    beta = nodes.at("beta", "spool")
    nodes.known("beta", "alpha")
    digest = lambda text: hashlib.sha256(text.encode()).hexdigest()
    # data and its execution file, of which the sender has not heard, and so sends both again
    nodes.mail("alpha", "0003", "mail of alpha\n")
    write(f"{beta}/.Temp/alpha/D.alphaN0003", "mail of alpha\n")
    write(f"{beta}/.Received/alpha/D.alphaN0003", digest("mail of alpha\n"))
    # a file of the public folder that has no place now
    os.makedirs(nodes.at("beta", "pub/late"))
    write(f"{beta}/.Temp/alpha/late", "late\n")
    write(f"{beta}/.Received/alpha/late", "late")
    # a file of the public folder that has one
    write(f"{beta}/.Temp/alpha/well", "well\n")
    write(f"{beta}/.Received/alpha/well", "well")
    # data of a name that came before with other bytes
    nodes.mail("alpha", "0004", "another one\n")
    write(f"{beta}/.Received/alpha/D.alphaN0004", digest("one before\n"))
    # one that had come and was run, with its execution file: both are sent again, and dropped
    nodes.mail("alpha", "0005", "mail that was run\n")
    write(f"{beta}/.Received/alpha/D.alphaN0005", digest("mail that was run\n"))
    write(f"{beta}/.Received/alpha/X.alphaN0005", X_TEXT.format(node="alpha").replace("0003", "0005"))
    caller, called = nodes.talk()
    one.row("call", caller.all(), (0, report("caller", struck=6), ""))
    one.row("answer", called.all(), (0, report("called"), ""))
    there = nodes.there("beta")
    front = "alpha/D./D.alphaN000", "alpha/X./X.alphaN000"
    text = X_TEXT.format(node="alpha")
    one.row("what stands in its place", {name: contents for name, contents in there.items() if name.startswith("alpha")},
            {f"{front[0]}3": "mail of alpha\n", f"{front[1]}3": text, f"{front[0]}4": "another one\n",
            f"{front[1]}4": text.replace("0003", "0004")})
    one.row("the public folder", nodes.pub("beta"), {"well": "well\n"})
    one.row("what was set aside", {name: contents for name, contents in there.items() if name.startswith(".Preserve")},
            {".Preserve/alpha.late": "late\n"})
    one.row("it is said", [line for line in nodes.log("beta") if "ERROR" in line],
            ["uucico alpha - (TIME) ERROR: late is set aside: not a regular file"])
    one.row("nothing is beside its place", [name for name in there if name.startswith(".Temp")], [])


@scene("strace")
def a_file_that_cant_be_looked_at_for_a_moment(one):
    """A file that a stop has left stays, with its marker, where the system fails to look at it; the next session gives it its place."""
    from kills import traced

    nodes = Nodes(one)
    beta = nodes.at("beta", "spool")
    nodes.known("beta", "alpha")
    write(f"{beta}/.Temp/alpha/well", "well\n")
    write(f"{beta}/.Received/alpha/well", "well")
    looks = "statx,newfstatat,lstat"
    refused = ("-P", f"{beta}/.Temp/alpha/well", "-e", f"trace={looks}", "-e", f"inject={looks}:error=EIO")
    called = nodes.answer("beta", peer="alpha", front=traced(one, *refused))
    nodes.call("alpha", own=False)
    one.row("a fault", called.end().all(), (3, "", said("device fault", f"{beta}: error 5")))
    one.row("what is there", nodes.there("beta"), {".Temp/alpha/well": "well\n", ".Received/alpha/well": "well"})
    caller, called = nodes.talk()
    one.row("the next session", (caller.all(), called.all(), nodes.pub("beta")),
            ((0, report("caller"), ""), (0, report("called"), ""), {"well": "well\n"}))


@scene()
def links_in_place_of_folders(one):
    """A link in the place of a folder of the spool's own: there is no session, nothing is touched, and it is said."""
    nodes = Nodes(one)
    for folder in (".Received", ".Temp"):
        mine = nodes.at("beta", f"mine{folder}")
        write(f"{mine}/notes", "mine\n")
        os.makedirs(nodes.at("beta", f"spool/{folder}"), exist_ok=True)
        os.symlink(mine, nodes.at("beta", f"spool/{folder}/alpha"))
        nodes.queue("alpha", "C.N1", "R ~/open ~/open u -d")
        running = nodes.answer("beta", peer="alpha")
        nodes.call("alpha", own=False)
        wait_until(lambda: "not a directory" in running.said() or running.process.poll() is not None, 5)
        called = running.stop()
        one.row(f"a link as {folder}", (called.out, called.err),
                ("", said(f"{folder}/alpha is a link: remove it", "device fault", f"{nodes.at('beta', 'spool')}: not a directory")))
        one.row(f"what is behind a link as {folder}", files_below(mine), {"notes": b"mine\n"})
        os.remove(nodes.at("beta", f"spool/{folder}/alpha"))


@scene()
def locks_of_systems(one):
    """The lock of the living keeps a call off, and the caller hears RLCK; that of the dead is taken over; none is left."""
    nodes = Nodes(one)
    nodes.mail("alpha", "0003", "mail\n")
    lock = nodes.at("alpha", "lock/LCK..beta")
    status = nodes.at("alpha", "spool/.Status/beta")
    write(status, "5 2 1795659106 600 Call failed beta\n")
    for what, text in (("the living", f"{os.getpid():10d}\n"), ("who can't be read", "who\n")):
        write(lock, text)
        caller = nodes.call("alpha")
        one.row(f"the lock of {what}", caller.all(), (1, "", said(f"system beta is locked by {lock}")))
        one.row(f"the lock of {what} and the status stay", (text_of(lock), text_of(status)),
                (text, "5 2 1795659106 600 Call failed beta\n"))
    os.remove(lock)
    other = nodes.at("beta", "lock/LCK..alpha")
    write(other, f"{os.getpid():10d}\n")
    nodes.known("beta", "alpha")
    for what, peer in (("one that is expected", "alpha"), ("a hub", None)):
        called = nodes.answer("beta", peer=peer)
        caller = nodes.call("alpha", own=False)
        called = called.stop()
        one.row(f"the caller of {what}", caller.all(), (1, report("caller", "refused", pending=2),
                said('the other end refused: "RLCK" (it is busy: call later)')))
        one.row(f"{what}, whose caller is locked, says so, and waits for the next one", called.all(),
                ("waits", "", said(f"system alpha is locked by {other}")))
    one.row("its log", [line for line in nodes.log("beta") if "locked" in line],
            ["uucico alpha - (TIME) ERROR: System already locked"] * 2)
    one.row("alpha's status", re.sub(r" TIME \d+", " TIME N", nodes.status("alpha")), "4 4 TIME N Handshake failed beta\n")
    write(other, " 999999999\n")
    write(lock, " 999999999\n")
    caller, called = nodes.talk()
    one.row("locks of the dead", (caller.all(), called.all(), names_in(nodes.at("alpha", "lock")), names_in(nodes.at("beta",
            "lock"))),
            ((0, report("caller", struck=2), ""), (0, report("called"), ""), [], []))
    one.row("the status then", nodes.status("alpha"), "0 0 TIME 0 Conversation complete beta\n")
    for node, system in (("alpha", "beta"), ("beta", "alpha")):
        one.row(f"{node}'s log says that they broke off", [line for line in nodes.log(node) if "broken" in line],
                [f"uucico {system} - (TIME) ERROR: the last session was broken off"])


@scene()
def the_lock_is_held(one):
    """While an end calls, or talks, the file of the other system's lock has its process; no file can be made, and that is said."""
    from lines import Cable

    nodes = Nodes(one)
    nodes.mail("alpha", "0003", filler("mail", 60_000))
    nodes.known("beta", "alpha")
    called = nodes.answer("beta", peer=None)
    cable = Cable(one, rate=4000)
    nodes.own()
    caller = one.start(nodes.words("call", "alpha", cable.line, "beta"), front=AS_NOBODY)
    for node, system, running in (("alpha", "beta", caller), ("beta", "alpha", called)):
        lock = nodes.at(node, f"lock/LCK..{system}")
        wait_until(lambda: text_of(lock), 5)
        one.row(f"the lock at {node}", text_of(lock), f"{running.process.pid:10d}\n")
    second = nodes.call("alpha", own=False)
    one.row("a second call meanwhile", second.all(), (1, "",
            said(f"system beta is locked by {nodes.at('alpha', 'lock/LCK..beta')}")))
    cable.rate = 10_000_000
    one.row("the first is well", (caller.end().status, called.end().status), (0, 0))
    os.rmdir(nodes.at("alpha", "lock"))
    one.row("no folder of locks", nodes.call("alpha").all(), (3, "", said("device fault",
            f"no lock file can be created (--locks): {nodes.at('alpha', 'lock')}: no such file or directory")))


@scene()
def who_is_let_in(one):
    """A hub lets in whom the spool has a folder of; a stranger, and a name that leads elsewhere, hear that they are unknown."""
    nodes = Nodes(one, ("alpha", "beta"))
    nodes.known("beta", "alpha")
    os.makedirs(nodes.at("beta", "spool/.Temp"), exist_ok=True)
    os.makedirs(nodes.at("beta", "spool/..gamma"), exist_ok=True)
    write(nodes.at("beta", "spool/file"), "")
    nodes.mail("alpha", "0003", "mail\n")
    called = nodes.answer("beta", "--sessions", "2", "--wait", "20")
    for stranger in ("gamma", ".Temp", "..", "../beta", "file", "*", "?"):
        words = ["call", one.line, nodes.at("alpha", "spool"), "--spool", "--me", stranger, "--peer", "beta", "--locks",
                nodes.at("alpha", "lock"),
                 "--public", nodes.at("alpha", "pub"), "--timeout", "10"]
        caller = one.run(words, front=AS_NOBODY)
        one.row(f"a caller who says {stranger}", caller.all(), (1, report("caller", "refused", pending=2),
                said('the other end refused: "RYou are unknown to me" (it does not know the name of this end)')))
    first = nodes.call("alpha", own=False)
    one.row("alpha is let in", first.all(), (0, report("caller", struck=2), ""))
    second = nodes.call("alpha", own=False)
    called = called.end()
    one.row("and once more", (second.status, called.status, called.out), (0, 0, report("called") * 2))
    one.row("what has come", sorted(nodes.there("beta")), ["alpha/D./D.alphaN0003", "alpha/X./X.alphaN0003", "file"])


@scene()
def one_systems_fault(one):
    """A hub goes on after a session whose files have failed, says so at once, and ends with status 3."""
    nodes = Nodes(one)
    for system in ("alpha", "gamma"):
        nodes.known("beta", system)
    for folder in ("spool", "pub", "lock"):
        os.makedirs(nodes.at("gamma", folder))
    nodes.mail("alpha", "0003", "mail\n")
    nodes.mail("gamma", "0004", "mail of gamma\n", system="beta")
    write(nodes.at("beta", "spool/.Received/alpha"), "a file in the place of a folder\n")
    called = nodes.answer("beta", "--sessions", "2", "--wait", "20")
    bad = nodes.call("alpha", own=False)
    good = one.run(nodes.words("call", "gamma", one.line, "beta"), front=AS_NOBODY)
    called = called.end()
    one.row("the caller of the fault", (bad.status, bad.out), (1, report("caller", "hungup", pending=2)))
    one.row("the other caller", good.all(), (0, report("caller", struck=2), ""))
    why = f"{nodes.at('beta', 'spool')}: not a directory"
    one.row("the hub", called.all(), (3, report("called"), said(why, "device fault", why)))
    one.row("gamma's mail", text_of(nodes.at("beta", "spool/gamma/D./D.gammaN0004")), "mail of gamma\n")
    one.row("alpha's waits", sorted(nodes.there("alpha")), ["beta/C./C.N0003", "beta/D./D.0003"])


@scene()
def statuses_of_calls(one):
    """The file of .Status says why a call failed, and counts: nobody listens, another name, the line breaks."""
    nodes = Nodes(one)
    nodes.mail("alpha", "0003", "mail\n")
    caller = nodes.call("alpha")
    one.row("nobody listens", (caller.all(), nodes.status("alpha")),
            ((3, "", said("device fault", f"{one.line}: no such file or directory")), "2 1 TIME 600 Dial failed beta\n"))
    called = nodes.answer("beta", peer="gamma")
    caller = nodes.call("alpha", own=False)
    one.row("a stranger", (caller.status, nodes.status("alpha")), (1, "4 2 TIME 1200 Handshake failed beta\n"))
    one.row("at whom it called", (called.stop().status, nodes.status("beta", "gamma")), ("waits", ""))
    from lines import Cable

    called = nodes.answer("beta", peer="alpha")
    cable = Cable(one, most=300)
    caller = nodes.call("alpha", line=cable.line, own=False)
    called = called.end()
    one.row("a line that breaks", (caller.status, nodes.status("alpha"), called.status, nodes.status("beta", "alpha")),
            (1, "5 3 TIME 1800 Call failed beta\n", 1, ""))
    one.row("a spool that is not there", one.run(["call", one.line, "none", "--spool", "--me", "a", "--peer", "b"]).all(),
            (3, "", said("device fault", "none: no such file or directory")))


@scene()
def pipes_in_place_of_files(one):
    """A pipe that nobody reads, where something is to be written, holds nobody."""
    nodes = Nodes(one)
    for number, option in enumerate(("--log", "--stats", "--report")):
        os.mkfifo(one.path(f"pipe{number}"))
        words = [word for word in nodes.words("call", "alpha", one.line, "beta")]
        ended = one.run([*words, option, f"pipe{number}"] if option == "--report" else
                        [f"pipe{number}" if words[place - 1] == option else word for place, word in enumerate(words)], 15)
        one.row(f"a pipe as {option}", ended.all(),
                (3, "", said("device fault",
                f"pipe{number}: a named pipe may have no reader: name a file, /dev/stdout or /dev/stderr")))


@scene()
def jobs_that_a_person_kills(one):
    """`uustat -k` takes a C. file away while its session runs: it does not come back."""
    from lines import Cable

    nodes = Nodes(one)
    nodes.queue("alpha", "C.N1", *plain_files(nodes, 8, 3000))
    called = nodes.answer("beta", peer="alpha")
    cable = Cable(one, rate=6000)
    nodes.own()
    caller = one.start(nodes.words("call", "alpha", cable.line, "beta"), front=AS_NOBODY)
    wait_until(lambda: len(nodes.pub("beta")) > 1)
    os.remove(nodes.at("alpha", "spool/beta/C./C.N1"))
    before = len(nodes.pub("beta"))
    wait_until(lambda: len(nodes.pub("beta")) > before + 1)

    def lasting():
        """A part may be there of what is being written, in `.Temp`."""
        return {name: text for name, text in nodes.there("alpha").items() if not name.startswith(".Temp/")}

    one.row("it is gone while the session runs", lasting(), {})
    caller.kill()
    called.end()
    one.row("and stays so where that is stopped", lasting(), {})


@scene("strace")
def seen_on_the_device(one):
    """A file that comes is on the device, with its name, before anything is said of it; and a job goes after that."""
    from kills import order_of

    nodes = Nodes(one)
    nodes.mail("alpha", "0003", filler("mail", 3000))
    nodes.queue("alpha", "C.A1", f"S {nodes.at('alpha', 'src')}/f ~/f u -C D.0001 0644 ", _0001=filler("f", 3000))
    called = nodes.answer("beta", peer="alpha", front=("strace", "-f", "-y", "-qq", "-s", "300", "-o", one.path("trace")))
    caller, called = nodes.call("alpha", own=False), called.end()
    one.row("both are well", (caller.status, called.status), (0, 0))
    for name in ("pub/f", "spool/alpha/D./D.alphaN0003", "spool/alpha/X./X.alphaN0003"):
        one.row(f"{os.path.basename(name)} at beta", order_of(one.path("trace"), nodes.at("beta", name)),
                ["its bytes", "its name", "its folder", "what is said"])


@scene()
def commands_that_are_given_up(one):
    """One mail for a command and its data, to who asks for it; of each C. file its own."""
    nodes = Nodes(one)
    for number, asks in (("0007", "first@alpha"), ("0008", "second@alpha")):
        nodes.mail("alpha", number, "x" * 1_048_577, options="-CRZ", notify=asks)
    nodes.mail("alpha", "0009", "well\n")
    caller, called = nodes.talk(call=["--file-limit", "1048576"])
    one.row("call", (caller.status, caller.out.splitlines()[0]), (0, "caller done pending 0 struck 2 failed 4"))
    large = [too_large(f"{nodes.at('alpha', 'spool')}/beta/D./D.{number}", 1_048_577, 1_048_576) for number in ("0007", "0008")]
    one.row("what is told first", caller.err, said(*large))
    one.row("and first in the log", [line.partition("ERROR: ")[2] for line in nodes.log("alpha")[:2]],
            [line.replace(one.work, "WORK") for line in large])
    there = nodes.there("alpha")
    mails = [text for name, text in sorted(there.items()) if "/D./" in name]
    one.row("who has mail", [text.split("\n")[1] for text in mails], ["To: first@alpha", "To: second@alpha"])
    one.row("which is run for them", [text.splitlines()[-1] for name, text in sorted(there.items()) if "/X./" in name],
            ["C rmail first@alpha", "C rmail second@alpha"])
    one.row("what is preserved", {name: len(text) for name,
            text in there.items() if name.startswith(".Preserve/alpha") or name.startswith(".Preserve/beta")},
            {".Preserve/beta.D.0007": 1_048_577, ".Preserve/beta.D.0008": 1_048_577})
    one.row("the other one came", sorted(nodes.there("beta")), ["alpha/D./D.alphaN0009", "alpha/X./X.alphaN0009"])


@scene("root")
def jobs_that_cant_be_taken_away(one):
    """Where the copy of a job that is over can't be removed the session ends, and that is a device fault, which says where."""
    nodes = Nodes(one)
    nodes.mail("alpha", "0003", "mail\n")
    nodes.own()
    folder = nodes.at("alpha", "spool/beta/D.")
    os.chmod(folder, 0o555)
    called = nodes.answer("beta", peer="alpha", own=False)
    caller = nodes.call("alpha", own=False)
    # whom nobody has called waits on
    called.stop()
    one.row("call", (caller.status, caller.err), (3, said("device fault", f"{nodes.at('alpha', 'spool')}: permission denied")))
    one.row("the job stays", sorted(nodes.there("alpha")), ["beta/C./C.N0003", "beta/D./D.0003"])
    os.chmod(folder, 0o755)
    mails = []
    deliver(nodes, mails)
    caller, called = nodes.talk()
    deliver(nodes, mails)
    one.row("it comes once, when it is mended", (caller.status, mails, nodes.there("alpha")), (0, ["mail\n"], {}))


@scene("root")
def a_spool_that_cant_be_written(one):
    """A job that could not be taken off the disk is not sent: it would come again in each session."""
    nodes = Nodes(one)
    write(nodes.at("alpha", "src/x"), "x\n")
    nodes.queue("alpha", "C.A1", f"S {nodes.at('alpha', 'src/x')} ~/x u -c D.0 0644 ")
    nodes.queue("alpha", "C.A2", "S /y ~/y v -C D.0002 0644 ", _0002="y\n")
    nodes.known("beta", "alpha")
    os.makedirs(nodes.at("alpha", "spool/.Temp/beta"))
    nodes.own()
    spool = nodes.at("alpha", "spool")
    for what, folder in (("C. files", "beta/C."), ("data", "beta/D."), ("what is written anew", ".Temp/beta")):
        os.chown(f"{spool}/{folder}", 0, 0)
        called = nodes.answer("beta", "--wait", "4", peer="alpha", own=False)
        caller = nodes.call("alpha", own=False)
        called = called.end()
        one.row(f"a folder of {what}: who calls", caller.all(), (3, "", said("device fault", f"{spool}: permission denied")))
        one.row(f"a folder of {what}: nothing comes", (called.status, nodes.pub("beta")), (1, {}))
        os.chown(f"{spool}/{folder}", NOBODY, NOBODY)
        for name in names_in(nodes.at("beta", "pub")):
            os.remove(nodes.at("beta", f"pub/{name}"))
    caller, called = nodes.talk()
    one.row("it is mended", (caller.all(), called.all(), nodes.pub("beta")),
            ((0, report("caller", struck=2), ""), (0, report("called"), ""), {"x": "x\n", "y": "y\n"}))


@scene()
def names_that_lead_elsewhere(one):
    """A system's name is that of its folder in the spool: with a slash, or a dot in front, it is none, and nothing is made."""
    nodes = Nodes(one)
    there = names_in(one.work)
    for verb, more in (("call", ()), ("answer", ("--wait", "1"))):
        for name in (".", "..", ".Status", "../x", "x/y"):
            ended = one.run(nodes.words(verb, "alpha", one.line, name, *more))
            one.row(f"{verb} of {name}", ended.all(),
                    (2, "", said("bad usage", f'"{name}" is not a system name for a spool: no slash, no leading dot')))
    made = [name for name in names_in(one.work) if name not in there and not name.startswith((".out", ".err"))]
    one.row("nothing is made", (made, names_in(nodes.at("alpha")), names_in(nodes.at("alpha", "spool"))),
            ([], ["lock", "pub", "spool", "src"], []))
