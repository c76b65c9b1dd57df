"""`scan`, `play`, `pair`, and each exit status."""
import os
import re

from disks import NOBODY
from suite import filler, names_in, report, said, scene, text_of, write

ROOT = os.path.dirname(os.path.dirname(os.path.dirname(os.path.abspath(__file__))))
EXAMPLES = os.path.join(ROOT, "examples")


def status_of(text):
    """By the report: 5 where an end was fooled, else 1 unless both were done in the last session."""
    if "verdict fooled " in text:
        return 5
    return 0 if [line.endswith(" done") for line in text.splitlines() if " sent " in line][-2:] == [True, True] else 1


@scene()
def scripts_and_streams(one):
    """Each example, as a file and as standard input."""
    for name in names_in(EXAMPLES):
        path, (stem, ending) = f"{EXAMPLES}/{name}", name.split(".")
        if ending == "script":
            expected = text_of(f"{EXAMPLES}/{stem}.report")
            one.row(f"play {name}", one.run(["play", path]).all(), (status_of(expected), expected, ""))
            ladder = f"{EXAMPLES}/{stem}.ladder"
            if os.path.exists(ladder):
                with open(path, "rb") as script:
                    one.row(f"play --ladder {name}", one.run(["play", "--ladder"], stdin=script).all(),
                            (status_of(expected), expected + text_of(ladder), ""))
        if ending == "bytes":
            listing = text_of(f"{EXAMPLES}/{stem}.listing")
            plain = "".join(re.sub(r"^BAD .*", "BAD", re.sub(r" AT \d+ LENGTH \d+$", "", line)) + "\n"
                            for line in listing.splitlines() if not line.startswith(("TEXT", "NOISE", "CONTROL")))
            one.row(f"scan -v {name}", one.run(["scan", "-v", path]).all(), (0, listing, ""))
            one.row(f"scan {name}", one.run(["scan", path]).all(), (0, plain, ""))
            with open(path, "rb") as stream:
                one.row(f"scan <{name}", one.run(["scan"], stdin=stream).all(), (0, plain, ""))
    listing = text_of(os.path.join(ROOT, "crates/uucpair/stdout"))
    one.row("scan of the stream of the gate", one.run(["scan", os.path.join(ROOT, "crates/uucpair/stdin")]).all(),
            (0, listing, ""))


@scene()
def a_long_stream(one):
    """Many packets: each is listed, in its order, to the last."""
    packet = bytes([16, 9, 0x6F, 0xAA, 0x3B, 9 ^ 0x6F ^ 0xAA ^ 0x3B])
    write(one.path("stream"), packet * 30_000 + packet[:3])
    one.row("30,000 packets", one.run(["scan", "stream"]).all(), (0, "INITA 3\n" * 30_000 + "REST 3\n", ""))


@scene()
def input_that_cant_be_read(one):
    for verb in ("scan", "play"):
        one.row(f"{verb} of no file", one.run([verb, "none"]).all(), (3, "", said("device fault")))
        one.row(f"{verb} of no file, and why", one.run([verb, "-v", "none"]).all(),
                (3, "", said("device fault", "can't read none", "none: no such file or directory")))
        one.row(f"{verb} of a folder, and why", one.run([verb, "-v", "."]).all(),
                (3, "", said("device fault", "can't read .", ".: is a directory")))
    write(one.path("script"), "caller a 2 32\ncalled b 8 32\n")
    one.row("a bad script", one.run(["play", "script"]).all(), (2, "", said("bad script at line 2")))
    one.row("what is wrong", one.run(["play", "-v", "script"]).all(),
            (2, "", said("bad script at line 2", "window 8 is not 1 to 7")))
    with open("/dev/full", "wb") as full:
        ended = one.start(["scan", f"{EXAMPLES}/noise.bytes"], stdout=full).end()
    one.row("output that is full", (ended.status, ended.err.splitlines()[:1]), (3, ["uucpair: device fault"]))


@scene()
def pairs(one):
    """The example of README: every seventh packet is lost."""
    write(one.path("a/send/x"), "hello\n")
    os.makedirs(one.path("b/got"))
    write(one.path("a/jobs"), "send x y me\n")
    one.row("README's", one.run(["pair", "line", "a", "b", "--drop-every", "7"]).all(),
            (0, report("caller", struck=1) + report("called"), ""))
    one.row("its file", (text_of(one.path("b/got/y")), text_of(one.path("a/jobs"))), ("hello\n", ""))
    one.row("the socket is gone", os.path.lexists(one.path("line")), False)
    for option in ("--drop-every", "--flip-every"):
        write(one.path("a/jobs"), "send x z me\n")
        one.row(f"{option} 2", one.run(["pair", "line", "a", "b", option, "2"]).all(),
                (1, report("caller", "gaveup", pending=1) + report("called", "gaveup"), ""))
    for folder in ("a/got", "b/send"):
        os.makedirs(one.path(folder), exist_ok=True)
    for end in "ab":
        write(one.path(f"{end}/send/of{end}"), filler(end, 3000))
    write(one.path("a/jobs"), "# mine\nsend ofa one me\nrequest ofb two me\nsend none three me\n")
    write(one.path("b/jobs"), "send ofb four me\nsend ofb .five me\n")
    write(one.path("a/got/.part.1.1"), "left")
    ended = one.run(["pair", "line", "a", "b", "--drop-every", "9", "--flip-every", "13"])
    one.row("both ways", ended.all(), (0, "caller done pending 0 struck 2 failed 1\ncalled done pending 0 struck 1 failed 1\n"
                                          "caller failed send none three me\ncalled failed send ofb .five me\n", ""))
    found = {name: text_of(one.path(name)) for name in ("a/got/two", "a/got/four", "b/got/one", "a/jobs", "b/jobs")}
    one.row("what is there", found, {"a/got/two": filler("b", 3000), "a/got/four": filler("b", 3000), "b/got/one": filler("a",
            3000), "a/jobs": "", "b/jobs": ""})
    one.row("nothing else", (names_in(one.path("a/got")), names_in(one.path("b/got"))), (["four", "two"], ["one", "y"]))


@scene()
def pairs_that_fail(one):
    for end in "ab":
        os.makedirs(one.path(f"{end}/got"))
        write(one.path(f"{end}/send/x"), "x\n")
    write(one.path("a/jobs"), "send x y me\n")
    os.rmdir(one.path("b/got"))
    one.row("it can't keep", one.run(["pair", "line", "a", "b"]).all(),
            (1, report("caller", "peerclosed", pending=1) + report("called", "spoolfault"), ""))
    one.row("the job stays", text_of(one.path("a/jobs")), "send x y me\n")
    os.mkdir(one.path("b/got"))
    one.row("each second packet is lost", one.run(["pair", "line", "a", "b", "--drop-every", "2"]).all(),
            (1, report("caller", "gaveup", pending=1) + report("called", "gaveup"), ""))
    write(one.path("line"), "mine\n")
    one.row("it fails, and says no more", one.run(["pair", "line", "a", "b"]).all(), (3, "", said("device fault")))
    one.row("its socket has no place", one.run(["pair", "-v", "line", "a", "b"]).all(),
            (3, "", said("device fault", "line: address in use")))
    one.row("no folder", one.run(["pair", "-v", "s", "a", "none"]).all(),
            (3, "", said("device fault", "none: no such file or directory")))
    write(one.path("b/jobs"), "send x\n")
    one.row("bad jobs of DIR_B", one.run(["pair", "-v", "s", "a", "b"]).all(),
            (2, "", said("bad jobs at line 1", "b/jobs: line 1: TARGET and USER are missing")))
    os.remove(one.path("b/jobs"))
    write(one.path("a/send/p"), "")
    os.remove(one.path("a/send/p"))
    os.rename(one.path("a/jobs"), one.path("jobs"))
    os.mkdir(one.path("a/jobs"))
    one.row("a folder as jobs of DIR_A", one.run(["pair", "-v", "s", "a", "b"]).all(),
            (3, "", said("device fault", "a/jobs: not a regular file")))
    os.rmdir(one.path("a/jobs"))
    os.rename(one.path("jobs"), one.path("a/jobs"))
    with open("/dev/full", "wb") as full:
        ended = one.start(["pair", "s", "a", "b"], stdout=full).end()
    one.row("a report that can't be printed", (ended.status, ended.err.splitlines()[:1]), (3, ["uucpair: device fault"]))
    one.row("all else is done", (text_of(one.path("a/jobs")), text_of(one.path("b/got/y"))), ("", "x\n"))
    one.row("bad usage", one.run(["pair", "s", "a", "b", "--drop-every", "1"]).all(),
            (2, "", said("bad usage", "drop-every 1 is not 2 to 1000000")))


@scene("root")
def a_pair_whose_jobs_cant_be_written(one):
    """It says of which end it is, the report is printed, and all else is done."""
    for at, other, struck in (("a", "b", (1, 0)), ("b", "a", (0, 1))):
        for end in "ab":
            for folder in ("got", "send"):
                os.makedirs(one.path(f"{end}/{folder}"), exist_ok=True)
            os.chmod(one.path(f"{end}/got"), 0o777)
        os.chmod(one.work, 0o777)
        os.chmod(one.path(at), 0o755)
        os.chmod(one.path(other), 0o777)
        write(one.path(f"{at}/send/x"), "x\n")
        write(one.path(f"{at}/jobs"), "send x y me\n")
        ended = one.run(["pair", "-v", "line", "a", "b"], front=NOBODY)
        printed = report("caller", struck=struck[0]) + report("called", struck=struck[1])
        one.row(f"the folder {at} can't be written", ended.all(),
                (3, printed, said("device fault", f"{at}/jobs: permission denied")))
        one.row(f"what came, and the jobs, {at}", (text_of(one.path(f"{other}/got/y")), text_of(one.path(f"{at}/jobs"))),
                ("x\n", "send x y me\n"))
        os.remove(one.path(f"{at}/jobs"))


@scene()
def memory_that_is_refused(one):
    """Status 4. A program that was built with checks has no room to begin then, and is left out."""
    with open(one.program, "rb") as file:
        if b"AddressSanitizer" in file.read():
            return
    limited = ("sh", "-c", 'ulimit -v 16384 && exec "$@"', "sh")
    write(one.path("large"), b"\n" * 67_108_864)
    one.row("a script that memory does not hold", one.run(["play", "large"], front=limited).all(), (4, "", said("out of memory")))


@scene()
def words_of_the_command_line(one):
    one.row("the version", one.run(["--version"]).all(), (0, "uucpair 0.1.0\n", ""))
    for what, words, told in (
        ("a window of 8", ("--window", "8"), "window 8 is not 1 to 7"),
        ("a size of 65", ("--size", "65"), "size 65 is not 32, 64, 128, 256, 512, 1024, 2048 or 4096"),
        ("no time", ("--timeout", "0"), "timeout 0 is not 1 to 600"),
        ("no speed", ("--speed", "299"), "speed 299 is not 300 to 10000000"),
        ("too little", ("--most", "1048575"), "most 1048575 is not 1048576 or more"),
    ):
        os.makedirs(one.path("a/got"), exist_ok=True)
        one.row(what, one.run(["call", "unix:s", "a", "--me", "a", "--peer", "b", *words]).all(),
                (2, "", said("bad usage", told)))
    for what, words, told in (
        ("no session", ("--sessions", "0"), "sessions 0 is not 1 to 1000000"),
        ("no wait", ("--wait", "0"), "wait 0 is not 1 to 1000000000"),
    ):
        one.row(what, one.run(["answer", "unix:s", "a", "--me", "a", "--peer", "b", *words]).all(),
                (2, "", said("bad usage", told)))
    for words in ((), ("copy",), ("pair", "s", "a"), ("call", "unix:s", "a"), ("scan", "a", "b")):
        ended = one.run(list(words))
        one.row(f"words that ask for nothing: {' '.join(words)}", (ended.status, ended.out, ended.err.startswith("error: ")),
                (2, "", True))
    ended = one.run(["--help"])
    one.row("help", (ended.status, ended.out, ended.err.startswith("Tools for the")), (2, "", True))
