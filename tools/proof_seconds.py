#!/usr/bin/env python3
"""How many seconds of the processor the proof of each function of a crate takes.

    tools/proof_seconds.py CRATE [MOST]

The libraries below CRATE are built: `rt check` in its folder sees to that. The crate is checked once more, from nothing, in one
process, and nothing of that is kept. Prints the seconds before the first function, which go for reading libraries and for what
is said of types, then the MOST dearest functions (10), and what all take together. Seconds of the processor tell more than those
of the clock where other work runs; even so compare two runs only on one host in the same hours. Ends with status 1 where the crate
is not proved.
"""
import importlib.machinery
import importlib.util
import os
import re
import shutil
import subprocess
import sys

sys.dont_write_bytecode = True
ROOT = os.path.dirname(os.path.dirname(os.path.realpath(__file__)))
TICKS = os.sysconf("SC_CLK_TCK")
# What the prover says once a function is proved, and in the end.
CHECKED = re.compile(r"checked (\S+), \d+ of \d+")
PROVED = re.compile(r"^logic=proved\b")


def kit():
    """The module with which `rt` begins the prover."""
    path = os.path.join(os.path.dirname(os.path.realpath(shutil.which("rt"))), "rtlib.py")
    for path in (path, "/opt/rattle/bin/rtlib.py"):
        if os.path.exists(path):
            loader = importlib.machinery.SourceFileLoader("rtlib", path)
            module = importlib.util.module_from_spec(importlib.util.spec_from_loader("rtlib", loader))
            sys.modules["rtlib"] = module
            loader.exec_module(module)
            return module
    sys.exit("proof_seconds.py: there is no rtlib.py beside rt")


def seconds_of(pid):
    """The seconds of the processor that a process has taken so far."""
    with open(f"/proc/{pid}/stat", encoding="ascii") as stat:
        fields = stat.read().rsplit(")", 1)[1].split()
    return (int(fields[11]) + int(fields[12])) / TICKS


def main(name, most):
    rtlib = kit()
    os.chdir(f"{ROOT}/crates/{name}")
    crate = rtlib.Crate(os.getcwd(), ROOT, {})
    words = [rtlib.RATTLE, "check", *crate.words(["--jobs", "1"], keeps=False), "--progress"]
    checked, last, proved = [], 0.0, False
    with subprocess.Popen(words, stdout=subprocess.PIPE, stderr=subprocess.STDOUT, text=True, errors="replace") as run:
        for line in run.stdout:
            proved = proved or PROVED.match(line) is not None
            found = CHECKED.search(line)
            if found:
                now = seconds_of(run.pid)
                checked.append((now - last, found[1]))
                last = now
    if not checked:
        sys.exit(f"proof_seconds.py: {name} was not checked")
    print(f"{checked[0][0]:8.1f}  up to the first function")
    for seconds, function in sorted(checked[1:], reverse=True)[:most]:
        print(f"{seconds:8.1f}  {function}")
    print(f"{last:8.1f}  {len(checked)} functions in all")
    sys.exit(0 if proved else 1)


if __name__ == "__main__":
    if len(sys.argv) not in (2, 3):
        sys.exit(__doc__)
    main(sys.argv[1], int(sys.argv[2]) if len(sys.argv) == 3 else 10)
