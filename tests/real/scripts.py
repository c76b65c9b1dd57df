"""Parts of the scripts of `tests/` and `interop/`, which stand for themselves: each line that says what is not so is a row."""
import os
import re
import subprocess

from suite import part

ROOT = os.path.dirname(os.path.dirname(os.path.dirname(os.path.abspath(__file__))))
TAYLOR = ("root", "uucico", "uux", "socat")
SITE = (*TAYLOR, "uuchk", "python3-serial", "python3-pexpect")


def script(one, path, **settings):
    """Runs a script with the program of this run. Its folders are in that of the scene, and go with it."""
    printed = one.path("printed")
    with open(printed, "wb") as to:
        how = {"stdin": subprocess.DEVNULL, "stdout": to, "stderr": subprocess.STDOUT, "cwd": ROOT}
        environment = {**os.environ, "TMPDIR": one.work, **settings}
        running = one.begin([os.path.join(ROOT, path), one.program], printed, os.devnull, env=environment, **how)
    running.patience = 5
    ended = running.end(400)
    faults = [line for line in ended.out.splitlines() if re.search(r"not so: |WRONG|: (found|ended with|status|expected)", line)]
    for line in ended.out.splitlines()[:-1] if ended.status == 0 else []:
        if not line.startswith(" "):
            one.row(f"{path}: {line}", True, True)
    one.holds(f"{path} {settings or ''} ends with status 0", ended.status == 0, (ended.status, "; ".join(faults) or ended.out[-1500:]))


for name, needs, path, settings in (
    ("with_uucico_files_both_ways", TAYLOR, "interop/spool.sh", {"PARTS": "programs"}),
    ("with_uucico_a_hub", TAYLOR, "interop/spool.sh", {"PARTS": "hub asked"}),
    ("with_uucico_later_over_a_folder", (*TAYLOR, "strace"), "interop/later.sh", {}),
    ("with_uucico_later_over_a_spool", (*TAYLOR, "strace"), "interop/spool.sh", {"PARTS": "later"}),
    ("with_uucico_put_off", TAYLOR, "interop/spool.sh", {"PARTS": "unread full"}),
    ("with_uucico_killed", TAYLOR, "interop/spool.sh", {"PARTS": "we-call we-answer", "MAILS": "5", "KILLS": "3", "RATE": "12000"}),
    ("in_uucicos_place_a_hub", SITE, "interop/spool.sh", {"SITE": "1", "PARTS": "hub asked"}),
    ("in_uucicos_place_killed", SITE, "interop/spool.sh",
     {"SITE": "1", "PARTS": "we-call we-answer", "MAILS": "5", "KILLS": "3", "RATE": "12000"}),
    ("with_uucico_places", TAYLOR, "interop/spool_faults.sh", {"PARTS": "targets hubfault preserve"}),
    ("with_uucico_words", TAYLOR, "interop/spool_faults.sh", {"PARTS": "words"}),
    ("digests", (), "tests/digests.py", {}),
    ("unread", (), "tests/unread.py", {}),
):
    part(name, needs, script, path=path, **settings)
