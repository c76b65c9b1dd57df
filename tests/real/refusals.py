"""Calls that the system refuses, once: nothing is lost, nothing comes twice that may not, and no job is given up for it."""
import os

from kills import NEVER, count_of, spool_sweep, swept, traced
from lines import load, taker
from suite import at_both_ends, filler, names_in, text_in, text_of

CALLS = "openat,read,write,statx,newfstatat,getdents64,rename,renameat,renameat2,link,linkat,unlink,unlinkat,fsync,ftruncate,mkdir,flock"


def refusal(one, when):
    return traced(one, "-e", f"trace={CALLS}", "-e", f"inject={CALLS}:error=EIO:when={when}")


def wrong_then(ends):
    """Returns what is lost or wrong. A job that asks for a file may be given up, and told: the other end could not read it."""
    faults = []
    for end, other in (("alpha", "beta"), ("beta", "alpha")):
        pending, told = text_of(ends.at(end, "jobs")).splitlines(), text_of(ends.at(end, "failed")).splitlines()
        for job in [f"send {end}{number} {end}{number} u" for number in range(3)] + [f"request {other}3 {other}3 u"]:
            who, name = taker(job)
            come = text_in(ends.at(who, f"got/{name}")) == filler(name, 700 * int(name[-1]))
            if not come and job not in pending and not (job.startswith("request") and job in told):
                faults.append(f"{job} is gone, and has not come")
            if job.startswith("send") and job in told:
                faults.append(f"{job} was given up")
        for name in names_in(ends.at(end, "got")):
            if not name.startswith(".part.") and text_of(ends.at(end, f"got/{name}")) != filler(name, 700 * int(name[-1])):
                faults.append(f"{name} is not whole at {end}")
    return faults


def trial(one, victim, when):
    for end in ("alpha", "beta"):
        for name in names_in(one.path(f"{end}/got")):
            os.remove(one.path(f"{end}/got/{name}"))
    ends = load(one)
    how = {victim: {"front": refusal(one, when)}}
    called = ends.answer(one.line, "--timeout", "10", **how.get("beta", {}))
    caller = ends.call(one.line, "--timeout", "10", **how.get("alpha", {}))
    first = called.end() if caller.out or called.process.poll() is not None else called.stop()
    faults = wrong_then(ends)
    for _ in range(3):
        if not (text_of(ends.at("alpha", "jobs")) or text_of(ends.at("beta", "jobs"))):
            break
        caller, called = ends.talk(call=["--timeout", "10"], answer=["--timeout", "10"])
    else:
        faults.append(f"jobs wait still: {first.all()}, {caller.all()}, {called.all()}")
    for end in ("alpha", "beta"):
        if os.path.exists(ends.at(end, "failed")):
            os.remove(ends.at(end, "failed"))
    return faults + wrong_then(ends)


@at_both_ends("strace")
def refused_to(one, end):
    trial(one, end, NEVER)
    swept(one, f"refusals at {end}", count_of(one), 50, lambda when: trial(one, end, when), 3, 5)


@at_both_ends("strace")
def refused_over_a_spool_to(one, end):
    # the first are those of the command that makes it nobody's
    spool_sweep(one, "refusals at", end, refusal, 50, 4, 7)
