"""Kills of either end, at each so-manieth call of the system and at each that changes a disk; and the order in which things go
to the device."""
import re

from lines import finish, load, wrong
from suite import at_both_ends, listens_at, report, scene, text_of, wait_until, write

CHANGES = "rename,renameat,renameat2,link,linkat,unlink,unlinkat,fsync,ftruncate"
# No session makes so many calls.
NEVER = 60_000


def traced(one, *more):
    """A command's front that notes these calls. The system stops the program at no others, where it can filter them."""
    return ("strace", "-f", "--seccomp-bpf", "-qq", "-o", one.path("trace"), *more)


def count_of(one):
    """Returns how many calls the last trace has."""
    return sum("(" in line for line in text_of(one.path("trace")).splitlines())


def swept(one, what, count, least, trial, first, step):
    """Runs a trial at each `step`th of so many calls, from the first on; what is wrong then is one row."""
    one.holds(f"enough calls for {what}", count > least, count)
    moments = range(first, count + 1, step)
    faults = {when: found for when in moments if (found := trial(when))}
    one.row(f"{len(moments)} {what}", faults, {})


def calls_of(one, which):
    """Counts such calls of each end in a session that is well."""
    counts = {}
    for end in ("beta", "alpha"):
        ends = load(one)
        front = traced(one, "-e", f"trace={which}")
        called = ends.answer(one.line, "--timeout", "10", **({"front": front} if end == "beta" else {}))
        ends.call(one.line, "--timeout", "10", **({"front": front} if end == "alpha" else {}))
        called.end()
        counts[end] = count_of(one)
    return counts


def end_called(called, place):
    """Waits for the end that is called. Where its caller was killed before it was let in it listens still, and would wait on."""
    if wait_until(lambda: called.process.poll() is not None or not listens_at(place), 0.5):
        called.end()
    else:
        called.stop()


def killed(one, end, which, when):
    """Kills this end at such a call of a session. Returns what is wrong then, and when all is done."""
    ends = load(one)
    front = traced(one, "-e", f"trace={which}", "-e", f"inject={which}:signal=SIGKILL:when={when}")
    called = ends.answer(one.line, "--timeout", "10", "--wait", "3", **({"front": front} if end == "beta" else {}))
    if listens_at(one.line[5:]):
        ends.call(one.line, "--timeout", "10", **({"front": front} if end == "alpha" else {}))
    end_called(called, one.line[5:])
    return [f"behind the kill: {fault}" for fault in wrong(ends)] + [f"in the end: {fault}" for fault in finish(ends)]


def sweep(one, end, which, step):
    swept(one, f"kills of {end}", calls_of(one, which)[end], 5, lambda when: killed(one, end, which, when), 1 + step // 2, step)


@at_both_ends("strace")
def kills_of(one, end):
    sweep(one, end, "all", 10)


@at_both_ends("strace")
def kills_at_changes_of(one, end):
    sweep(one, end, CHANGES, 1)


def mailed(nodes, number):
    """A mail and a file of each node for the other one, under names of this trial."""
    for node in nodes.names:
        nodes.mail(node, f"{number:04}", f"mail {number} of {node}\n")
        nodes.queue(node, f"C.Z{number:04}", f"S {nodes.at(node, 'src')}/f ~/f{number} u -C D.1{number:03} 0644 ",
                **{f"_1{number:03}": f"file {number} of {node}\n"})


def spool_trial(one, nodes, number, victim, front):
    """Runs a session with a node under this command, and those that follow. Returns what is wrong in the end."""
    from spools import AS_NOBODY, deliver

    mailed(nodes, number)
    mails = []
    nodes.own()
    how = {node: {"front": (*front, *AS_NOBODY) if node == victim else AS_NOBODY} for node in nodes.names}
    called = one.start(nodes.words("answer", "beta", one.line, "alpha"), **how["beta"])
    wait_until(lambda: called.process.poll() is not None or listens_at(one.line[5:]))
    caller = one.run(nodes.words("call", "alpha", one.line, "beta"), **how["alpha"])
    # Whom nobody has called waits on.
    called.end() if caller.out or called.process.poll() is not None else called.stop()
    deliver(nodes, mails)
    for _ in range(3):
        if not any("/C./" in name for node in nodes.names for name in nodes.there(node)):
            break
        caller, called = nodes.talk()
        deliver(nodes, mails)
    faults = []
    if sorted(mails) != [f"mail {number} of {node}\n" for node in nodes.names]:
        faults.append(f"the mails that came: {sorted(mails)}")
    for node in nodes.names:
        if nodes.pub(node).get(f"f{number}") != f"file {number} of {nodes.other(node)}\n":
            faults.append(f"the file at {node}: {nodes.pub(node).get(f'f{number}')!r}")
        left = [name for name in nodes.there(node) if not name.startswith((".Received", ".Preserve/failed"))]
        if left:
            faults.append(f"{node} has {left}")
    return faults


def spool_sweep(one, what, victim, front, least, first, step, nodes=None):
    """The same over a spool, whose victim runs under the command that `front` has for the number of a call."""
    from spools import Nodes

    nodes = nodes or Nodes(one)
    spool_trial(one, nodes, 0, victim, front(one, NEVER))
    swept(one, f"{what} {victim} over a spool", count_of(one), least,
            lambda when: spool_trial(one, nodes, when, victim, front(one, when)), first, step)


def kill(one, when):
    return traced(one, "-e", f"trace={CHANGES}", "-e", f"inject={CHANGES}:signal=SIGKILL:when={when}")


@at_both_ends("strace")
def kills_over_a_spool_of(one, end):
    spool_sweep(one, "kills of", end, kill, 10, 1, 2)


@scene("root", "strace")
def kills_with_the_public_folder_on_another_disk(one):
    """Copies what came to that disk beside its place, syncs and renames it: killed at any moment, it leaves a whole file or none."""
    from spools import Nodes

    nodes = Nodes(one)
    one.mount(nodes.at("beta", "pub"), "1m")
    spool_sweep(one, "kills, with its public folder on another disk, of", "beta", kill, 10, 1, 2, nodes)
    one.row("no copy is left there", [name for name in nodes.pub("beta") if not name.startswith("f")], [])


def order_of(trace, path):
    """Returns in which order the bytes, the name and the folder of this file get on the device, and something is said."""
    part, steps = None, []
    lines = text_of(trace).splitlines()
    place = next((number for number, line in enumerate(lines) if re.search(rf'rename\w*\(.*"{re.escape(path)}"(?:, 0)?\) = 0',
            line)), None)
    if place is None:
        return [f"no renaming to {path}"]
    part = re.findall(r'"([^"]*)"', lines[place])[0]
    if any("fsync(" in line and f"{part}>" in line for line in lines[:place]):
        steps.append("its bytes")
    steps.append("its name")
    folder = path.rpartition("/")[0]
    for line in lines[place + 1:]:
        if "fsync(" in line and f"{folder}>" in line and "its folder" not in steps:
            steps.append("its folder")
        if re.search(r"(write|sendto|sendmsg)\(\d+<(UNIX|socket|TCP)", line):
            steps.append("what is said")
            break
    return steps


ORDER = ["its bytes", "its name", "its folder", "what is said"]


@scene("strace")
def what_is_on_the_device(one):
    """A file that comes, the jobs that are left and the number are on the device before anything is said of them."""
    for end in ("beta", "alpha"):
        ends = load(one)
        for name in ("alpha", "beta"):
            write(ends.at(name, "number"), "4\n")
        front = {"front": ("strace", "-f", "-y", "-qq", "-s", "200", "-o", one.path("trace"))}
        called = ends.answer(one.line, **(front if end == "beta" else {}))
        caller = ends.call(one.line, **(front if end == "alpha" else {}))
        called = called.end()
        done = [(0, report(side, struck=4), "") for side in ("caller", "called")]
        one.row(f"both are well, {end}", [caller.all(), called.all()], done)
        other = "beta" if end == "alpha" else "alpha"
        for name in (f"got/{other}1", f"got/{other}3", "jobs", "number"):
            one.row(f"{name} at {end}", order_of(one.path("trace"), f"{end}/{name}"), ORDER)
