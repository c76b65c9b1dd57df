"""Lists of several sessions over a line with faults, played over all combinations of the settings of an end: each job is done with
its whole file, given up or put off as it should be, and what has come of a file is not sent again."""
import collections
import random

from suite import part, write

LISTS = 128
FEW = 16
SETTINGS = ("quiet", "short", "lenient", "digest", "resume", "limit")
SIDES = ("caller", "called")
OTHER = {"caller": "called", "called": "caller"}
# So many flows are more than a session without faults needs.
CLEAN = "flow 3000"
Job = collections.namedtuple("Job", "side is_send source target bytes ends")


class List:
    """A script: its ends and jobs, and for each session the events of its line."""

    def __init__(self, seed, only_one=False):
        self.draw = random.Random(seed)
        self.size = 32 if only_one else self.draw.choice((32, 64, 128))
        self.jobs, self.names = [], []
        if only_one:
            self.add_job("caller", True, "done", self.draw.randint(1000, 2500))
        for _ in range(0 if only_one else self.draw.randint(1, 6)):
            side, is_send = self.draw.choice(SIDES), self.draw.random() < 0.6
            how = self.draw.choice(("done", "done", "done", "none", "deny", "later", "immovable") if is_send else ("done", "none"))
            self.add_job(side, is_send, how, self.draw.choice((0, 1, 31, 32, 33, 300, 700)))
        self.lines = [f"{side} {side} {self.draw.randint(1, 7)} {self.size}" for side in SIDES]
        # Each combination of the caller's settings comes with two of the other end's.
        for side, chosen in (("caller", seed % 64), ("called", (seed * 41 + seed // 64) % 64)):
            self.lines += self.settings(side, chosen | (0b11000 if only_one else 0))
        self.lines += self.names
        for job in self.jobs:
            self.lines.append(f"{'send' if job.is_send else 'request'} {job.side} {job.source} {job.target} u")
        self.sessions = [self.events(only_one) for _ in range(self.draw.randint(3, 5))] + [[CLEAN], [CLEAN]]

    def settings(self, side, chosen):
        words = {word for bit, word in enumerate(SETTINGS) if chosen >> bit & 1}
        if "resume" in words:
            words.add("digest")
        most = max([len(job.bytes) for job in self.jobs] + [1])
        return [f"{word} {side}" if word != "limit" else f"limit {side} {most}" for word in SETTINGS if word in words]

    def add_job(self, side, is_send, how, size):
        """Adds a job that ends so, and what its ends have for that."""
        source, target = f"from{len(self.jobs)}", f"to{len(self.jobs)}"
        giver, taker = (side, OTHER[side]) if is_send else (OTHER[side], side)
        contents = self.draw.randbytes(size)
        if how != "none":
            self.names.append(f"file {giver} {source} 0644 {contents.hex() or '-'}")
        if how in ("deny", "later", "immovable"):
            self.names.append(f"{how} {taker} {target}")
        self.jobs.append(Job(side, is_send, source, target, contents, how))

    def events(self, only_one):
        """Returns what happens in a session that is to be cut."""
        found = [f"flow {self.draw.randint(4, 24)}"]
        for _ in range(0 if only_one else self.draw.randint(0, 6)):
            side = self.draw.choice(SIDES)
            found.append(self.draw.choice((f"drop {side} {self.draw.randint(1, 60)}", f"pass {side} {self.draw.randint(1, 200)}",
                         f"flip {side} {1 << self.draw.randint(0, 7):02x}", f"insert {side} {self.draw.randint(0, 255):02x}",
                         f"timeout {side}", f"flow {self.draw.randint(1, 12)}")))
        return found

    def text(self, count):
        """Returns the script up to this session."""
        events = "\ncall\n".join("\n".join(session) for session in self.sessions[:count])
        return "\n".join(self.lines) + f"\n{events}\n"


class Report:
    """Reads the report of a script."""

    def __init__(self, text):
        self.counts, self.taken = {}, collections.Counter()
        self.stored, self.holds = {side: [] for side in SIDES}, {}
        self.is_fooled = "verdict fooled" in text
        for line in text.splitlines():
            side, *words = line.split()
            if words[:1] == ["pending"]:
                self.counts[side] = tuple(int(number) for number in words[1::2])
            elif words[:1] == ["sent"]:
                self.taken[side] += int(words[3])
            elif words[:1] == ["stored"]:
                self.stored[side].append((words[1], words[2], b"" if words[3] == "-" else bytes.fromhex(words[3])))
            elif words[:1] == ["holds"]:
                self.holds[side, words[1]] = int(words[2])


def faults_of(whole, plan, before):
    """Yields what is not so of a report, by the one before it, of a session less."""
    taken_by = {side: {job.target: job for job in plan.jobs if (job.side == side) != job.is_send} for side in SIDES}
    for side in SIDES:
        for name, mode, contents in whole.stored[side]:
            job = taken_by[side].get(name)
            if job is None or job.ends != "done" or (mode, contents) != ("0644", job.bytes):
                yield f"{side} stored {name}"
        pending, struck, failed = whole.counts[side]
        own = [job for job in plan.jobs if job.side == side]
        there = {OTHER[side]: True, side: False}
        done = sum(job.target in {name for name, *_ in whole.stored[taker]} for job in own for taker, is_send in there.items()
                if job.is_send == is_send)
        if pending + struck + failed != len(own):
            yield f"of {len(own)} jobs of {side}: {whole.counts[side]}"
        if struck > done:
            yield f"{side} has struck {struck} jobs, and {done} files of them are stored"
        if failed > sum(job.ends in ("none", "deny", "immovable") for job in own):
            yield f"{side} has given up {failed}"
    for key, held in before.holds.items():
        if whole.holds.get(key, 0) < held:
            yield f"{key} has {whole.holds.get(key)} of {held}"


def left_in_the_end(whole, plan):
    """Yields what is not so when two sessions without faults are over."""
    for side in SIDES:
        ends = [job.ends for job in plan.jobs if job.side == side]
        later, done = ends.count("later"), ends.count("done")
        if whole.counts[side] != (later, done, len(ends) - later - done):
            yield f"in the end of {side}: {whole.counts[side]}, of {ends}"


def plays(one, plan, each):
    """Plays a list, or with `each` what comes of it up to each of its sessions."""
    reports = []
    for count in range(1 if each else len(plan.sessions), len(plan.sessions) + 1):
        write(one.path("script"), plan.text(count))
        ended = one.run(["play", "script"])
        reports.append(Report(ended.out))
        if ended.err or ended.status not in (0, 1, 5) or len(reports[-1].counts) < 2:
            raise RuntimeError(f"{ended.all()} of {plan.text(count)}")
    return reports


def noisy_lists(one, first):
    """128 lists over all combinations of the six settings of the caller, each with two of the called end. Of sixteen of them it
    is seen what each session leaves."""
    fooled = 0
    for seed in range(first, LISTS, FEW):
        plan = List(seed)
        reports = plays(one, plan, seed // FEW == seed % 8)
        fooled += reports[-1].is_fooled
        if not reports[-1].is_fooled:
            faults = [fault for whole, before in zip(reports, [Report(""), *reports]) for fault in faults_of(whole, plan, before)]
            faults += left_in_the_end(reports[-1], plan)
            one.holds(f"list {seed}", not faults, faults + [plan.text(len(plan.sessions))])
    one.holds("few lists are fooled", fooled * 4 <= LISTS // FEW, fooled)


def sent_once(one):
    """A file is cut off in each of several sessions: each of its messages is taken once, whatever the other settings are."""
    for seed in range(LISTS // 8):
        plan = List(seed, only_one=True)
        reports = plays(one, plan, True)
        job, command = plan.jobs[0], f"S from0 to0 u - D.0 0644 u 0x{0:08x} {'0' * 64}"
        pieces = -(-len(job.bytes) // plan.size)
        around = len(plan.sessions) * (-(-len(command) // plan.size) + 4)
        faults = [fault for whole, before in zip(reports, [Report(""), *reports]) for fault in faults_of(whole, plan, before)]
        faults += left_in_the_end(reports[-1], plan)
        if reports[-1].taken["called"] > pieces + around:
            faults.append(f"{reports[-1].taken['called']} messages for {pieces} pieces in {len(plan.sessions)} sessions")
        one.holds(f"file {seed}", not faults, faults + [plan.text(len(plan.sessions))])


for number in range(FEW):
    part(f"noisy_lists_{number}", ("minutes",) if number >= FEW // 4 else (), noisy_lists, first=number)
part("noisy_lists_sent_once", (), sent_once)
