#!/usr/bin/env python3
"""Proves and builds the program and the crates that it stands on, side by side where none stands on the other.

    tools/build_crates.py FOLDER
    tools/build_crates.py --table SECONDS

FOLDER is there, below the repository, and this run's own. `rt` keeps every other command out of each crate that it reads,
so a crate is built in a copy of the repository in FOLDER, of what it stands on by links, and what comes of it is moved
to its own `out`. The program is built last, where it stands, by `rt run`, which looks once more at all of them.

As many crates are built at a time as there are cores, and memory for (2.5 GB each); the processes are divided among
them, of which no more run than two for each core, and memory for (half as much each). All crates but the one on which
most stands give way to others.
FOLDER/progress has a line that says how far it is, and how long the rest may take by tools/build_seconds.txt and by what
the crates have taken that are done. What `rt` says goes to standard output, of one crate after the other, and what each
took to FOLDER/seconds, of which --table makes such a table. Ends with status 1 where a crate is not proved, or not built.
"""
import fcntl
import os
import shutil
import signal
import subprocess
import sys
import time

ROOT = os.path.dirname(os.path.dirname(os.path.realpath(__file__)))
PROGRAM = "uucpair"
SOURCES = ("src", "specs", "proofs")
# Of a crate's `out`: what others read of it, and what a later check of it begins with.
KEPT = ("rlib", "incremental")
TABLE = f"{ROOT}/tools/build_seconds.txt"
MEMORY_OF_CRATE = 2_500_000_000
MEMORY_OF_PROCESS = 1_250_000_000
# For a good part of its time all processes of a crate but one are idle.
PROCESSES_OF_CORE = 2
# More processes than these seldom help one crate.
JOBS_MAX = 8
# How a command is begun that gives way to others.
GIVING_WAY = ("nice", "-n", "5")
# The share of a crate's time in which only one of its processes runs.
ALONE = 0.35


# The crates.


def crates_needed():
    """The crates of the program, lowest first, each with all that it stands on."""
    listed, needed = {}, {}
    with open(f"{ROOT}/crates.txt", encoding="utf-8") as file:
        for line in file:
            name, _, names = line.partition(":")
            listed[name.strip()] = names.split()

    def visit(crate):
        below = [name for name in listed[crate] if name in listed]
        for name in below:
            if name not in needed:
                visit(name)
        needed[crate] = {crate for name in below for crate in (name, *needed[name])}

    visit(PROGRAM)
    return needed


def list_only(crates, path):
    """Writes a crates.txt that has no other crates than these: `rt` wants each to be there."""
    with open(f"{ROOT}/crates.txt", encoding="utf-8") as here, open(path, "w", encoding="utf-8") as there:
        there.writelines(line for line in here if line.partition(":")[0].strip() in crates)


def folder_of(crate, root=ROOT):
    return f"{root}/crates/{crate}"


def newest(crate):
    """When a source of the crate was changed last."""
    changed = 0
    for part in SOURCES:
        for folder, _, names in os.walk(f"{folder_of(crate)}/{part}"):
            changed = max([changed, os.stat(folder).st_mtime, *(os.stat(f"{folder}/{name}").st_mtime for name in names)])
    return changed


def stale_of(needed):
    """The libraries that are not built, or older than what they are made of. `rt` itself compares the texts."""
    built, stale = {}, []
    for crate in needed:
        stamp = f"{folder_of(crate)}/out/rlib/stamp"
        built[crate] = os.stat(stamp).st_mtime if os.path.isfile(stamp) else 0
        of_below = [built[name] for name in needed[crate]]
        if crate != PROGRAM and (built[crate] < max([newest(crate), *of_below]) or any(it in stale for it in needed[crate])):
            stale.append(crate)
    return stale


# What the machine has.


def processors():
    """The processors that may be used, or fewer by the quota of a control group."""
    found = len(os.sched_getaffinity(0))
    try:
        with open("/sys/fs/cgroup/cpu.max", encoding="utf-8") as file:
            quota, period = map(int, file.read().split())
    except (OSError, ValueError):
        return found
    return max(min(found, quota // period), 1)


def free_memory():
    """The memory that is free, in bytes, also under the limit of a control group."""
    with open("/proc/meminfo", encoding="utf-8") as file:
        free = [1024 * int(line.split()[1]) for line in file if line.startswith("MemAvailable:")]
    try:
        with open("/sys/fs/cgroup/memory.max", encoding="utf-8") as limit, open("/sys/fs/cgroup/memory.current", encoding="utf-8") as held:
            free.append(int(limit.read()) - int(held.read()))
    except (OSError, ValueError):
        pass
    return min(free)


# Which crate is next.


def expected(alone, jobs):
    """The seconds that a crate takes with so many processes, of those with one."""
    return alone * (ALONE + (1 - ALONE) / jobs)


class Plan:
    """The order of the crates: of those that can begin the one first on which most stands."""

    def __init__(self, needed, table, processes, at_once):
        self.needed, self.table = needed, table
        self.processes, self.at_once = processes, at_once
        self.way = {}
        for crate in reversed(needed):
            above = [self.way[other] for other in self.way if crate in needed[other]]
            self.way[crate] = self.seconds(crate) + max(above, default=0)

    def seconds(self, crate):
        """What the crate takes with one process, by the table: a middling time where it is new there."""
        return self.table.get(crate, 120)

    def begin(self, waiting, running):
        """The crates that begin now, each with its number of processes. `running` has those that run, with theirs."""
        ready = [it for it in waiting if not self.needed[it] & {*waiting, *running}]
        ready.sort(key=self.way.get, reverse=True)
        free = self.processes - sum(running.values())
        for left in range(min(len(ready), free, self.at_once - len(running)), 0, -1):
            jobs = min(-(-free // left), JOBS_MAX)
            free -= jobs
            yield ready.pop(0), jobs

    def seconds_left(self, waiting, running, pace):
        """How long the rest takes. `running` has the processes and the seconds so far of each crate that runs."""
        clock, waiting, ends = 0, list(waiting), {}
        jobs = {crate: number for crate, (number, _) in running.items()}
        for crate, (number, so_far) in running.items():
            whole = pace * expected(self.seconds(crate), number)
            ends[crate] = max(whole - so_far, whole / 10)
        while waiting or ends:
            for crate, number in self.begin(waiting, jobs):
                waiting.remove(crate)
                jobs[crate] = number
                ends[crate] = clock + pace * expected(self.seconds(crate), number)
            first = min(ends, key=ends.get)
            clock = ends.pop(first)
            del jobs[first]
        return clock


# Building.


def text_of(path):
    if not os.path.isfile(path):
        return None
    with open(path, encoding="utf-8") as file:
        return file.read()


def link_or_copy(one, other):
    """Gives a built file a second name: `rt` replaces such files, and never writes into one."""
    try:
        os.link(one, other)
    except OSError:
        shutil.copy2(one, other)


def stop(process):
    """Ends it where it runs still."""
    if process.poll() is None:
        process.terminate()
        process.wait()


class Lane:
    """A crate that is being built, in a copy of the repository."""

    def __init__(self, crate, below, jobs, is_first, folder):
        self.crate, self.jobs, self.begun = crate, jobs, time.monotonic()
        self.out, self.root = f"{folder_of(crate)}/out", f"{folder}/{crate}"
        self.own = folder_of(crate, self.root)
        for name in (crate, *below):
            for part in SOURCES:
                if os.path.isdir(f"{folder_of(name)}/{part}"):
                    shutil.copytree(f"{folder_of(name)}/{part}", f"{folder_of(name, self.root)}/{part}")
        for name in below:
            shutil.copytree(f"{folder_of(name)}/out/rlib", f"{folder_of(name, self.root)}/out/rlib", copy_function=link_or_copy)
        list_only({crate, *below}, f"{self.root}/crates.txt")
        os.makedirs(f"{self.own}/out")
        self.stamp = text_of(f"{self.out}/rlib/stamp")
        for name in KEPT:
            self.move(self.out, f"{self.own}/out", name)
        self.log = open(f"{self.root}/log", "w+", encoding="utf-8", errors="replace")
        words = [*([] if is_first else GIVING_WAY), "rt", "lib", "--jobs", str(jobs)]
        self.process = subprocess.Popen(words, cwd=self.own, stdin=subprocess.DEVNULL, stdout=self.log, stderr=self.log)

    @staticmethod
    def move(here, there, name):
        """Moves a folder to where there may be one of that name."""
        if os.path.isdir(f"{here}/{name}"):
            os.makedirs(there, exist_ok=True)
            shutil.rmtree(f"{there}/{name}", ignore_errors=True)
            os.rename(f"{here}/{name}", f"{there}/{name}")

    def seconds(self):
        return time.monotonic() - self.begun

    def has_failed(self):
        return self.process.poll() not in (None, 0)

    def end(self):
        """Hands over what came of it. Whether anything was built."""
        self.log.seek(0)
        print(f"== {self.crate}\n{self.log.read()}", end="", flush=True)
        self.log.close()
        for name in KEPT:
            self.move(f"{self.own}/out", self.out, name)
        if self.process.returncode == 0:
            os.utime(f"{self.out}/rlib/stamp")
        shutil.rmtree(self.root, ignore_errors=True)
        return text_of(f"{self.out}/rlib/stamp") != self.stamp


class Build:
    """The build of all crates that are stale, and of the program."""

    def __init__(self, folder, needed):
        self.folder, self.needed, self.launcher = folder, needed, launcher_of(folder)
        most, free = processors(), free_memory()
        processes = max(min(PROCESSES_OF_CORE * most, free // MEMORY_OF_PROCESS), 1)
        at_once = max(min(most, free // MEMORY_OF_CRATE), 1)
        self.plan = Plan(needed, table_of(TABLE), processes, at_once)
        self.waiting, self.lanes = [PROGRAM], {}
        # What the crates took, and were to take by the table. At first as if some had taken twice that: an hour for all.
        self.took, self.meant = 200, 100

    def is_alone(self):
        """Whether who began the build was killed."""
        return os.getppid() != self.launcher

    def pause(self, *processes):
        """Waits for a moment, or until one of these has ended, and ends the build where nobody waits for it any longer."""
        until = time.monotonic() + 0.5
        while time.monotonic() < until and all(process.poll() is None for process in processes):
            time.sleep(0.02)
        if self.is_alone():
            sys.exit(1)

    def tell(self, text):
        """Writes the line that says how far the build is. With the launcher's name before it, it fits into 80 columns."""
        with open(f"{self.folder}/progress.new", "w", encoding="utf-8") as file:
            file.write(f"{text}\n")
        os.replace(f"{self.folder}/progress.new", f"{self.folder}/progress")

    def show(self, running):
        """Tells it of the crates that run, with their processes and seconds so far: the slow ones tell the pace already."""
        means = {crate: expected(self.plan.seconds(crate), jobs) for crate, (jobs, _) in running.items()}
        slow = [crate for crate, (_, so_far) in running.items() if so_far * self.meant > self.took * means[crate]]
        pace = (self.took + sum(running[it][1] for it in slow)) / (self.meant + sum(means[it] for it in slow))
        minutes = max(round(self.plan.seconds_left(self.waiting, running, pace) / 60), 1)
        time_left = f"about {minutes} minute{'s' * (minutes > 1)} left"
        done = len(self.needed) - len(self.waiting) - len(running)
        others = f" and {len(running) - 1} more" if len(running) > 1 else ""
        self.tell(f"{done} of {len(self.needed)} crates, {time_left}, at {[*running][0]}{others}")

    def count(self, crate, jobs, seconds):
        """Keeps what a crate took: how fast this machine is."""
        self.took += seconds
        self.meant += expected(self.plan.seconds(crate), jobs)
        with open(f"{self.folder}/seconds", "a", encoding="utf-8") as file:
            file.write(f"{crate} {jobs} {seconds:.1f}\n")

    def begin_lanes(self):
        for crate, jobs in self.plan.begin(self.waiting, {it: lane.jobs for it, lane in self.lanes.items()}):
            if crate != PROGRAM:
                self.waiting.remove(crate)
                is_first = all(self.plan.way[crate] > self.plan.way[other] for other in self.lanes)
                self.lanes[crate] = Lane(crate, self.needed[crate], jobs, is_first, self.folder)

    def end_lanes(self):
        """Takes over the crates that are proved. Whether no other one has ended."""
        for crate, lane in [*self.lanes.items()]:
            if lane.process.poll() == 0:
                del self.lanes[crate]
                seconds = lane.seconds()
                if lane.end():
                    self.count(crate, lane.jobs, seconds)
        return not any(map(Lane.has_failed, self.lanes.values()))

    def build_libraries(self, stale):
        """Whether all that the program stands on is proved."""
        self.waiting = [*stale, PROGRAM]
        try:
            while self.waiting != [PROGRAM] or self.lanes:
                self.begin_lanes()
                self.show({crate: (lane.jobs, lane.seconds()) for crate, lane in self.lanes.items()})
                self.pause(*(lane.process for lane in self.lanes.values()))
                if not self.end_lanes():
                    return False
            return True
        finally:
            # What is said last is why the build ended.
            lanes = sorted(self.lanes.values(), key=Lane.has_failed)
            for lane in lanes:
                stop(lane.process)
            for lane in lanes:
                lane.end()

    def build_program(self):
        """Whether the program is built."""
        begun, jobs = time.monotonic(), min(processors(), JOBS_MAX)
        self.waiting = []
        process = subprocess.Popen(["rt", "run", "--", "scan"], cwd=folder_of(PROGRAM), stdin=subprocess.DEVNULL, stderr=subprocess.STDOUT)
        try:
            while process.poll() is None:
                self.show({PROGRAM: (jobs, time.monotonic() - begun)})
                self.pause(process)
        finally:
            stop(process)
        self.count(PROGRAM, jobs, time.monotonic() - begun)
        return process.returncode == 0

    def lock(self):
        """Keeps others out of the crates, as `rt` does, and returns what does so until it is closed."""
        held = []
        for path in sorted(os.path.realpath(folder_of(crate)) for crate in self.needed):
            held.append(os.open(path, os.O_RDONLY))
            try:
                fcntl.flock(held[-1], fcntl.LOCK_EX | fcntl.LOCK_NB)
            except BlockingIOError:
                self.tell(f"waiting for another build to leave {os.path.basename(path)}")
                fcntl.flock(held[-1], fcntl.LOCK_EX)
            except OSError:
                # Some file systems have no locks.
                pass
        return held


def launcher_of(folder):
    """The process that waits for the build: the launcher, whose number the folder's name bears."""
    number = folder.rpartition(".")[2]
    return int(number) if number.isdecimal() else os.getppid()


def remove_remains(folder):
    """Removes the folders of builds that ended with the machine, or with a kill of all their processes."""
    for name in os.listdir(os.path.dirname(folder)):
        kind, _, number = name.partition(".")
        if kind == "build" and number.isdecimal() and not os.path.exists(f"/proc/{number}"):
            shutil.rmtree(f"{os.path.dirname(folder)}/{name}", ignore_errors=True)


def build(folder):
    """Whether the program is proved and built."""
    needed = crates_needed()
    it = Build(folder, needed)
    try:
        held = it.lock()
        remove_remains(folder)
        is_proved = it.build_libraries(stale_of(needed))
        for lock in held:
            os.close(lock)
        return is_proved and it.build_program()
    finally:
        if it.is_alone():
            shutil.rmtree(folder, ignore_errors=True)


# The table.


def table_of(path):
    """Of each crate the seconds that it takes with one process."""
    table = {}
    with open(path, encoding="utf-8") as file:
        for line in file:
            if not line.startswith("#"):
                crate, seconds = line.split()
                table[crate] = float(seconds)
    return table


def print_table(path):
    """Prints it, made of what a build has kept of the seconds of each crate."""
    print("# The seconds that each crate takes with one process, by tools/build_crates.py --table.")
    with open(path, encoding="utf-8") as file:
        for line in file:
            crate, jobs, seconds = line.split()
            print(crate, round(float(seconds) / expected(1, int(jobs))))


def main(words):
    if len(words) == 2 and words[0] == "--table":
        print_table(words[1])
    elif len(words) == 1 and os.path.isdir(words[0]):
        signal.signal(signal.SIGTERM, lambda number, _: sys.exit(128 + number))
        sys.exit(0 if build(os.path.realpath(words[0])) else 1)
    else:
        sys.exit(__doc__)


if __name__ == "__main__":
    main(sys.argv[1:])
