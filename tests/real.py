#!/usr/bin/env python3
"""Real sessions of the program: what each file, report, log, status and line on standard error is then, byte for byte.

    tests/real.py [PROGRAM [SCENE..]]

PROGRAM is crates/uucpair/out/uucpair where none is named. A scene is a function of `tests/real/`, or one of its modules; without
one all are run, as many side by side as JOBS says (twice the processors). What is expected is written in the scenes by hand. A row
that fails says what was expected, and what there was; its scene is run once more, alone. A scene that needs a command which is missing, or root, is left out, and
that is said; with ALONE=1 each such scene is. The last line counts the rows, and the status is 1 where one failed. TIMES=1 prints the seconds of each scene, and
STOP=1 ends with the first row that fails.
"""
import concurrent.futures
import importlib
import os
import signal
import sys

sys.dont_write_bytecode = True
HERE = os.path.dirname(os.path.abspath(__file__))
ROOT = os.path.dirname(HERE)
sys.path[:0] = [os.path.join(HERE, "real"), HERE, os.path.join(ROOT, "interop")]

import suite  # noqa: E402

# The longest begin first.
MODULES = ("scripts", "refusals", "kills", "folders", "resumes", "spools", "lines", "disks", "noisy", "queues", "callers",
        "statuses", "terminals", "tools")


def wanted(names):
    """Returns the scenes of these names or modules; all of them where there is no name. Says which are left out."""
    found, others = [], 0
    for function, needs in suite.SCENES:
        if names and function.__name__ not in names and function.__module__ not in names:
            continue
        if needs and os.environ.get("ALONE"):
            others += 1
            continue
        lacking = [need for need in needs if not suite.is_here(need)]
        if lacking:
            print(f"left out: {function.__name__} (needs {', '.join(lacking)})", flush=True)
        else:
            found.append(function)
    if others:
        print(f"left out: {others} scenes that need a command, root or minutes", flush=True)
    return found


def stop(*_):
    suite.close_all()
    os._exit(1)


def run_all(functions, copy, jobs):
    """Runs these scenes, so many side by side. Returns the rows of those that ended well, or ran alone, and the other scenes."""
    rows, again = [], []
    with concurrent.futures.ThreadPoolExecutor(jobs) as pool:
        running = {pool.submit(suite.run_scene, function, copy): function for function in functions}
        for done in concurrent.futures.as_completed(running):
            function = running[done]
            found, seconds = done.result()
            faults = [f"{name}: {fault}" for name, fault in found if fault is not None]
            for fault in faults:
                print(fault, flush=True)
            if faults and os.environ.get("STOP"):
                print(f"{len(found) - len(faults)} passed, {len(faults)} failed", flush=True)
                stop()
            if os.environ.get("TIMES"):
                print(f"{function.__name__}: {len(found)} rows, {seconds:.1f} s", flush=True)
            if faults and jobs > 1:
                again.append(function)
            else:
                rows += found
    return rows, again


def main():
    program = os.path.abspath(sys.argv[1] if len(sys.argv) > 1 else os.path.join(ROOT, "crates/uucpair/out/uucpair"))
    if not os.access(program, os.X_OK):
        sys.exit(f"real.py: there is no program {program}")
    for module in MODULES:
        importlib.import_module(module)
    for number in (signal.SIGINT, signal.SIGTERM, signal.SIGHUP):
        signal.signal(number, stop)
    os.umask(0o022)
    jobs = int(os.environ.get("JOBS") or 2 * len(os.sched_getaffinity(0)))
    with suite.shared(program) as copy:
        rows, again = run_all(wanted(sys.argv[2:]), copy, jobs)
        # A machine that does much else may keep a scene too long: what failed beside others is run once more, alone.
        for function in again:
            print(f"once more: {function.__name__}", flush=True)
            rows += run_all([function], copy, 1)[0]
    failed = sum(fault is not None for _, fault in rows)
    passed = len(rows) - failed
    print(f"{passed} passed, {failed} failed")
    return 1 if failed or not passed else 0


if __name__ == "__main__":
    sys.exit(main())
