#!/usr/bin/env python3
"""Measures all that the other scripts here measure, and writes it to bench/results; or makes the table of docs/PERFORMANCE.md.

    all.py [--small] [--into FOLDER] [PROGRAM [NAME..]]
    all.py --table [--into FOLDER]

Each NAME is a file of the results, without its ending; without one all are made, one after the other, which takes hours. The first
line of a file says by what command, when, where, of which commit and at which load it was measured. PROGRAM is
crates/uucpair/out/uucpair where none is named. What a script lacks of Debian's packages, or root, it says itself. With --small each
script runs once, on little, to see that it works: FOLDER must be another then. `--table` prints rows from what is in FOLDER, and
leaves out figures that are not there. Ends with status 1 where a script printed no row; one that prints rows but ends badly has
missed an aim of its own, or a file did not come, which is printed.

`bytes.sh` and `changes.py` are left out: their figures are computed.
"""
import argparse
import csv
import datetime
import os
import platform
import re
import shutil
import subprocess
import sys
from dataclasses import dataclass
from pathlib import Path

BENCH = Path(__file__).resolve().parent
ROOT = BENCH.parent
RESULTS = BENCH / "results"
BUILT = ROOT / "crates/uucpair/out/uucpair"
SPREAD = r"[\d.]+ \([\d.]+-[\d.]+\)|-"
SMALL = {"MIB": "16384", "ROUNDS": "1", "FILES": "2", "SIZES": "1024", "WINDOWS": "7", "FAULTS": "doubled-once", "BYTES": "8192"}


@dataclass(frozen=True)
class Measure:
    """A script, the columns of its file, and what a line of its output has for them: groups, or the cells of a table."""

    name: str
    command: str
    small: str
    head: str
    line: str = ""
    # The cell of a table that has two columns, with a comma.
    double: int | None = None

    def cells(self, line: str) -> list[str] | None:
        if self.line:
            match = re.match(self.line, line)
            return [cell or "" for cell in match.groups()] if match else None
        if not re.match(r"\| (?!ends|files|bits?/s|one byte|`|\|)", line):
            return None
        cells = [cell.strip() for cell in line.strip().strip("|").split("|")]
        if self.double is not None:
            cells[self.double : self.double + 1] = cells[self.double].split(", ", 1)
        return cells


MEASURES = (
    Measure("scan", "bench/scan.sh PROGRAM", "bench/scan.sh PROGRAM",
            "date,stream,bytes,lines,uucpair_user,uucpair_sys,c_user,c_sys,uucpair_to_c",
            r"(mixed|control|worst) +(\d+) +(\d+) +([\d.]+) +([\d.]+) +([\d.]+) +([\d.]+) +(\S+)$"),
    Measure("play", "bench/play.sh PROGRAM", "env MIB=131072 bench/play.sh PROGRAM", "line,bytes,window,size,program,whole,read,rest,least",
            r"(clean|lossy|settle) +(\d+) +(\d) x (\d+) +(\S+) +([\d.]+) +([\d.]+) +([\d.]+) +([\d.]+)"),
    Measure("ladder", "bench/ladder.sh PROGRAM", "bench/ladder.sh PROGRAM", "drawing,seconds,to_alone",
            r" *\d+  (\S+) +([\d.]+) +([\d.]+)$"),
    Measure("jobs", "bench/jobs.sh PROGRAM", "bench/jobs.sh PROGRAM", "date,queue,seconds,to_short", r"(\w+) +([\d.]+) +([\d.]+)$"),
    Measure("pair", "bench/pair.sh 5 PROGRAM", "bench/pair.sh 1 PROGRAM",
            "date,line,bytes,uucpair_cpu,uucpair_wall,uucico_cpu,uucico_wall",
            rf"(\S.*?) +(\d+) +({SPREAD}) +({SPREAD}) +({SPREAD}) +({SPREAD}) *$"),
    Measure("call", "bench/call.sh 9 PROGRAM", "bench/call.sh 1 PROGRAM", "date,load,size,uucpair,uucico_pipes,uucico_socket,option",
            rf" *(\d+) +({SPREAD}) +({SPREAD}) +\S+ +({SPREAD}) +\S+ +\S+ +\S+ +\S+ +/\S+ (--no-digest)?$"),
    Measure("memory", "bench/memory.py PROGRAM 3", "bench/memory.py PROGRAM 1", "files,ends,clock,processor,caller,called"),
    Measure("half_duplex", "bench/half_duplex.py PROGRAM 3 1", "bench/half_duplex.py PROGRAM 1 10",
            "load,ends,7x64,7x256,3x1024,7x1024,3x4096,7x4096", double=0),
    Measure("slow_lines", "bench/slow_lines.py PROGRAM 10", "bench/slow_lines.py PROGRAM 10",
            "bits,caller,called,3x64,7x64,3x1024,7x1024,3x4096,7x4096", double=1),
    Measure("long_way", "bench/long_way.py PROGRAM 10", "bench/long_way.py PROGRAM 10", "timeout,speed,7x64,3x1024,7x1024,7x4096"),
    Measure("losses", "bench/losses.py PROGRAM 24 12", "bench/losses.py PROGRAM 1 1",
            "one byte lost in,sender,sessions,done,gave up,whole,wrong,seconds,bytes there,bytes back"),
    Measure("garbled", "bench/garbled.py PROGRAM", "bench/garbled.py PROGRAM 1 1",
            "ends,rounds,calls,garbled bytes,files whole,wrong,not there,garbled bytes for a wrong file"),
    Measure("storm", "bench/storm.sh PROGRAM", "bench/storm.sh PROGRAM", "date,fault,window,quiet,not quiet",
            r"([a-z]\S+) +(\d) +([\d.]+(?: fails)?) +([\d.]+(?: fails)?)$"),
    Measure("mails", "interop/mails.sh PROGRAM", "interop/mails.sh PROGRAM", "size,Taylor calls Taylor,uucpair calls Taylor,Taylor calls uucpair",
            r" *(\d+) +(\d+) +(\d+) +(\d+)$"),
    Measure("peers", "bench/peers.py 1", "bench/peers.py 1", "program,bytes,half duplex", r"1, (\w+), (\d+) bytes, (\d+) s half duplex"),
    Measure("resume", "bench/resume.py PROGRAM", "bench/resume.py PROGRAM", "size,cut after,program,sessions,bytes",
            r"(\d+), (\d+), (\w+), (\w+), (\S+)"),
)  # fmt: skip


def plain(cell: str) -> str:
    """Returns a cell as the files have it: numbers and words without commas, nothing for nothing."""
    cell = re.sub(r"(?<=\d),(?=\d)", "", cell).replace("ours", "uucpair").replace(", ", " ")
    return "" if cell == "-" else cell


def provenance(command: str, program: Path) -> str:
    """Returns the line that says how a file was measured."""
    commit = subprocess.run(["git", "describe", "--always", "--dirty"], cwd=ROOT, capture_output=True, text=True, check=False).stdout.strip()
    now = datetime.datetime.now(datetime.timezone.utc).strftime("%Y-%m-%d %H:%M UTC")
    host = f"{platform.node()}, {os.cpu_count()} processors, {platform.system()} {platform.release()}"
    return f"# {command}, {now}, {host}, commit {commit or 'not known'}, {program.name}, load {os.getloadavg()[0]:.1f}.\n"


def write(folder: Path, name: str, first_line: str, head: list[str], rows: list[list[str]]) -> None:
    with (folder / f"{name}.csv").open("w", newline="", encoding="ascii") as file:
        file.write(first_line)
        csv.writer(file, lineterminator="\n").writerows([head, *rows])


def measure(one: Measure, program: Path, folder: Path, small: bool) -> bool:
    """Runs a script, writes its file, and returns whether it printed any row."""
    command = one.small if small else one.command
    first_line = provenance(command, program)
    before = {"date": datetime.date.today().isoformat(), "load": f"load {os.getloadavg()[0]:.0f}"}
    words = [str(program) if word == "PROGRAM" else word for word in command.split()]
    done = subprocess.run(words, cwd=ROOT, env={**os.environ, **(SMALL if small else {})}, capture_output=True, text=True, check=False)
    head = one.head.split(",")
    front = [before[name] for name in head[:2] if name in before] if head[0] == "date" else []
    rows = [front + list(map(plain, cells)) for line in done.stdout.splitlines() if (cells := one.cells(line))]
    if rows:
        write(folder, one.name, first_line, head, rows)
    print(f"{one.name}: {len(rows)} rows, status {done.returncode}", flush=True)
    if done.returncode:
        print("\n".join("    " + line for line in [*done.stdout.splitlines()[-3:], *done.stderr.splitlines()[-3:]]), flush=True)
    return bool(rows)


def measure_sizes(program: Path, folder: Path) -> None:
    """Writes how large the programs are, and how long their first build took, where it was here."""
    path = f"{os.environ['PATH']}:/usr/sbin"
    found = {name: shutil.which(name, path=path) for name in ("uucico", "sz", "rz", "kermit")}
    places = {"uucpair": str(program), **{name: os.path.realpath(place) for name, place in found.items() if place}}
    rows = [[name, str(os.path.getsize(place))] for name, place in places.items()]
    write(folder, "size", provenance("sizes of the programs' files", program), ["program", "bytes"], rows)
    build = BUILT.parent / "build.seconds"
    if build.exists():
        seconds = [float(line.split()[1]) for line in build.read_text().splitlines()]
        row = [str(len(seconds)), f"{sum(seconds):.0f}"]
        write(folder, "build", provenance("the last ./uucpair that proved all", program), ["crates", "seconds"], [row])
    print("size: written", flush=True)


def main() -> None:
    parser = argparse.ArgumentParser(usage=(__doc__ or "").split("\n\n")[1])
    parser.add_argument("--small", action="store_true")
    parser.add_argument("--table", action="store_true")
    parser.add_argument("--into", type=Path, default=RESULTS)
    parser.add_argument("program", type=Path, nargs="?", default=BUILT)
    parser.add_argument("names", nargs="*")
    words = parser.parse_args()
    if words.table:
        import table

        print(table.table_of(words.into), end="")
        return
    if words.small and words.into.resolve() == RESULTS:
        parser.error("with --small name another folder")
    words.into.mkdir(exist_ok=True)
    program = words.program.resolve()
    if not words.names or "size" in words.names:
        measure_sizes(program, words.into)
    wanted = [one for one in MEASURES if not words.names or one.name in words.names]
    sys.exit(0 if all([measure(one, program, words.into, words.small) for one in wanted]) else 1)


if __name__ == "__main__":
    sys.dont_write_bytecode = True
    main()
