#!/usr/bin/env python3
"""Runs the blocks of commands in README.md, docs/TUTORIAL.md and docs/OPERATING.md.

    tests/blocks.py [PROGRAM]

PROGRAM is what they call `uucpair` and `./uucpair`; crates/uucpair/out/uucpair where none is named. The blocks are those that
begin with ```sh, and with ```console, where a line is `HOST$ COMMAND` and the hosts run side by side. All blocks of a document
run in one shell and one new folder, with what SCENES adds before and after. A block before a ```text block under its heading has to print
that, on standard output and standard error. In every other block each command has to succeed. The further words of its first
line are what a block needs, a command or to be root; where that is missing the blocks under its heading are left out. A block
with `no-run` is one of NOT_RUN, which says why.

Other machines are not needed: TCP ports, serial lines and Taylor UUCP's spool are sockets, pseudo-terminals and a folder here.
Prints what is left out and what is wrong. The last line counts the blocks, and the status is 1 where one failed.
"""
import difflib
import os
import re
import shutil
import signal
import subprocess
import sys
import tempfile
from dataclasses import dataclass, field
from pathlib import Path
from typing import Iterator

ROOT = Path(__file__).resolve().parent.parent
DOCUMENTS = ("README.md", "docs/TUTORIAL.md", "docs/OPERATING.md")
SECONDS_MAX = 120
NOT_RUN_MAX = 5
NOT_RUN = {"In uucico's place, on Debian": "it changes the system; interop/debian.sh runs it in one of its own"}
# Indented, these would not be run.
COMMAND = re.compile(r" {4,}(\w+\$ |\./check\b|(\./)?uucpair (-|call|answer|queue|pair|scan|play|demo)|(stty|mkdir|cp|install) )")

# What the text around a block has set up: commands before each block under a heading, and after it.
SCENES = {
    "Two machines": ("echo hello >report", "cmp report b/got/report"),
    "Two machines with a folder each": ("echo hello >report", "cmp report b/got/report"),
    "Lines": ("serial_line", ":"),
    "In uucico's place": (
        "mkdir -p spool/beta uucppublic beta/send beta/got; uucpair queue beta send report\n"
        "(uucpair answer tcp:0.0.0.0:540 beta --me beta --peer alpha && uucpair call unix:$PLACE/inetd beta --me beta --peer alpha) & peer=$!",
        "wait $peer; cmp report uucppublic/report",
    ),
    "A slow line": (
        "serial_line; mkdir -p dir/send dir/got there/send there/got; uucpair queue dir send report\n"
        "uucpair answer /dev/ttyS1 there --me there --peer here & peer=$!",
        "wait $peer; cmp report there/got/report",
    ),
}

# `uucpair`, `stty` and `check` of the blocks. A caller waits until somebody listens.
STAND_IN = r"""#!/usr/bin/env bash
set -eu
words=()
for word in "$@"; do
    case $word in
    tcp:*:*) word=unix:$PLACE/port${word##*:} ;;
    /dev/ttyS*) word=$PLACE/${word#/dev/} ;;
    /var/spool/uucp) word=$PLACE/spool ;;
    esac
    words+=("$word")
done
set -- "${words[@]}"
case ${0##*/} in
stty) PATH=${PATH#*:} exec stty "$@" ;;
check) exec grep -q "^#     ./check $1 " "$ROOT/check" ;;
esac
case "$*" in *--spool* | *"$PLACE/ttyS"*) set -- "$@" --locks "$PLACE" ;; esac
case "$*" in
demo) exec "$ROOT/examples/demo.sh" "$PROGRAM" ;;
"answer - "*)
    # It may find that the program has gone before the last bytes. How the session went the caller knows.
    socat "UNIX-LISTEN:$PLACE/inetd" "EXEC:$PROGRAM $*" 2>/dev/null || true
    exit
    ;;
"call unix:$PLACE/"*)
    for ((i = 0; i < 200; i++)); do
        ! grep -qE " 00010000 .* ${2#unix:}(\.new)?$" /proc/net/unix || break
        sleep 0.05
    done
    ;;
esac
exec -a uucpair "$PROGRAM" "$@"
"""
PRELUDE = r"""
serial_line() {
    socat "PTY,raw,echo=0,link=$PLACE/ttyS0" "PTY,raw,echo=0,link=$PLACE/ttyS1" 2>/dev/null &
    until [ -e "$PLACE/ttyS0" ] && [ -e "$PLACE/ttyS1" ]; do sleep 0.05; done
}
"""


@dataclass
class Block:
    """A block of commands, with what it has to print where the document shows that."""

    place: str
    heading: str
    language: str
    words: list[str]
    text: str = ""
    shown: str | None = None
    printed: Path = field(default_factory=Path)

    def name(self) -> str:
        return f"{self.place} ({self.heading})"

    def ended(self) -> Path:
        return self.printed.with_suffix(".ended")


def blocks_of(path: str, lines: list[str]) -> list[Block]:
    """Returns the blocks of commands of a document."""
    blocks: list[Block] = []
    heading, opened, inside = "", "", False
    for number, line in enumerate(lines, 1):
        if line.startswith("```"):
            inside = not inside
            opened = line[3:] if inside else opened
            language, *words = opened.split() or [""]
            if inside and language in ("sh", "console"):
                blocks.append(Block(f"{path}:{number}", heading, language, words))
            elif inside and opened == "text" and blocks and blocks[-1].heading == heading:
                blocks[-1].shown = ""
        elif inside and opened.startswith(("sh", "console")):
            blocks[-1].text += line + "\n"
        elif inside and opened == "text" and blocks and blocks[-1].heading == heading:
            blocks[-1].shown = (blocks[-1].shown or "") + line + "\n"
        elif line.startswith("#"):
            heading = line.lstrip("# ")
    return blocks


def unfenced(path: str, lines: list[str]) -> Iterator[str]:
    """Yields the places of commands that stand in no block of commands."""
    inside = False
    for number, line in enumerate(lines, 1):
        inside ^= line.startswith("```")
        if not inside and COMMAND.match(line):
            yield f"{path}:{number}"


def commands_of(block: Block) -> str:
    """Returns the block as lines of a shell."""
    if block.language == "sh":
        return block.text
    hosts: dict[str, list[str]] = {}
    for line in block.text.splitlines():
        host, command = line.split("$ ", 1)
        hosts.setdefault(host, []).append(command)
    sides = ["(\n" + "\n".join(commands) + "\n) & hosts+=($!)\n" for commands in hosts.values()]
    return "hosts=()\n" + "".join(sides) + 'for host in "${hosts[@]}"; do wait "$host"; done\n'


def step(block: Block) -> str:
    """Returns the lines of a shell that run the block within its scene, and note that it came to its end."""
    before, after = SCENES.get(block.heading, (":", ":"))
    strict = "set -e" if block.shown is None else "set +e"
    run = f"{{\n{commands_of(block)}\n}} >'{block.printed}' 2>&1 </dev/null"
    return f"set -e\n{{\n{before}\n}} >/dev/null\n{strict}\n{run}\nset -e\n{after}\n>'{block.ended()}'\n"


def missing(needs: list[str]) -> list[str]:
    """Returns those of what a block needs that are not here."""
    path = os.environ["PATH"] + ":/usr/sbin"
    return [need for need in needs if (os.geteuid() != 0 if need == "root" else not shutil.which(need, path=path))]


def chosen(blocks: list[Block]) -> list[Block]:
    """Returns the blocks that are run, and prints which are not."""
    lacking = {block.heading: lacks for block in blocks if (lacks := missing([w for w in block.words if w != "no-run"]))}
    runs = []
    for block in blocks:
        if block.heading in lacking:
            print(f"left out: {block.name()} (needs {', '.join(lacking[block.heading])})")
        elif "no-run" not in block.words:
            runs.append(block)
        elif block.heading in NOT_RUN:
            print(f"not run: {block.name()}: {NOT_RUN[block.heading]}")
        else:
            raise SystemExit(f"blocks.py: {block.name()} is not run, and NOT_RUN does not say why")
    return runs


def run(blocks: list[Block], program: Path, work: Path) -> str:
    """Runs the blocks of a document, and returns what the shell itself has said."""
    place, bin_folder = work / "place", work / "bin"
    for folder in (place, bin_folder):
        folder.mkdir()
    for path in (place / "uucpair", place / "check", bin_folder / "uucpair", bin_folder / "stty"):
        path.write_text(STAND_IN)
        path.chmod(0o755)
    for number, block in enumerate(blocks):
        block.printed = work / f"{number}.printed"
    environment = {
        **os.environ, "LC_ALL": "C", "TMPDIR": str(place), "PLACE": str(place), "ROOT": str(ROOT), "PROGRAM": str(program),
        "PATH": f"{bin_folder}:{os.environ['PATH']}",
    }  # fmt: skip
    script = PRELUDE + "".join(map(step, blocks))
    with (work / "said").open("w") as said:
        shell = subprocess.Popen(
            ["bash", "-c", script], cwd=place, env=environment, stdin=subprocess.DEVNULL, stdout=said, stderr=said, start_new_session=True
        )
        try:
            shell.wait(SECONDS_MAX)
        except subprocess.TimeoutExpired:
            print(f"blocks.py: stopped after {SECONDS_MAX} seconds")
        end_group(shell)
    return (work / "said").read_text()


def end_group(shell: subprocess.Popen[bytes]) -> None:
    """Ends a shell, and what it has left running."""
    try:
        os.killpg(shell.pid, signal.SIGKILL)
    except ProcessLookupError:
        pass
    shell.wait()


def fault_of(block: Block) -> str:
    """Returns what is wrong with what a block has printed."""
    printed = block.printed.read_text(errors="replace") if block.printed.exists() else ""
    if not block.ended().exists():
        return "did not come to its end\n" + printed
    if block.shown is None or printed == block.shown:
        return ""
    return "\n".join(difflib.unified_diff(block.shown.splitlines(), printed.splitlines(), "shown", "printed", lineterm=""))


def check(path: str, program: Path) -> list[bool]:
    """Runs the blocks of a document, prints what is wrong, and returns whether each went well."""
    lines = (ROOT / path).read_text().splitlines()
    faults = [(place, "commands in no block of commands") for place in unfenced(path, lines)]
    blocks = chosen(blocks_of(path, lines))
    with tempfile.TemporaryDirectory(ignore_cleanup_errors=True) as folder:
        work = Path(folder)
        # Some blocks run as another user, below this folder.
        work.chmod(0o755)
        said = run(blocks, program, work)
        faults += [(block.name(), fault_of(block)) for block in blocks]
    for name, fault in faults:
        if fault:
            print(f"{name}: {fault}")
    if said and any(fault for _, fault in faults):
        print(said, end="")
    return [not fault for _, fault in faults]


def main() -> None:
    if len(NOT_RUN) > NOT_RUN_MAX:
        raise SystemExit(f"blocks.py: more than {NOT_RUN_MAX} blocks are not run")
    program = Path(sys.argv[1] if len(sys.argv) > 1 else ROOT / "crates/uucpair/out/uucpair").resolve()
    outcomes = [outcome for path in DOCUMENTS for outcome in check(path, program)]
    print(f"{sum(outcomes)} passed, {outcomes.count(False)} failed")
    sys.exit(0 if all(outcomes) else 1)


if __name__ == "__main__":
    main()
