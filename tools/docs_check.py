#!/usr/bin/env python3
"""Compares what the documents say with the sources: tools/docs_check.py.

Exits 1, with a line for each thing that is not there. In README.md, CHANGELOG.md, CONTRIBUTING.md, docs/*.md and
the man pages docs/*.[158]:

    - a path in backticks is there, as it is written or as the end of a path;
    - a crate is one of crates.txt, and ARCHITECTURE has a row for each;
    - a word of code in backticks (with _, ::, or a capital inside) is somewhere in the sources;
    - an option in backticks (--x) is one of the command line, or of a script of the repository;
    - a link leads to a document and a heading that are there; so does a document's name with a heading in quotes;
    - a block of ```rust is in one of the sources, but for its margin;
    - an edit is there, and a number of wrong bodies is the number of edits.

Of single documents:

    - in PROOFS, a cell below "Contract" has functions, as `CRATE::FUNCTION`, and after a colon clauses of theirs. What is in
      brackets is in the sources. The clauses rest on a definition of each file below "Rests on";
    - PERFORMANCE has the table that bench/all.py makes of bench/results;
    - OPERATING's table of limits has a row for each of LIMITS, with the values of its constants, which a law `limits` names.
      In PROTOCOL a sentence has the value of each constant that it names in brackets.

Of the sources: at most CLAUSES_MAX comments of items (`///`, `//!`) begin with a noun clause ("What ..", "Whether ..").

It can't see whether a promise in words is what its clauses say, nor check names that are one plain word, numbers without a
constant beside them, or what was measured.
"""
import functools
import glob
import os
import re
import subprocess
import sys

sys.dont_write_bytecode = True

import believed
import sources

ARCHITECTURE = "docs/ARCHITECTURE.md"
OPERATING = "docs/OPERATING.md"
PERFORMANCE = "docs/PERFORMANCE.md"
PROOFS = "docs/PROOFS.md"
PROTOCOL = "docs/PROTOCOL.md"
MAN_PAGES = (".1", ".5", ".8")
CODE = re.compile(r"`([^`\n]+)`")
CLAUSE = re.compile(r"\s*//[/!] (What|Whether|How|Who|Whose|Which|Where|When|Why|So many|Of|As|Behind|Nothing|None)\b")
CLAUSES_MAX = 20
OPTION = re.compile(r"(?<![\w-])--[a-z][a-z-]*")
ENDINGS = tuple(".rt .antt .edit .sh .py .c .md .script .report .ladder .bytes .listing .bash".split())
FOLDERS = tuple("crates src specs proofs must-fail tests tools interop bench examples docs packaging .ci".split())
WORDS = "zero one two three four five six seven eight nine ten eleven twelve thirteen fourteen fifteen sixteen".split()
ORDINALS = "zeroth first second third fourth fifth sixth seventh eighth ninth tenth".split()

# The constants of each of OPERATING's limits.
LIMITS = {
    "a packet size": "SIZE_MIN MESSAGE_MAX",
    "a window": "WINDOW_MAX",
    "timeouts in a row": "TIMEOUTS_MAX",
    "a name": "NAME_MAX",
    "a command": "COMMAND_MAX",
    "a text of the greeting": "HAIL_MAX",
    "a file": "FILE_LIMIT_MAX FILE_MAX",
    "pending jobs": "JOBS_MAX",
    "a C. file": "COMMANDS_MAX",
    "a line of `jobs`": "LINE_MAX",
    "files in `send` beside those of jobs": "OTHERS_MAX",
    "`--most`": "MOST_MIN",
    "`--keep-partials`": "KEEP_MAX",
    "`jobs`, `number`": "TEXT_MAX",
    "a greeting in which bytes arrive": "GREETING_SECONDS GREETING_TIMERS",
    "bytes without progress": "SESSION_TIMERS",
    "`--timeout`": "SECONDS_MAX",
    "`--speed`": "SPEED_MIN SPEED_MAX",
    "`--sessions`": "SESSIONS_MAX",
    "`--wait`": "WAIT_MAX",
}
# No law names these.
WITHOUT_LAW = {"COMMANDS_MAX"}

# Words of the standard library, and options of other programs, that documents name.
OF_OTHERS = {"std", "make_contiguous", "--inetd"}
OF_RT = {"--only", "--allow-holes", "--fix-imports", "--test", "--jobs", "--version", "--help", "--start", "--anew"}

complaints = []


def complain(path, line, text):
    complaints.append(f"{path}:{line}: {text}")


def documents():
    docs = [path for path in sources.files() if path.startswith("docs/") and path.endswith((".md", *MAN_PAGES))]
    return ["README.md", "CHANGELOG.md", "CONTRIBUTING.md", *docs]


def from_man(line):
    """A line of a man page, whose options, paths and literals count as code."""
    line = re.sub(r"\bFl \\-([a-z][a-z\\-]*)", r"`--\1`", line).replace("\\-", "-")
    return re.sub(r"\b(?:Pa|Ql|Nm|Li) (\S+)", r"`\1`", line)


@functools.lru_cache(None)
def lines_of(path):
    """The lines of a document with their numbers."""
    lines = sources.read(path).split("\n")
    return list(enumerate(map(from_man, lines) if path.endswith(MAN_PAGES) else lines, 1))


def codes_of(path):
    """What is in backticks, with its line's number."""
    return [(number, code) for number, line in lines_of(path) for code in CODE.findall(line)]


def rows_of(path):
    """The rows of the tables of a document: the number of the line, and its cells by the head of the column."""
    found, heads = [], []
    for number, line in lines_of(path):
        cells = [cell.strip() for cell in re.split(r"(?<!\\)\|", line.strip().strip("|"))]
        if not line.startswith("|"):
            heads = []
        elif not heads:
            heads = cells
        elif not line.startswith("|-"):
            found.append((number, dict(zip(heads, cells))))
    return found


# Paths.


def is_path(word):
    if re.search(r"[ $<>{}()*=\"']|\.\.", word) or word.startswith(("/", "~", "-")):
        return False
    if word.endswith(ENDINGS):
        return re.fullmatch(r"[\w./-]+", word) is not None and not word.startswith(".")
    return "/" in word and word.split("/")[0] in FOLDERS + sources.crates()


@functools.lru_cache(None)
def parts_of_paths():
    """All that a path can be cut to, at its front and at its end."""
    paths = [path.split("/") for path in sources.files()]
    return {"/".join(path[i:j]) for path in paths for i in range(len(path)) for j in range(i + 1, len(path) + 1)}


def is_there(word):
    """Whether a path is there, also one of a crate and the end of a path in it."""
    crate, _, rest = word.rstrip("/").partition("/")
    front = f"crates/{crate}/"
    in_crate = rest and any(path.startswith(front) and path.endswith("/" + rest) for path in sources.files())
    return word.rstrip("/") in parts_of_paths() or in_crate


def paths_in(line):
    """The paths in backticks, also those in commands; not of what a check or a build makes."""
    words = CODE.findall(line)
    words += [part for word in words if " " in word for part in word.split() if part.startswith(FOLDERS) and "/" in part]
    return [word for word in words if is_path(word) and "/out" not in word and not word.startswith("out")]


def check_paths(path):
    for number, line in lines_of(path):
        for word in paths_in(line):
            if not is_there(word):
                complain(path, number, f"there is no {word}")


# Crates.


def check_crates(path):
    for number, line in lines_of(path):
        for crate in set(re.findall(r"\buug_[a-z_]+\b", line)) - set(sources.crates()):
            complain(path, number, f"there is no crate {crate}")


def check_table_of_crates():
    rows = {name for _, row in rows_of(ARCHITECTURE) for name in CODE.findall(row.get("Crate", ""))}
    for crate in sources.crates():
        if crate not in rows:
            complain(ARCHITECTURE, 1, f"has no row for {crate}")


# Links.


@functools.lru_cache(None)
def headings_of(path):
    return re.findall(r"^#+ (.*)$", sources.read(path), re.M)


def anchor(heading):
    return re.sub(r"[^\w -]", "", heading.lower()).replace(" ", "-")


def leads_nowhere(path, target):
    file, _, place = target.partition("#")
    home = os.path.normpath(os.path.join(os.path.dirname(path), file)) if file else path
    return home not in sources.files() or place and place not in map(anchor, headings_of(home))


def check_links(path):
    for number, line in lines_of(path):
        for target in re.findall(r"\]\(([^)\s]*)\)", line):
            if not target.startswith(("http:", "https:")) and leads_nowhere(path, target):
                complain(path, number, f"a link leads nowhere: {target}")
        for home, heading in re.findall(r"`(docs/[A-Z]+\.md|README\.md|CONTRIBUTING\.md)`,? \(?\"([^\"]+)\"", line):
            if home in sources.files() and not any(heading.rstrip(",.") in known for known in headings_of(home)):
                complain(path, number, f"{home} has no heading \"{heading}\"")


# Code.


def without_margin(text):
    return "\n" + "\n".join(line.strip() for line in text.strip().split("\n")) + "\n"


@functools.lru_cache(None)
def all_code():
    paths = [path for crate in sources.crates() for path in sources.of_crate(crate, "src", ".rt")]
    return [without_margin(sources.read(path)) for path in paths]


def check_code(path):
    text = sources.read(path)
    for block in re.finditer(r"^```rust\n(.*?)^```$", text, re.M | re.S):
        wanted = without_margin(block.group(1))
        if not any(wanted in code for code in all_code()):
            complain(path, text.count("\n", 0, block.start()) + 1, "no source has this code")


@functools.lru_cache(None)
def all_words():
    words = set(OF_OTHERS)
    for path in sources.files():
        words |= set(re.findall(r"\w+", path))
        if not path.startswith("docs/") and path not in ("README.md", "CONTRIBUTING.md"):
            words |= set(re.findall(r"\w+", sources.read(path, errors="ignore")))
    return words


def check_words(path):
    for number, code in codes_of(path):
        parts = re.findall(r"\w+", code)
        if not re.fullmatch(r"&?[A-Za-z_]\w*(::\w+)*(\(\))?", code):
            continue
        if len(parts) == 1 and not re.search(r"_|[a-z][A-Z]", code):
            continue
        for part in parts:
            if part not in all_words() and not part.startswith("uug_"):
                complain(path, number, f"no source has the word {part}, of `{code}`")


@functools.lru_cache(None)
def known_options():
    known = OF_RT | OF_OTHERS
    for path in sources.files():
        if path.startswith(("tests/", "tools/", "interop/", "bench/", "crates/uucpair/src/")) or path == "uucpair":
            known |= set(OPTION.findall(sources.read(path, errors="ignore")))
        if path.startswith(("crates/uucpair/src/", "crates/uug_cli/src/")):
            names = re.findall(r"\"([a-z][a-z_-]*)\"", sources.read(path))
            known |= {"--" + name.replace("_", "-") for name in names}
    return known


def check_options(path):
    for number, code in codes_of(path):
        for option in OPTION.findall(code):
            if option not in known_options():
                complain(path, number, f"there is no option {option}")


# Promises.

# What a cell of PROOFS names: functions, or what a trait asks of a type; after a colon their clauses.
TOLD = re.compile(r"((?:`[\w:]+`(?:, )?)+)(, as an? `\w+`[^:]*)?(?:: (.*))?$", re.S)


def of_type(crate, name):
    """The functions of a type, and of the traits that it has."""
    own = [f for f in sources.functions_of(crate) if f.owner == name]
    traits = {f.trait.split("<")[0] for f in own if f.trait} - {name}
    return own + [f for other in sources.crates() for f in sources.functions_of(other) if f.owner in traits]


def functions_named(word):
    """The functions that a word means: CRATE::FUNCTION, with a type or a module between them; or all of CRATE::TYPE."""
    crate, _, rest = word.partition("::")
    *owner, name = rest.split("::")
    if crate not in sources.crates():
        return []
    fits = [f for f in sources.functions_of(crate) if f.name == name]
    if owner:
        return [f for f in fits if owner[-1] == (f.owner or f.module)]
    return [f for f in fits if not f.owner] or of_type(crate, name)


@functools.lru_cache(None)
def known_beside():
    """What brackets in a cell of contracts may name: definitions, their files and fields, types, members of traits."""
    known = set()
    for crate in sources.crates():
        known |= sources.types_of(crate)
        for path in sources.spec_files(crate):
            known |= sources.definitions_in(path) | {os.path.basename(path)}
        for path in sources.of_crate(crate, "src", ".rt"):
            known |= set(re.findall(r"^\s+ghost (\w+):", sources.read(path), re.M))
        for function in sources.functions_of(crate):
            known |= {function.name} | {name for _, name in function.clauses}
    return known


def defined_in(crates, names):
    """The definitions of these names in specs/ of these crates."""
    paths = [path for crate in crates & set(sources.crates()) for path in sources.spec_files(crate)]
    return {("definition", path, name) for path in paths for name in names if name in believed.definitions_of(path)[0]}


def check_told(number, told):
    """One part of a cell of contracts: functions, and after a colon their clauses. Gives what these rest on."""
    inside = CODE.findall(" ".join(re.findall(r"\([^)]*\)", told)))
    for word in set(inside) - known_beside():
        complain(PROOFS, number, f"no source has {word}")
    match = TOLD.match(re.sub(r" ?\([^)]*\)", "", told))
    if not match:
        complain(PROOFS, number, f"this names no function: {told}")
        return set()
    words, named = CODE.findall(match.group(1)), set(CODE.findall(match.group(3) or ""))
    for word in words:
        if not functions_named(word):
            complain(PROOFS, number, f"there is no function or type {word}")
    functions = [function for word in words for function in functions_named(word)]
    clauses = {clause for function in functions for clause in function.clauses}
    for word in sorted(named - {name for _, name in clauses}):
        complain(PROOFS, number, f"no contract of {match.group(1)} has a clause {word}")
    if functions and not named and not match.group(2) and ("ensures", "") not in clauses:
        complain(PROOFS, number, f"no clause of {match.group(1)} is without a name")
    things = believed.reached_from(defined_in({word.split("::")[0] for word in words}, inside))
    return things.union(*(believed.rests_on(f, named or {""}, ("ensures", "requires")) for f in functions))


def check_proofs():
    for number, row in rows_of(PROOFS):
        if "Contract" not in row:
            continue
        things = set().union(*(check_told(number, told) for told in row["Contract"].split("; ")))
        homes = {path for kind, path, _ in things if kind == "definition"}
        for file in CODE.findall(row.get("Rests on", "")):
            if file.endswith(".antt") and not any(home.endswith("/" + file) for home in homes):
                complain(PROOFS, number, f"the clauses of this row do not rest on {file}")


# Limits.


def numbers_in(text):
    found = {int(number.replace(",", "")) for number in re.findall(r"\d[\d,]*\d|\d", text)}
    for some in (WORDS, ORDINALS):
        found |= {value for value, word in enumerate(some) if re.search(rf"\b{word}\b", text, re.I)}
    return found


def check_value(path, number, name, crate, text):
    known = sources.constants().get(name, ())
    values = {value for home, value in known if home == crate or not crate and not home.startswith("uug_test_")}
    if not values:
        complain(path, number, f"there is no constant {name}{' of ' + crate if crate else ''}")
    elif len(values) > 1:
        complain(path, number, f"{name} is the constant of several crates: say of which")
    elif not values & numbers_in(text):
        complain(path, number, f"{name} is {values.pop():,}, and the text does not say so")


@functools.lru_cache(None)
def pinned():
    """The constants that laws of limits name."""
    laws = [f for crate in sources.crates() for f in sources.functions_of(crate) if f.name == "limits"]
    return {name for law in laws for name in re.findall(r"\b[A-Z][A-Z_]+\b", law.contract)}


def check_limits():
    limits = [(number, row) for number, row in rows_of(OPERATING) if "Limit" in row]
    for what in LIMITS.keys() ^ {row["What"] for _, row in limits}:
        complain(OPERATING, 0, f"the limits of this table and of tools/docs_check.py are not the same: {what}")
    for number, row in limits:
        for name in LIMITS.get(row["What"], "").split():
            check_value(OPERATING, number, name, None, " ".join(row.values()))
            if name not in WITHOUT_LAW | pinned():
                complain(OPERATING, number, f"{name} is in no law of limits")
    for number, line in lines_of(PROTOCOL):
        for sentence in re.split(r"(?<=[.;])\s", line):
            brackets = " ".join(re.findall(r"\([^()]*\)", sentence))
            for name in re.findall(r"`([A-Z][A-Z_]+_(?:MAX|MIN|LIMIT|SIZE))`", brackets):
                check_value(PROTOCOL, number, name, None, sentence)


# Figures.


def check_figures():
    made = subprocess.run([sys.executable, "bench/all.py", "--table"], capture_output=True, text=True, check=True).stdout.splitlines()
    here = dict(reversed([(line, number) for number, line in lines_of(PERFORMANCE)]))
    for line in made:
        if line not in here:
            complain(PERFORMANCE, here[made[0]] if made[0] in here else 1, f"the table of bench/results has: {line}")
    last = here.get(made[-1], 0)
    for number, line in lines_of(PERFORMANCE):
        if here.get(made[0], last) < number < last and line not in made:
            complain(PERFORMANCE, number, "bench/results has no such row")


# Wrong bodies.

EDIT = re.compile(r"(?:.*must-fail/)?((?:specs\.)?[a-z_]+\.[a-z0-9]+_[a-z_0-9]+)(?:\.edit)?")
COUNT = re.compile(r"(?<!t most )\b(\d+) (?:wrong bodies|wrong programs|edits)\b")


def check_edits(path):
    names = {name for crate in sources.crates() for name in sources.edits_of(crate)}
    count = sum(len(sources.edits_of(crate)) for crate in sources.crates())
    files = {name.split(".")[0] for name in names}
    for number, code in codes_of(path):
        edit = EDIT.fullmatch(code)
        if edit and edit.group(1).split(".")[0] in files and edit.group(1) not in names:
            complain(path, number, f"there is no edit {edit.group(1)}")
    for number, line in lines_of(path):
        for told in COUNT.findall(line):
            if int(told) != count:
                complain(path, number, f"there are {count} wrong bodies, not {told}")


def check_comments():
    """Complains of the comments of items that begin with a noun clause, where there are too many."""
    found = []
    for path in sorted(glob.glob("crates/*/src/**/*.rt", recursive=True)):
        before = ""
        for number, line in lines_of(path):
            if CLAUSE.match(line) and not before.lstrip().startswith(("///", "//!")):
                found.append((path, number, "begins with a noun clause"))
            before = line
    if len(found) > CLAUSES_MAX:
        for one in found:
            complain(*one)


def main():
    checks = (check_paths, check_crates, check_links, check_code, check_words, check_options, check_edits)
    for path in documents():
        for check in checks:
            check(path)
    check_table_of_crates()
    check_proofs()
    check_limits()
    check_figures()
    check_comments()
    print("\n".join(complaints), end="\n" if complaints else "")
    sys.exit(1 if complaints else 0)


if __name__ == "__main__":
    main()
