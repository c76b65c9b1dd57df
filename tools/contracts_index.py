#!/usr/bin/env python3
"""Prints on which definitions the contracts of public functions rest.

    tools/contracts_index.py believed       for each main promise: how many definitions, lines and files (tools/believed.py)
    tools/contracts_index.py definitions    each file of specs/, with the first sentence of the comment that it begins with,
                                            and those of its definitions that contracts of public functions name
"""
import re
import sys

sys.dont_write_bytecode = True

import believed
import sources

# The clauses of `decode` but `exact`.
DECODE = ("found", "within", "only", "short", "broken")

# Main promises: a function, and its clauses that are meant (none: all), and those that are left out.
PROMISES = (
    ("run", ("front",), ()),
    ("run", ("window",), ()),
    ("run", ("earlier",), ()),
    ("run", ("stored",), ()),
    ("run", ("front", "window", "earlier", "stored"), ()),
    ("decode", DECODE, ()),
    ("decode", ("exact",), ()),
    ("decode", (*DECODE, "exact"), ()),
    ("scan_stream", (), ()),
    ("play_stream", ("script",), ()),
    ("play_stream", (), ()),
    ("Node::arrive", (), ("made", "made_so_far")),
    ("promises::two_ends_keep_their_promises", (), ()),
    ("promises::the_file_of_a_job_that_is_gone_was_kept", (), ()),
    ("run_both", ("gone_jobs",), ()),
)

# A file of specs/ may say where a rule is from.
ORIGIN = re.compile(r"\s*\([^()]*(?:Taylor UUCP manual|project's profile)[^()]*\)")

IMPORT = re.compile(r"ghost use Rattle\.(\w+)\.specs\.([\w.]+?)\.\{([^}]*)\}")


def quoted(names):
    return ", ".join(f"`{name}`" for name in names)


def public_function(full):
    """The one public function of this name in a library."""
    libraries = [crate for crate in sources.crates() if sources.surface_of(crate)]
    found = [function for crate in libraries for name, function in sources.public_functions(crate) if name == full]
    if len(found) != 1:
        sys.exit(f"tools/contracts_index.py: {len(found)} public functions are called {full}")
    return found[0]


def clauses_meant(function, clauses, without):
    """The names of the clauses of a promise."""
    known = {name for kind, name in function.clauses if kind == "ensures"}
    unknown = {*clauses, *without} - known
    if unknown:
        sys.exit(f"tools/contracts_index.py: {function.full} has no clause {', '.join(sorted(unknown))}")
    return set(clauses) or known - set(without)


def print_believed():
    print("| Promise | Definitions | Lines | Of them types and constants of the program | Files |\n|---|---|---|---|---|")
    for full, clauses, without in PROMISES:
        function = public_function(full)
        things = believed.rests_on(function, clauses_meant(function, clauses, without))
        count, lines, program, files = believed.counted(things)
        words = quoted(clauses) or "all clauses" + (f" but {quoted(without)}" if without else "")
        print(f"| `{full}`: {words} | {count} | {lines:,} | {program:,} | {files} |")


def named_by_clauses():
    """The definitions that contracts of public functions name: by file of specs/ a set of names."""
    found = {}
    for crate in sources.crates():
        for _, function in sources.public_functions(crate):
            words = set(re.findall(r"[^\s(){}\[\],;.]+", function.contract))
            for home, module, names in IMPORT.findall(sources.read(function.path)):
                path = f"crates/{home}/specs/{module.replace('.', '/')}.antt"
                found.setdefault(path, set()).update({name.strip() for name in names.split(",")} & words)
    return found


def print_definitions():
    named = named_by_clauses()
    for crate in filter(sources.spec_files, sources.crates()):
        print(f"\n`{crate}/specs`:\n\n| File | What it defines | Named by clauses |\n|---|---|---|")
        for path in sources.spec_files(crate):
            says = sources.first_sentence(ORIGIN.sub("", " ".join(sources.head_of(path).split()))).replace("|", "\\|")
            words = [word for word in sources.definitions_in_order(path) if word in named.get(path, ())]
            print(f"| `{path.split('/specs/')[1]}` | {says} | {quoted(words)} |")


def main():
    tasks = {"believed": print_believed, "definitions": print_definitions}
    if len(sys.argv) != 2 or sys.argv[1] not in tasks:
        sys.exit(__doc__)
    tasks[sys.argv[1]]()


if __name__ == "__main__":
    main()
