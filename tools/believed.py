"""On which definitions a clause rests: for tools/contracts_index.py and tools/docs_check.py.

From the words of the clause by the imports of its file to definitions of specs/, by the words of these and the
imports of their files to others, and so on to the last. A type or a constant of the program that one of them names
counts too, with its own lines, and leads no further. What is of other libraries is left out.
"""
import functools
import re

import sources

IMPORT = re.compile(r"use Rattle\.(\w+)\.specs\.([\w.]+?)(?:\.\{([^}]*)\}| as (\w+))")
WORD = re.compile(r"[^\s(){}\[\],;.λ]+")
PART = re.compile(r"\b(\w+)\.(\w+)")
INSIDE = re.compile(r"\s+([^\s(){}]+) :")


@functools.lru_cache(None)
def definitions_of(path):
    """The lines of each definition of a file, without comments; and the definition of each variant in them."""
    lines, variants, name = {}, {}, None
    for line in sources.read(path).splitlines():
        begun = sources.DEFINITION.match(line)
        if begun and begun.group(1) not in ("use", "mod"):
            name = begun.group(1)
            lines[name] = []
        elif line.startswith(("use ", "pub use ")):
            name = None
        if name and line.strip() and not line.strip().startswith("--"):
            lines[name].append(line)
            variant = INSIDE.match(line)
            if variant and variant.group(1) != "pub":
                variants[variant.group(1)] = name
    return lines, variants


def imports_in(text):
    """What a text imports from specs/ of crates: by name, and by the name of a module."""
    names, modules = {}, {}
    for home, module, some, alias in IMPORT.findall(text):
        if home not in sources.crates():
            continue
        if alias:
            modules[alias] = (home, module)
        for name in filter(None, (part.strip() for part in some.split(","))):
            original, _, local = name.partition(" as ")
            names[local or original] = (home, module, original)
    return names, modules


@functools.lru_cache(None)
def of_program(crate, kind, name):
    """The path and the lines of a type or a constant of a crate."""
    head = rf"^(?:pub(?:\([^)]*\))? )?(?:{kind}) {name}\b"
    for path in sources.of_crate(crate, "src", ".rt"):
        text = sources.without_hidden(sources.read(path))
        match = re.search(head, text, re.M)
        if match:
            end = re.compile(r"[{;]").search(text, match.end()).start()
            lines = text[match.start() : sources.after(text, end) if text[end] == "{" else end + 1].splitlines()
            return path, [line for line in lines if line.strip() and not line.strip().startswith("#")]
    return None


def meant(home, module, name):
    """What an imported name means: a definition by its file, or a type or a constant by its crate."""
    steps = module.split(".")
    if steps[0] == "declared":
        kind = "const" if steps[-1] == "TheConstants" else "struct|enum|trait"
        own = {"TheConstants": name, "TheVariants": steps[-2]}.get(steps[-1], steps[-1])
        return (kind, home, own) if of_program(home, kind, own) else None
    path = f"crates/{home}/specs/{'/'.join(steps)}.antt"
    if path not in sources.files():
        return None
    lines, variants = definitions_of(path)
    if name in lines or name in variants:
        return ("definition", path, name if name in lines else variants[name])
    handed_on, _ = imports_in("\n".join(re.findall(r"^pub use .*$", sources.read(path), re.M)))
    return meant(*handed_on[name]) if name in handed_on else None


def named_in(lines, file):
    """What some lines of a file name."""
    names, modules = imports_in(sources.read(file))
    own, variants = definitions_of(file) if file.endswith(".antt") else ({}, {})
    found = set()
    for line in lines:
        found |= {meant(*modules[module], name) for module, name in PART.findall(line) if module in modules}
        for word in WORD.findall(line):
            if word in own or word in variants:
                found.add(("definition", file, word if word in own else variants[word]))
            elif word in names:
                found.add(meant(*names[word]))
    return found - {None}


def lines_and_file(thing):
    kind, home, name = thing
    if kind == "definition":
        return definitions_of(home)[0][name], home
    path, lines = of_program(home, kind, name)
    return lines, path


def rests_on(function, clauses, kinds=("ensures",)):
    """All that these clauses of a function rest on."""
    texts = [text for kind, name, text in function.clause_texts() if kind in kinds and name in clauses]
    return reached_from(named_in(texts, function.path))


def reached_from(things):
    """These things, and all that they name."""
    seen, left = set(), set(things)
    while left:
        thing = left.pop()
        seen.add(thing)
        if thing[0] == "definition":
            left |= named_in(lines_and_file(thing)[0], thing[1]) - seen
    return seen


def counted(things):
    """How many there are, their lines, how many of these are the program's types and constants, and their files."""
    parts = [(thing[0], *lines_and_file(thing)) for thing in things]
    lines = sum(len(some) for _, some, _ in parts)
    program = sum(len(some) for kind, some, _ in parts if kind != "definition")
    return len(parts), lines, program, len({file for _, _, file in parts})
