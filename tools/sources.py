"""What the crates have, read from their sources: for tools/docs_check.py and tools/contracts_index.py.

It reads the text as `rt fmt` lays it out, and is no parser of the language: functions with the names of their clauses,
types and traits, constants that are whole numbers, definitions in specs/, and must-fail edits.
"""
import functools
import os
import re

ROOT = os.path.dirname(os.path.dirname(os.path.abspath(__file__)))

OPENING = {"(": ")", "[": "]", "{": "}"}
HIDDEN = re.compile(r'//[^\n]*|/\*.*?\*/|b?"(?:\\.|[^"\\])*"|b?\'(?:\\.[^\']*|[^\'\\\n])\'', re.S)
FUNCTION = re.compile(r"^([ \t]*)(pub(?:\([^)]*\))? )?(?:const |unsafe )*fn (\w+)", re.M)
BLOCK = re.compile(r"^(pub(?:\([^)]*\))? )?(?:unsafe )?(impl|trait)\b", re.M)
TYPE = re.compile(r"^(pub(?:\([^)]*\))? )?(?:struct|enum|trait|type) (\w+)", re.M)
DEFINITION = re.compile(r"(?:(?:abbrev|record|data|pub|unfoldable|opaque) )+([^\s(){}]+)")
CONSTANT = re.compile(r"^\s*(?:pub(?:\([^)]*\))? )?const (\w+): \w+ = ([^;\"]+);", re.M)


def read(path, errors="strict"):
    with open(os.path.join(ROOT, path), encoding="utf-8", errors=errors) as file:
        return file.read()


@functools.lru_cache(None)
def files():
    """All files of the repository but those that a check or a build makes, as paths from its root."""
    found = []
    for folder, folders, names in os.walk(ROOT):
        folders[:] = sorted(name for name in folders if name not in (".git", "out", "__pycache__"))
        here = os.path.relpath(folder, ROOT)
        found += [os.path.normpath(os.path.join(here, name)) for name in sorted(names)]
    return tuple(found)


@functools.lru_cache(None)
def crates():
    """The crates, in the order of crates.txt."""
    lines = read("crates.txt").splitlines()
    return tuple(line.split(":")[0].strip() for line in lines if ":" in line and not line.startswith("#"))


def of_crate(crate, folder, ending):
    start = f"crates/{crate}/{folder}/"
    return [path for path in files() if path.startswith(start) and path.endswith(ending)]


def without_hidden(text):
    """The text with comments and literals blanked out, each place where it was."""
    return HIDDEN.sub(lambda found: re.sub(r"[^\n]", " ", found.group()), text)


def after(text, start):
    """The place after the bracket that closes the one at `start`."""
    depth = 0
    for place in range(start, len(text)):
        if text[place] in OPENING:
            depth += 1
        elif text[place] in OPENING.values():
            depth -= 1
            if depth == 0:
                return place + 1
    return len(text)


def first_sentence(comment):
    """The first sentence of a comment, in one line."""
    text = " ".join(comment.split("\n\n")[0].split())
    end = re.search(r"(?<![ .(][a-zA-Z])(?<!\.)[.:](?= [A-Z`])|\.$", text)
    return text[: end.start()] if end else text


class Function:
    def __init__(self, path, owner, trait, name, visible, contract):
        self.path, self.owner, self.trait, self.name, self.visible = path, owner, trait, name, visible
        self.clauses, self.contract = contract

    @property
    def full(self):
        return f"{self.owner}::{self.name}" if self.owner else self.name

    def clause_texts(self):
        """The kind, the name and the text of each clause."""
        heads = re.finditer(r"(ensures|requires)\*?\s*(\w*)\s*(?=\{)", self.contract)
        return [(*head.groups(), self.contract[head.end() : after(self.contract, head.end())]) for head in heads]

    @property
    def module(self):
        return os.path.splitext(os.path.basename(self.path))[0]


def signature_end(text, place):
    """The place of the first clause, body or semicolon after a function's name."""
    depth = 0
    clause = re.compile(r"(ensures|requires|where)\b")
    while place < len(text):
        sign = text[place]
        if depth == 0 and (sign in "{;" or (clause.match(text, place) and not text[place - 1].isalnum())):
            return place
        depth += (sign in "([") - (sign in ")]")
        place += 1
    return place


def clauses_at(text, place):
    """The clauses from `place` on: pairs of their kind and their name, "" where one has none; and their text."""
    start, found = place, []
    head = re.compile(r"\s*(ensures|requires)(\*?)\s*(\w*)\s*(?=\{)")
    bounds = re.compile(r"\s*where\b[^{;]*?(?=ensures|requires|\{|;)")
    while True:
        match = bounds.match(text, place)
        place = match.end() if match else place
        match = head.match(text, place)
        if not match:
            return found, text[start:place]
        found.append((match.group(1), match.group(3)))
        place = after(text, match.end())


def owners(text):
    """The impl and trait blocks: their start and end, the type, the trait, and whether the functions are public."""
    found = []
    for block in BLOCK.finditer(text):
        start = text.find("{", block.end())
        head = " ".join(text[block.end() : start].split())
        if head.startswith("<"):
            depth, place = 0, 0
            for place, sign in enumerate(head):
                depth += (sign == "<") - (sign == ">" and head[place - 1] != "-")
                if depth == 0:
                    break
            head = head[place + 1 :].strip()
        trait = None
        if block.group(2) == "impl" and " for " in head:
            trait, head = head.split(" for ", 1)
        name = re.match(r"&?(?:mut )?(?:\w+::)*(\w+)", head)
        found.append((block.start(), after(text, start), name.group(1) if name else head, trait, block.group(2)))
    return found


@functools.lru_cache(None)
def functions_of(crate):
    found = []
    for path in of_crate(crate, "src", ".rt"):
        text = without_hidden(read(path))
        blocks = owners(text)
        for match in FUNCTION.finditer(text):
            owner = trait = kind = None
            for start, end, name, of_trait, block in blocks:
                if start <= match.start() < end:
                    owner, trait, kind = name, of_trait, block
            visible = (match.group(2) or "").strip() == "pub" or (kind == "trait")
            contract = clauses_at(text, signature_end(text, match.end()))
            found.append(Function(path, owner, trait, match.group(3), visible, contract))
    return tuple(found)


@functools.lru_cache(None)
def types_of(crate):
    found = set()
    for path in of_crate(crate, "src", ".rt"):
        found |= {match.group(2) for match in TYPE.finditer(without_hidden(read(path)))}
    return found


@functools.lru_cache(None)
def surface_of(crate):
    """What lib.rt hands out: the names that it uses, and its public modules. None of a program, which has no lib.rt."""
    path = f"crates/{crate}/src/lib.rt"
    if path not in files():
        return None
    text = without_hidden(read(path))
    modules = set(re.findall(r"^pub mod (\w+);", text, re.M))
    names = set()
    for use in re.findall(r"^pub use ([^;]+);", text, re.M):
        if not use.startswith(("uug_", "std::")):
            names |= set(re.findall(r"\w+", use.split("{")[-1] if "{" in use else use.split("::")[-1]))
    return names, modules


def public_functions(crate):
    """The functions that another crate can call, with the name that it calls them by."""
    surface = surface_of(crate)
    found = []
    for function in functions_of(crate):
        if not function.visible:
            continue
        if surface is None:
            found.append((function.full, function))
            continue
        names, modules = surface
        if function.module in modules and not function.owner:
            found.append((f"{function.module}::{function.name}", function))
        elif (function.owner or function.name) in names or function.module in ("lib",) or (
            function.owner and function.module in modules
        ):
            found.append((function.full, function))
    return found


@functools.lru_cache(None)
def constants():
    """The whole numbers that constants of the sources are: by name a list of crate and value."""
    texts = {}
    for crate in crates():
        for path in of_crate(crate, "src", ".rt"):
            for name, value in CONSTANT.findall(without_hidden(read(path))):
                texts.setdefault(name, []).append((crate, " ".join(value.split())))

    def value_of(text, crate, depth=0):
        def number(match):
            word = match.group()
            most = re.fullmatch(r"u(8|16|32|64)::MAX", word)
            if most:
                return str(2 ** int(most.group(1)) - 1)
            if word[0].isdigit():
                return str(int(re.sub(r"_|[ui](8|16|32|64|128|size)$", "", word), 0))
            known = texts.get(word.split("::")[-1], [])
            known = [entry for entry in known if entry[0] == crate] or known
            if depth > 8 or not known:
                raise ValueError(word)
            return str(value_of(known[0][1], known[0][0], depth + 1))

        text = re.sub(r" as \w+", "", text)
        text = re.sub(r"[A-Za-z_][\w:]*|\d\w*", number, text)
        if not re.fullmatch(r"[\d +\-*/()<]+", text):
            raise ValueError(text)
        return int(eval(text.replace("/", "//"), {"__builtins__": {}}))

    found = {}
    for name, entries in texts.items():
        for crate, text in entries:
            try:
                found.setdefault(name, []).append((crate, value_of(text, crate)))
            except (ValueError, SyntaxError, TypeError, NameError):
                pass
    return found


def definitions_in_order(path):
    """The names that a file of specs/ defines, in its order: at the margin, after words like `abbrev`."""
    found = []
    for line in read(path).splitlines():
        match = DEFINITION.match(line)
        if match and match.group(1) not in ("use", "mod"):
            found.append(match.group(1))
    return found


@functools.lru_cache(None)
def definitions_in(path):
    """The same, with the fields and variants of its records and types, and names that it hands on."""
    found = set(definitions_in_order(path))
    for line in read(path).splitlines():
        inside = re.match(r"\s+(?:pub )?([^\s(){}]+) :", line)
        if inside:
            found.add(inside.group(1))
        if line.startswith("pub use"):
            found |= set(re.findall(r"[^\s(){},;.]+", line))
    return found


def spec_files(crate):
    """The files of specs/ but those that only name modules, as Lib.antt and that of a folder."""
    paths = of_crate(crate, "specs", ".antt")
    return [path for path in paths if definitions_in_order(path) or "pub mod" not in read(path)]


def head_of(path):
    """The comment with which a file of specs/ begins."""
    lines = []
    for line in read(path).splitlines():
        if not line.startswith("--"):
            break
        lines.append(line[2:].strip())
    return "\n".join(lines)


def edits_of(crate):
    names = of_crate(crate, "must-fail", ".edit")
    return [os.path.basename(path)[: -len(".edit")] for path in names]
