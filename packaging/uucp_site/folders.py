"""Lists of folders of which files are given, or into which they are taken."""
from __future__ import annotations

import os
import re
from collections.abc import Iterable

from .configuration import Alternate

# The whole path of a folder that a session can list: no name in it begins with a dot or a tilde.
WHOLE = re.compile(r"(/(?![.~])[!-.0-~]+)+")


def rule_of(word: str, public: str) -> str | None:
    """Returns a word of a list as a session has it, or None where it opens nothing. ~ is the public folder, and also what is above
    that."""
    bar, named, public = "!" * word.startswith("!"), word.removeprefix("!"), os.path.normpath(public)
    home = named == "~" or named.startswith("~/")
    folder = os.path.normpath(public + named[1:] if home else os.path.expanduser(named))
    if f"{public}/".startswith(folder if folder == "/" else f"{folder}/"):
        return f"{bar}~"
    if folder.startswith(f"{public}/"):
        return f"{bar}~{folder.removeprefix(public)}"
    return f"{bar}{folder}" if WHOLE.fullmatch(folder) else None


def folder_words(alternate: Alternate, public: str) -> list[str]:
    """Returns the options for the lists that are not the whole public folder alone."""
    words = []
    for option, folders in (("--give", alternate.gives), ("--take", alternate.takes)):
        rules = [rule for word in folders if (rule := rule_of(word, public))]
        words += [] if rules == ["~"] else [option, " ".join(rules) or "none"]
    return words


def is_honoured(word: str, publics: Iterable[str]) -> bool:
    """Returns whether a session opens just what this word of a list names. One that is barred is never open."""
    folders = {os.path.normpath(public) for public in publics}
    whole = os.path.normpath(word) in {"~", *folders}
    return word.startswith("!") or whole or any(rule_of(word, public) not in (None, "~") for public in folders)
