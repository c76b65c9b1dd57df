"""The options of uucico."""
from __future__ import annotations

import getopt
from dataclasses import dataclass

from .faults import SiteError

LONG = {
    "--master": "-r1",
    "--slave": "-r0",
    "--system": "-s",
    "--force": "-f",
    "--port": "-p",
    "--prompt": "-l",
    "--loop": "-e",
    "--wait": "-w",
    "--nouuxqt": "-q",
    "--quiet": "-c",
    "--ifwork": "-C",
    "--nodetach": "-D",
    "--login": "-u",
    "--stdin": "-i",
    "--try-next": "-z",
    "--debug": "-x",
    "--config": "-I",
    "--version": "-v",
    "--help": "--help",
    "--check": "--check",
    "--grade": "-g",
}
WITH_VALUE = "gisSpuxXIr"
# The fields that an option sets to its value, and to true.
VALUES = {"-s": "system", "-S": "system", "-p": "port", "-I": "config", "-u": "login", "-x": "debug", "-X": "debug"}
FLAGS = {
    "-s": ("is_master",),
    "-S": ("is_master", "is_forced"),
    "-f": ("is_forced",),
    "-C": ("only_work",),
    "-c": ("is_quiet",),
    "-q": ("no_uuxqt",),
    "-D": ("stays",),
    "-l": ("asks",),
    "-e": ("asks", "loops"),
    "-w": ("asks", "loops", "is_master"),
    "-z": ("tries_next",),
}
TOOLS = ("-v", "--help", "--check")
REFUSED = {
    "-t": "-l asks for a login",
    "-i": "only TLI needs it, which Linux has not",
    "-g": "timegrade in the sys file says which jobs go",
}


@dataclass
class Options:
    system: str | None = None
    port: str | None = None
    config: str | None = None
    login: str | None = None
    debug: str | None = None
    is_master: bool = False
    is_forced: bool = False
    only_work: bool = False
    is_quiet: bool = False
    no_uuxqt: bool = False
    stays: bool = False
    asks: bool = False
    loops: bool = False
    tries_next: bool = False
    tool: str = ""


def options_of(words: list[str]) -> Options:
    """Returns the options of these words."""
    names = [f"{name[2:]}{'=' if short[1:2] in WITH_VALUE and short[2:] == '' else ''}" for name, short in LONG.items()]
    try:
        found, rest = getopt.gnu_getopt(words, "cCDefg:i:I:lp:qr:s:S:tu:wx:X:vz", names)
    except getopt.GetoptError as fault:
        raise SiteError("uucico", fault.msg, "see --help") from fault
    if rest:
        raise SiteError("uucico", f"{rest[0]} is not known here", "see --help")
    options = Options()
    for name, value in found:
        short = LONG.get(name, name)
        set_option(options, short[:2] if short[:2] != "--" else short, value or short[2:])
    return options


def set_option(options: Options, name: str, value: str) -> None:
    """Sets what an option says. One that can't be honoured is a fault."""
    if name in REFUSED:
        raise SiteError("uucico", f"option {name} can't be had", REFUSED[name])
    if name == "-r" and value not in ("0", "1"):
        raise SiteError("uucico", f"option -r {value} is not known here", "see --help")
    if name == "-r":
        options.is_master |= value == "1"
    if name in TOOLS:
        options.tool = name
    if name in VALUES:
        setattr(options, VALUES[name], value)
    for field in FLAGS.get(name, ()):
        setattr(options, field, True)
