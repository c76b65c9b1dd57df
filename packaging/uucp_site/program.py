"""What is run for the options of uucico."""
from __future__ import annotations

import contextlib
import os
import pwd
import sys
import syslog
from pathlib import Path

from . import paths
from .faults import SiteError
from .options import Options, options_of

HELP = """\
uucico -r1 [-s SYSTEM | -S SYSTEM] [-fCcqDzwe] [-p PORT] [-x DEBUG] [-I CONFIG]   calls
uucico [-le] [-p PORT] [-u LOGIN] [-q] [-I CONFIG]   answers; without -p the line is standard input and output
uucico --check [-I CONFIG]   says what of the configuration is honoured, what is ignored, and what stops a call
The options are those of Taylor UUCP's uucico. What it can't honour, as -i, -g and -t, it says."""
VERSION = "uucico of uucpair, in the place of Taylor UUCP's"


def complain(text: object) -> None:
    """Says what went wrong, also where standard error is a line and closed."""
    with contextlib.suppress(OSError, ValueError):
        print(f"uucico: {text}", file=sys.stderr, flush=True)
    syslog.openlog("uucico", syslog.LOG_PID, syslog.LOG_UUCP)
    syslog.syslog(syslog.LOG_ERR, str(text).encode(errors="replace").decode())


def keep_errors(path: Path) -> None:
    """Has what is said from now on go to a file, or nowhere."""
    try:
        file = os.open(path, os.O_WRONLY | os.O_APPEND | os.O_CREAT, 0o640)
    except OSError:
        file = os.open(os.devnull, os.O_WRONLY)
    os.dup2(file, 2)
    if file != 2:
        os.close(file)


def run(words: list[str]) -> int:
    """Runs what these words ask for. Returns the status: 0 where all went well."""
    try:
        become_uucp()
        return run_options(options_of(words))
    except SiteError as fault:
        complain(fault)
    except ImportError as fault:
        complain(f"{fault.name} is missing: install Debian's packages python3-serial and python3-pexpect")
    return 1


def run_options(options: Options) -> int:
    if options.tool == "--check":
        from .check import check

        return check(options.config)
    if options.tool:
        print({"-v": VERSION, "--help": HELP}[options.tool])
        return 0
    options.login = forced_login(options.login, os.getuid())
    if options.is_master:
        return call(options)
    from .answers import answer_at
    from .configuration import read_site

    keep_errors(Path(paths.ERRORS))
    site = read_site(options.config)
    keep_errors(site.debug)
    return 0 if answer_at(site, options) else 1


def forced_login(login: str | None, user: int) -> str | None:
    """Returns the login of -u, which is ignored where the user is neither root nor uucp, as Taylor UUCP's uucico does."""
    return login if user in (0, owner_of_package()) else None


def owner_of_package() -> int:
    """Returns the number of the user uucp, whose the package's programs are."""
    try:
        return os.stat(paths.UUXQT).st_uid
    except OSError:
        return 0


def become_uucp() -> None:
    """Has root go on as the user uucp, as a set-uid uucico does: what root wrote, uux and uucp could not write again."""
    owner = owner_of_package()
    if os.geteuid() != 0 or owner == 0:
        return
    try:
        user = pwd.getpwuid(owner)
        os.initgroups(user.pw_name, user.pw_gid)
        os.setgid(user.pw_gid)
        os.setuid(owner)
    except (KeyError, OSError) as fault:
        raise SiteError("uucico", "root can't become uucp here", "run it as that user") from fault


def call(options: Options) -> int:
    """Calls one system, or all that have work. Unless it is told to stay it goes on by itself."""
    from .answers import answer_at
    from .calls import Caller, call_all
    from .configuration import read_site

    site = read_site(options.config, options.system)
    if any(port.kind == "stdin" for system in site.systems.values() for one in system.alternates for port in one.ports):
        options.stays = True
    if not options.stays and os.fork():
        return 0
    if not options.stays:
        os.setsid()
        null = os.open(os.devnull, os.O_RDWR)
        os.dup2(null, 0)
        os.dup2(null, 1)
    if not (options.stays and os.isatty(2)):
        keep_errors(site.debug)
    if options.system:
        done = Caller(site, next(iter(site.systems.values())), options).call()
    else:
        done = call_all(site, options)
    if options.loops:
        done = answer_at(read_site(options.config), options)
    return 0 if done else 1
