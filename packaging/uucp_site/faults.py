"""Errors that say where, what, and what to do."""


class SiteError(Exception):
    """Something that can't be done. `where` is a file and line, a system, or a port."""

    def __init__(self, where: str, what: str, remedy: str = "") -> None:
        super().__init__(where, what, remedy)
        self.where, self.what, self.remedy = where, what, remedy

    def __str__(self) -> str:
        return f"{self.where}: {self.what}" + (f": {self.remedy}" if self.remedy else "")


class Unavailable(SiteError):
    """The port is locked, missing, or can't be opened."""


class Busy(Unavailable):
    """Another process has the lock of the port, or of the system."""


class DialFailed(SiteError):
    """Nobody answers at the other end of the line."""


class LoginFailed(SiteError):
    """The other end did not let us log in."""
