"""Why a server doesn't serve a kept file, or serves it no longer, in sentences that say what to do."""
import re
import shlex
from typing import Any, Optional

from .errors import ServerFailed

DISK_FAULT, DAMAGED, TOO_MANY_ROWS = 8, 9, 10
"""The server's statuses for it."""

_IN_USE = "in use by another server"
_UNPROVED = "nothing is proved "
_DAMAGED = re.compile(r"^damaged: (\d+)$", re.M)
_ROWS = re.compile(r"^too many rows: commit (\d+)$", re.M)
_DISK = re.compile(r"(?:^(.*)\n)?^disk fault$", re.M)


class KeptFileError(ServerFailed):
    """The kept file can't be served, or no longer. `status` is the server's: 8 where another server has it or the disk failed, 9 where it is damaged, at
    the byte `place` and unchanged, and 10 where the `commit` of this number puts an entity that has too many index rows under the index file."""

    def __init__(self, text: str, status: int, place: Optional[int] = None, commit: Optional[int] = None) -> None:
        super().__init__(text)
        self.status = status
        self.place = place
        self.commit = commit

    def __reduce__(self) -> Any:
        return type(self), (str(self), self.status, self.place, self.commit)


def fault_of(file: str, status: int, told: str) -> Optional[KeptFileError]:
    """The fault that a server over this file told on standard error, and with which it ended; None for a status that isn't of the kept file."""
    if status == DISK_FAULT:
        return KeptFileError(_disk_fault(file, told), status)
    damaged, rows = _DAMAGED.search(told), _ROWS.search(told)
    if status == DAMAGED and damaged:
        return damage_of(file, int(damaged[1]))
    if status == TOO_MANY_ROWS and rows:
        text = (
            f"commit {rows[1]} of {file} puts an entity that has more than 20,000 index rows under this index file:"
            " serve it with the index file under which it was put, or take definitions of its kind out of this one"
        )
        return KeptFileError(text, status, commit=int(rows[1]))
    return None


def mending(file: str, place: int) -> str:
    """The command that makes, of a file that is damaged at this place, another one with what stands before the damage."""
    return f"head -c {place + 1} {shlex.quote(file)} > {shlex.quote(file + '.mended')}"


def damage_of(file: str, place: int) -> KeptFileError:
    """The fault of a file that is damaged at this place."""
    text = (
        f"{file} is damaged at byte {place}, and unchanged: ./run --kept-journal {shlex.quote(file)} prints the commits before that,"
        f" and {mending(file, place)} makes a file that keeps them"
    )
    return KeptFileError(text, DAMAGED, place=place)


def _disk_fault(file: str, told: str) -> str:
    if _IN_USE in told:
        return f"{file} is in use by another server: end that one, or give this one a file of its own"
    # The line before the status's own tells why.
    found = _DISK.search(told)
    cause = found[1] or "" if found else ""
    if cause.startswith(_UNPROVED):
        cause = ""
    return (
        f"{file} can't be read or written{f' ({cause})' if cause else ''}: what was answered is kept, and of the round that wasn't either all or nothing;"
        " when the cause is mended, start again"
    )
