"""The exceptions that are no refusals of the server."""
from typing import Any


class TorfyllanError(Exception):
    """What this package raises, beside TypeError and ValueError for wrong arguments."""


class ServerFailed(TorfyllanError):
    """The server died, sent what is no reply, or sent nothing in time. It can't be used any more."""


class UnknownCommit(TorfyllanError):
    """The reply of a commit was withheld on purpose: whether it is made can't be told by who asked for it. Here it is, as `commit`."""

    others = 0

    def __init__(self, commit: int, what: str) -> None:
        super().__init__(commit, what)
        self.commit = commit
        self.what = what

    def __str__(self) -> str:
        more = f"; {self.others} more of the round were refused" if self.others else ""
        return (
            f"no reply came to the {self.what}: it may be made or not (it is, as commit {self.commit}; the reply is withheld on purpose)."
            f" Who asks again must see to it that nothing is done twice{more}"
        )


class NotLegal(TorfyllanError):
    """The replies of a run aren't those of a legal one, or could not be audited. The text is the audit's, with the first wrong reply beside its
    line."""


class BlockEnded(TorfyllanError):
    """An operation in a transaction's `with` block, behind the end of the transaction."""


class IndexFileError(TorfyllanError, ValueError):
    """An index file that can't be read, or says what the server has no form for; `line` is its number in the file."""

    def __init__(self, text: str, line: int = 0) -> None:
        super().__init__(text)
        self.line = line

    def __reduce__(self) -> Any:
        return type(self), (str(self), self.line)
