"""The second index file of a server, and the rounds before it."""
import os
import re
from typing import TYPE_CHECKING, Any, List, NamedTuple, Optional, Union

from .errors import ServerFailed, TorfyllanError
from .indexes import Given
from .journal import Journal

if TYPE_CHECKING:
    from .server import Server

# A report of pytest shows the test's own lines, and none of these.
__tracebackhide__ = True

MOST_ROUNDS = 9_999
ROUNDS = 1_000
"""The number of rounds before the second file where none is given."""

FILLER = b'{"op":"end_round"}'
"""A line that the server refuses, as no operation has this name: it ends a round and changes nothing."""

MOST_ROWS = 20_000


class Change(NamedTuple):
    """Behind so many rounds the server goes on with an index file of this text, in the server's form."""

    rounds: int
    text: str


class SecondIndexes:
    """The second index file, which serves behind so many rounds; `rounds` counts those that were sent. Without a file there is no such change."""

    def __init__(self, given: Union[str, "os.PathLike[str]", None], after: Optional[int], auto_index: bool) -> None:
        if after is not None and (isinstance(after, bool) or not isinstance(after, int) or not 1 <= after <= MOST_ROUNDS):
            raise ValueError(f"after is a number of rounds from 1 to {MOST_ROUNDS:,}, and not {after!r}")
        if given is None and after is not None:
            raise ValueError("after is the number of rounds before a second index file: give that too, as next_indexes=")
        self._file = Given(given, auto_index and given is not None)
        self._is_given = given is not None
        self._after = ROUNDS if after is None else after
        self.rounds = 0
        self.was_asked = False

    def restart(self) -> None:
        """A start of the server."""
        self.rounds, self.was_asked = 0, False

    def read(self) -> None:
        """Reads the file, as `Given.read` does."""
        self._file.read()

    @property
    def change(self) -> Optional[Change]:
        """The change as it was asked for; None where there is no second file."""
        return Change(self._after, self._file.text or "") if self._is_given else None

    @property
    def change_from_here(self) -> Optional[Change]:
        """The change for one who counts rounds from the next one on: behind none where the second file serves already."""
        return Change(max(0, self._after - self.rounds), self._file.text or "") if self._is_given else None

    @property
    def serves(self) -> bool:
        """Whether the last round was served by the second file."""
        return self._is_given and self.rounds > self._after

    @property
    def is_next(self) -> bool:
        """Whether the change comes before the next round."""
        return self._is_given and self.rounds == self._after

    @property
    def is_near(self) -> bool:
        """Whether less than half of the rounds before the change are left."""
        return self._is_given and 2 * self.rounds > self._after

    @property
    def variable(self) -> str:
        """The environment's variable that may name the program that serves so; an empty text where there is no second file."""
        return "TORFYLLAN_REINDEX" if self._is_given else ""

    def words(self, folder: str) -> List[str]:
        """The words of the program that serves so, with a file in this folder."""
        if not self._is_given:
            return []
        name = os.path.join(folder, "next.yaml")
        with open(name, "w", encoding="utf-8") as file:
            file.write(self._file.text or "")
        return ["--next", name, "--after", str(self._after)]

    def use(self, server: "Server") -> None:
        """Ends the rounds that are left, and a further one, by lines that ask nothing. What keeps a test from asking for that is a TorfyllanError."""
        if self.serves and self.was_asked:
            return
        for count in (self._left(), 1):
            server._line += 2 * count
            try:
                server._talk((FILLER + b"\n\n") * count, count, count, server._timeout)
            except BaseException:
                server._end_now()
                raise
        self.was_asked = True

    def _left(self) -> int:
        if not self._is_given:
            raise TorfyllanError("there is no second index file: give one to the server, as next_indexes=")
        if self.rounds > self._after:
            raise TorfyllanError(
                f"the second index file serves already since round {self._after:,} ended, before this call: give the server a greater number of rounds, as after="
                f"{min(MOST_ROUNDS, 2 * self._after)}"
            )
        return self._after - self.rounds

    def explain(self, failed: str) -> None:
        """Raises an IndexFileError, where this is what the server said of the file."""
        self._file.explain(failed, "next file")

    def add(self, entry: str) -> Optional[str]:
        """Adds the entry of a MissingIndex to the file, as `Given.add` does."""
        return self._file.add(entry)


def too_many_rows(failed: ServerFailed, journal: Journal) -> ServerFailed:
    """The error in place of one that says that a commit has too many index rows under the second file; else that one."""
    told: Any = re.search(r"too many rows: commit ([0-9]+)", str(failed))
    if told is None:
        return failed
    write = journal.writer(int(told.group(1)))
    return ServerFailed(
        f"the second index file can't serve: under it an entity of the {write if write is not None else f'commit {told.group(1)}'} has more than {MOST_ROWS:,} index rows."
        " The server has ended; leave a property with many values out of the definition, or give the entity fewer values"
    )
