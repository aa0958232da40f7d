"""The file in which a server keeps its journal, read without a server: its commits, its id counter, its entities, and where it is damaged.

A file is a list of batches, and then a closed gate. A batch is an open gate, the length of its body as 8 bytes, highest first, and the body: the line
`{"next":N}`, which tells the id counter from then on, and the lines of its commits. A gate is a byte, and open exactly where it is 1 and a byte
follows; what stands behind a closed one counts for nothing. A file is damaged at its first open gate behind which no whole batch stands with a next
gate, or one that can't follow what stands before: its lines aren't those of commits with the next numbers; a commit conflicts with one before it; the
counter is below 2^52 or the last one, or above 2^63 - 1, or not above an id of a written key that the server draws.
"""
import os
import re
from typing import Any, Dict, Iterator, List, NamedTuple, Optional, Set, Tuple, Union

from .kept_lines import Commit, commit_in, commit_told, path_of, root_of
from .rules import drawn_id
from .shards import FIRST_DRAWN, LAST_ID

_NEXT = re.compile(rb'\{"next":([1-9][0-9]{0,18})\}')
_HEAD = 9


class Batch(NamedTuple):
    """What one append added: commits, the text of their lines, and the id counter from then on."""

    commits: List[Commit]
    text: bytes
    next: int


class KeptFile:
    """The bytes of a kept file. `batches` walks over it, once or more often; behind such a walk `commits` is the number of commits, `next` the id
    counter, `place` the place of the closed gate in bytes from 0, and `damaged` whether the walk ended at a damage instead, which is at `place`.
    With `trusting` what a whole batch says is taken as a server's, several times as fast.
    """

    def __init__(self, content: bytes, trusting: bool = False) -> None:
        self.content = content
        self._trusting = trusting
        self._begin()

    def _begin(self) -> None:
        self.commits = 0
        self.next = FIRST_DRAWN
        self.place = 0
        self.damaged = False
        self._last: Dict[Tuple[Any, ...], int] = {}

    def batches(self) -> Iterator[Batch]:
        """The batches up to the file's end or its first damage."""
        self._begin()
        while self.content[self.place : self.place + 1] == b"\x01" and self.place + 1 < len(self.content):
            body = self._body()
            batch = self._batch(body) if body is not None else None
            if body is None or batch is None:
                self.damaged = True
                return
            self.place += _HEAD + len(body)
            self.commits += len(batch.commits)
            self.next = batch.next
            yield batch

    def journal(self) -> Iterator[Commit]:
        """The commits up to the file's end or its first damage."""
        for batch in self.batches():
            yield from batch.commits

    def entities(self) -> Dict[Tuple[Any, ...], Any]:
        """The entities after all these commits, as JSON, by their keys."""
        found: Dict[Tuple[Any, ...], Any] = {}
        for commit in self.journal():
            for write in commit.writes:
                if "put" in write:
                    found[path_of(write["put"]["key"])] = write["put"]
                else:
                    found.pop(path_of(write["delete"]), None)
        return found

    def count_entities(self) -> int:
        """The number of entities after all these commits."""
        found: Set[Tuple[Any, ...]] = set()
        for commit in self.journal():
            for write in commit.writes:
                if "put" in write:
                    found.add(path_of(write["put"]["key"]))
                else:
                    found.discard(path_of(write["delete"]))
        return len(found)

    def _body(self) -> Optional[bytes]:
        """The body of the batch behind the open gate at `place`; None where it passes the end with its next gate."""
        begin = self.place + _HEAD
        size = int.from_bytes(self.content[self.place + 1 : begin], "big")
        return self.content[begin : begin + size] if begin + size < len(self.content) else None

    def _batch(self, body: bytes) -> Optional[Batch]:
        """The batch of this body, where it may follow."""
        head, newline, text = body.partition(b"\n")
        told = _NEXT.fullmatch(head)
        next_id = int(told[1]) if told else 0
        if not newline or not self.next <= next_id <= LAST_ID or not (text == b"" or text.endswith(b"\n")):
            return None
        commits: List[Commit] = []
        for number, line in enumerate(text.split(b"\n")[:-1], self.commits + 1):
            commit = commit_told(line, number) if self._trusting else commit_in(line, number)
            if commit is None or not (self._trusting or self._may_follow(commit, next_id)):
                return None
            commits.append(commit)
        return Batch(commits, text, next_id)

    def _may_follow(self, commit: Commit, next_id: int) -> bool:
        """Whether no commit before it wrote a group behind the place at which this one touched it, and no id of its keys is still to be drawn."""
        for group, place in commit.touched:
            # A key below a root is no group, and nothing writes it as one.
            is_root = len(group) == (2 if isinstance(group[0], str) else 1)
            if place >= commit.number or (is_root and self._last.get(root_of(group), 0) > place):
                return False
        for key in commit.keys:
            if (drawn_id(key) or 0) >= next_id:
                return False
            self._last[root_of(key)] = commit.number
        return True


def read_kept(path: Union[str, "os.PathLike[str]"]) -> KeptFile:
    """The kept file of this name, as it stands now."""
    with open(path, "rb") as file:
        return KeptFile(file.read())
