"""What the driver knows of the server's journal: who wrote each commit, and which entries each shard has yet to apply.

Every line goes through one `Server`, so its replies tell each commit. A commit gives one log entry to the shard of each group that
it writes, in the order of commits, and within one in the order of root keys.
"""
import itertools
import os
import re
import sys
from typing import Any, Dict, List, NamedTuple, Optional, Sequence, Tuple

from .errors import BlockEnded
from .shards import hash_of, key_bytes
from .values import Key

_OWN = os.path.dirname(os.path.abspath(__file__)) + os.sep


class Site:
    """A place in the caller's source: a file and a line."""

    __slots__ = ("file", "line")

    def __init__(self, file: str, line: int) -> None:
        self.file = file
        self.line = line

    def __str__(self) -> str:
        try:
            below = os.path.relpath(self.file)
        except ValueError:
            below = self.file
        return f"{self.file if below.startswith(os.pardir) else below}:{self.line}"

    def __repr__(self) -> str:
        return f"Site({str(self)!r})"


def calling_site() -> Site:
    """The nearest caller that isn't of this package, nor of `contextlib` on its behalf."""
    frame = sys._getframe(1)
    while frame.f_back is not None:
        file = frame.f_code.co_filename
        if not file.startswith(_OWN) and not file.endswith("contextlib.py"):
            break
        frame = frame.f_back
    file = frame.f_code.co_filename
    return DRIVER if os.sep + "_pytest" + os.sep in file else Site(file, frame.f_lineno)


class OnPurpose(Site):
    """The place of what the driver does of its own accord, as a text says."""

    __slots__ = ("_told",)

    def __init__(self, told: str) -> None:
        super().__init__("", 0)
        self._told = told

    def __str__(self) -> str:
        return self._told


DRIVER = OnPurpose("the driver")
"""The place of what the driver asks of its own accord, at a start and in the fixtures that pytest calls."""


class Write:
    """A commit: its number, the client, the operation (put, delete or commit), the keys that it wrote, and the caller's place.

    `contents` are what it wrote, the properties as they were sent or None of a deleted entity; the journal takes them. `request` is the number, among the requests that a test's choices count, of the one that made it, and `name` that request's name; 0 and an empty
    text where the driver made it.
    """

    __slots__ = ("commit", "client", "op", "keys", "contents", "site", "line", "request", "name")

    def __init__(self, commit: int, client: int, op: str, contents: Dict[Key, Any], site: Site, line: int) -> None:
        self.request = 0
        self.name = ""
        self.commit = commit
        self.client = client
        self.op = op
        self.keys = tuple(contents)
        self.contents = contents
        self.site = site
        self.line = line

    @property
    def what(self) -> str:
        """The operation and what it wrote."""
        keys = _told(self.keys)
        return f"{self.op} of {keys}" if self.op != "commit" else f"transaction that wrote {keys or 'nothing'}"

    def told(self, commit: int) -> str:
        """The write as one of this number, as a page has it."""
        return f"{self.what}, commit {commit} of client {self.client} at {self.site}"

    def __str__(self) -> str:
        return self.told(self.commit)

    def __repr__(self) -> str:
        return f"<{self}>"


def _told(keys: Sequence[Key]) -> str:
    """Some of the keys, without namespaces: a test has one, and its name would hide them."""
    more = f" and {len(keys) - 3} more" if len(keys) > 3 else ""
    return ", ".join(repr(Key(*itertools.chain(*key.path))) for key in keys[:3]) + more


class Entry(NamedTuple):
    """What one commit wrote to one group, the keys there; `part` is the group's place among those of the commit, from 1, or 0 where it wrote one."""

    write: Write
    keys: Tuple[Key, ...]
    part: int

    @property
    def what(self) -> str:
        """The operation and what it wrote to the group."""
        return self.write.what if not self.part else f"{_told(self.keys)} of a transaction"


class Journal:
    """The commits so far, of which `last` is the number of the last one, and the entries of each shard.

    Of what a server found in its kept file only the numbers are known, of the last commit and of the entries of each shard; these are all applied.
    """

    def __init__(self, shards: int, last: int = 0, counts: Optional[Sequence[int]] = None) -> None:
        self.shards = shards
        self.last = last
        self._found = list(counts) if counts is not None else [0] * shards
        self._writes: Dict[int, Write] = {}
        self._entries: List[List[Entry]] = [[] for _ in range(shards)]
        self._contents: Dict[Tuple[int, Key], Any] = {}

    def forget(self, shard: int, first: int, end: int) -> None:
        """Gives up what these entries of a shard wrote, as they are applied."""
        for entry in self._part(shard, first, end) if self._contents else ():
            for key in entry.keys:
                self._contents.pop((entry.write.commit, key), None)

    def content(self, commit: int, key: Key) -> Any:
        """The properties that a commit wrote, None where it deleted; a KeyError where they aren't kept."""
        return self._contents[commit, key]

    def record(self, writes: Sequence[Write]) -> None:
        """Adds the commits of a round, and keeps what they wrote until it is applied."""
        for write in sorted(writes, key=lambda one: one.commit):
            self.last = max(self.last, write.commit)
            self._writes[write.commit] = write
            self._contents.update({(write.commit, key): content for key, content in write.contents.items()})
            write.contents = {}
            groups: Dict[bytes, List[Key]] = {}
            for key in write.keys:
                groups.setdefault(key_bytes(key.root), []).append(key)
            for place, group in enumerate(sorted(groups), 1):
                self._entries[hash_of(group) % self.shards].append(Entry(write, tuple(groups[group]), place if len(groups) > 1 else 0))

    def writer(self, commit: int) -> Optional[Write]:
        """Who wrote the commit of this number; None where the driver wasn't told."""
        return self._writes.get(commit)

    def counts(self) -> List[int]:
        """The number of entries of each shard."""
        return [found + len(entries) for found, entries in zip(self._found, self._entries)]

    def _part(self, shard: int, first: int, end: Optional[int] = None) -> List[Entry]:
        """The entries of a shard behind so many of it, and up to so many."""
        found = self._found[shard]
        return self._entries[shard][max(0, first - found) : None if end is None else max(0, end - found)]

    def count_at(self, shard: int, place: int) -> int:
        """The number of a shard's entries that the first commits, so many, wrote."""
        entries = self._entries[shard]
        low = len(entries)
        while low and entries[low - 1].write.commit > place:
            low -= 1
        return self._found[shard] + low

    def behind(self, applied: Sequence[int]) -> List[List[Entry]]:
        """The entries of each shard behind so many of it."""
        return [self._part(shard, seen) for shard, seen in enumerate(applied)]

    def waiting(self, applied: Sequence[int], known: Sequence[int], asked: Dict[str, Any], line: int) -> List[Tuple[Write, Key]]:
        """What a query didn't see of the commits up to `known`, as it saw `applied` entries of each shard: the writes of its namespace and kind,
        by commits.

        What its own client wrote behind it, in the same round, is none of them.
        """
        namespace, kind = asked.get("namespace") or "", kind_of(asked)
        found: List[Tuple[Write, Key]] = []
        for shard, (seen, end) in enumerate(zip(applied, known)):
            for write, keys, _ in self._part(shard, seen, end):
                if write.client == asked["client"] and write.line > line:
                    continue
                found += [(write, key) for key in keys if (key.namespace or "") == namespace and kind in (None, key.kind)]
        return sorted(found, key=lambda pair: pair[0].commit)


_FROM = re.compile(r"""\bFROM\s+(?:"([^"]+)"|([A-Za-z_$][A-Za-z0-9_$.]*))""", re.IGNORECASE)


def kind_of(asked: Dict[str, Any]) -> Optional[str]:
    """The kind that a query or a GQL text asks for; None for entities of every kind."""
    if asked["op"] != "gql":
        return asked.get("kind")
    found = _FROM.search(asked["text"])
    return (found.group(1) or found.group(2)) if found is not None else None


class Session:
    """What one client number has open: a transaction, where it was begun, what it has touched and written, and the touched groups whose ids it drew."""

    def __init__(self) -> None:
        self.is_open = False
        self.begun: Optional[Site] = None
        self.xg = False
        self.written: Dict[Key, Any] = {}
        self.touched: Dict[Key, None] = {}
        self.drawn: Dict[Key, None] = {}
        self.in_block = False
        self._block_ended: Optional[str] = None

    def begin(self, xg: bool, site: Site) -> None:
        """A transaction is open."""
        self.is_open, self.begun, self.xg = True, site, xg
        self.written, self.touched, self.drawn = {}, {}, {}

    def end(self, by: str) -> None:
        """The transaction has ended: by commit, rollback, Conflict or Expired."""
        self.is_open = False
        if self.in_block:
            self._block_ended = by

    def check(self, op: str) -> None:
        """Refuses an operation in a `with` block whose transaction has ended, since it would stand outside of it."""
        if self._block_ended is not None:
            raise BlockEnded(f"the transaction of this block has ended, by {self._block_ended}: leave the block before the next {op}")

    def leave_block(self) -> Optional[str]:
        """Says by what the transaction ended within the block; None where it is open."""
        ended, self.in_block, self._block_ended = self._block_ended, False, None
        return ended
