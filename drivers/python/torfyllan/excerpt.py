"""What one test asked of a server that others ask too, told as if it had been the first to ask."""
import json
import os
from typing import TYPE_CHECKING, Any, Dict, List, Optional, Sequence

from .drawing import Drawing
from .errors import ServerFailed
from .journal import Site
from .log import Log, Recorder
from .shards import FIRST_DRAWN

if TYPE_CHECKING:
    from .server import Server


def told_behind(members: Dict[str, Any], commits: int, counts: Sequence[int]) -> bytes:
    """The reply of these members as a server tells it that has neither the first commits, so many, nor the first entries of each shard."""
    for name in ("commit", "place"):
        if name in members:
            members[name] -= commits
    if isinstance(members.get("applied"), list):
        members["applied"] = [count - before for count, before in zip(members["applied"], counts)]
    if members.get("ok") == "apply":
        members["count"] -= counts[members["shard"]]
    return json.dumps(members, ensure_ascii=False, separators=(",", ":")).encode()


class Excerpt(Recorder):
    """The lines and replies of a server from now on, when all that was committed before is applied.

    Lines, commits, places and counts of entries are told without what came before, as a server tells them that is started for these lines
    alone; so they can be drawn, and served once more. `namespace` is the test's own, which a page doesn't name. `next_id` is the first id that the server draws now: where it isn't the first of all, the lines
    begin with one that draws those before it.
    """

    def __init__(self, server: "Server", next_id: int = FIRST_DRAWN, namespace: str = "") -> None:
        self._namespace = namespace
        self._words, self._indexes, self._change = server._plain_words(), server._indexes.text, server._second.change_from_here
        if self._change is not None and not self._change.rounds:
            self._indexes, self._change = self._change.text, None
        self._commits, self._counts = server._journal.last, server._journal.counts()
        self._before, self._first = server._line - 1, server._line
        self._asked: List[bytes] = []
        self._answered: List[bytes] = []
        self._sites: Dict[int, Site] = {}
        if next_id > FIRST_DRAWN:
            count = next_id - FIRST_DRAWN
            self._before -= 2
            self._asked.append(b'{"client":0,"op":"allocate_ids","count":%d}\n\n' % count)
            self._answered.append(b'{"client":0,"count":%d,"first":%d,"line":1,"ok":"allocate_ids"}' % (count, FIRST_DRAWN))
            if self._change is not None:
                self._change = self._change._replace(rounds=self._change.rounds + 1)

    def asked(self, text: bytes) -> None:
        self._asked.append(text)

    def answered(self, lines: Sequence[bytes]) -> None:
        self._answered += lines

    def asked_at(self, line: int, site: Site) -> None:
        self._sites[self.line(line)] = site

    def line(self, line: int) -> int:
        """The number that a line of the server has here."""
        return line - self._before

    def commit(self, commit: int) -> int:
        """The number that a commit of the server has here."""
        return commit - self._commits

    def _here(self, reply: bytes) -> bytes:
        members: Dict[str, Any] = json.loads(reply)
        if "line" not in members or members["line"] < self._first:
            return reply
        members["line"] = self.line(members["line"])
        return told_behind(members, self._commits, self._counts)

    def _play(self, recorder: Recorder) -> None:
        recorder.begin(self._words, self._indexes)
        if self._change is not None:
            recorder.changes_indexes(*self._change)
        recorder.asked(b"".join(self._asked))
        recorder.answered([self._here(reply) for reply in self._answered])
        for line, site in self._sites.items():
            recorder.asked_at(line, site)
        recorder.end()

    def write_log(self, stem: str) -> str:
        """Writes the files of a log, as `Server(log=...)` does, and gives the name of the one with the lines."""
        log = Log(stem, self._namespace)
        self._play(log)
        return log.name("jsonl")

    def draw(self, stem: str) -> Optional[str]:
        """Writes the page, and gives its name; None where the program that draws isn't there."""
        file = f"{stem}.html"
        try:
            self._play(Drawing(file, self._namespace))
        except ServerFailed:
            return None
        return file if os.path.getsize(file) else None
