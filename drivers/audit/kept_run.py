"""What goes before a run over a kept file, so that the auditor can judge it: lines and replies by which client 0 writes what is kept.

The auditor judges runs from an empty journal. What the definitions take from a kept commit, for whatever is asked behind it, are its number and its
writes: gets, queries and conflicts look at writes alone, and a client and touched groups are held only against the line that is answered with the
commit. So each kept commit is told as a put or delete of client 0, or as a transaction that touched, right before it, what it wrote; in front of
them all stands a line that draws the ids below the kept counter. Nothing is read: then every client begins the run with all kept commits seen, no
entry of a shard seen as applied, and the kept counter, as a server does that opened the file. The prologue's replies are those of a legal run, so
that the whole is legal exactly where the run is.
"""
import json
import os
import re
import sys

sys.path.insert(0, os.path.join(os.path.dirname(os.path.dirname(os.path.realpath(__file__))), "python"))
from torfyllan.kept_lines import root_of, text_of
from torfyllan.shards import FIRST_DRAWN

LINE = re.compile(rb'"line":(0|[1-9][0-9]{0,19})(?=[,}])')
# What changes how deep a place of a JSON text is nested: strings are passed over.
STEP = re.compile(rb'"(?:[^"\\]|\\.)*"|[\[{]|[\]}]')


class Prologue:
    """The text of `lines`, of their `replies`, and of the `journal` that they tell, for the commits of a kept file. `commit_of` gives the commit that a
    line is of; `count` is the number of lines."""

    def __init__(self, kept):
        # The counter is known at the end; where no id was drawn the first line is empty, as the last one is, behind which the run's first round begins.
        self._lines, self._replies, self._journal, self._ends = [b""], [], [], []
        for commit in kept.journal():
            self._tell(commit)
        drawn = kept.next - FIRST_DRAWN
        if drawn:
            self._lines[0] = text_of({"op": "allocate_ids", "count": drawn})
            self._replies.insert(0, text_of({"client": 0, "count": drawn, "first": FIRST_DRAWN, "line": 1, "ok": "allocate_ids"}))
        self._lines.append(b"")
        self.count, self.commits = len(self._lines), kept.commits
        self.lines, self.replies, self.journal = (b"".join(it + b"\n" for it in texts) for texts in (self._lines, self._replies, self._journal))

    def _say(self, asked, told):
        self._lines.append(text_of(asked))
        self._replies.append(text_of({**told, "client": 0, "line": len(self._lines)}))

    def _tell(self, commit):
        number, place, touched = commit.number, commit.number - 1, {}
        if len(commit.writes) == 1:
            self._write(commit.writes[0], {"commit": number})
        else:
            for key in commit.keys:
                touched.setdefault(root_of(key), [key[:2] if isinstance(key[0], str) else key[:1], place])
            self._say({"op": "begin", "xg": len(touched) > 1}, {"ok": "begin"})
            for write in commit.writes:
                self._write(write, {"place": place})
            self._say({"op": "commit"}, {"commit": number, "ok": "commit"})
        self._journal.append(text_of({"client": 0, "commit": number, "touched": list(touched.values()), "writes": commit.writes}))
        self._ends.append(len(self._lines))

    def _write(self, write, at):
        if "put" in write:
            self._say({"op": "put", "entity": write["put"]}, {**at, "key": write["put"]["key"], "ok": "put"})
        else:
            self._say({"op": "delete", "key": write["delete"]}, {**at, "key": write["delete"], "ok": "delete"})

    def commit_of(self, line):
        """The number of the commit of a line."""
        return 1 + sum(end < line for end in self._ends)

    def behind(self, replies):
        """The bytes of a run's replies, whose lines are numbered on from those of the prologue."""
        return b"\n".join(self._later(reply) for reply in replies.split(b"\n"))

    def _later(self, reply):
        found = [it for it in LINE.finditer(reply) if it.start() and reply[it.start() - 1] in b"{,"]
        if len(found) > 1:
            outer = outer_places(reply)
            found = [it for it in found if it.start() in outer]
        # A reply that doesn't tell its line once, in digits, is none, and the verdict says so.
        if len(found) != 1:
            return reply
        number = found[0]
        return reply[: number.start(1)] + b"%d" % (int(number[1]) + self.count) + reply[number.end(1):]


def outer_places(text):
    """The places of the strings that stand in the outermost braces of a JSON text."""
    places, depth = set(), 0
    for it in STEP.finditer(text):
        if it[0] in (b"{", b"["):
            depth += 1
        elif it[0] in (b"}", b"]"):
            depth -= 1
        elif depth == 1:
            places.add(it.start())
    return places
