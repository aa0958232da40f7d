"""Runs in which the index file changes, judged: the examples are legal, and replies that are changed on either side of the cut are not.

The first two cases hold what `drivers/audit/cut.py` makes of a run against what it says there. The others ask the auditor, of the replies as they are,
and of ones in which a result, a count, a place, a commit or an id is another; in which a commit is lost at the cut; in which a client sees less behind
the cut than before it; and in which the second file serves too early or too late.
"""
import json
import pathlib
import sys
import tempfile

from tests.auditing import journal
from tests.case import EXAMPLES, Case, auditor

import cut
import twice

FOLDER = EXAMPLES / "reindex"
NAMES = ("an_index_is_added", "transactions_go_on")


class Example:
    """An example with a cut: its lines, replies, the rounds before the cut, and the server's words."""

    def __init__(self, name):
        self.lines = (FOLDER / f"{name}.jsonl").read_bytes()
        self.replies = (FOLDER / f"{name}.expected").read_bytes()
        words = (FOLDER / f"{name}.words").read_text(encoding="utf-8").split()
        self.rounds, self.words = int(words[3]), words[6:]
        self.first, self.second = FOLDER / f"{name}.index.yaml", FOLDER / f"{name}.next.yaml"

    def audit(self, lines=None, replies=None, rounds=None, swapped=False):
        """The status and the verdict on these lines and replies; `swapped` takes each index file for the other."""
        first, second = (self.second, self.first) if swapped else (self.first, self.second)
        with tempfile.TemporaryDirectory() as folder:
            names = [pathlib.Path(folder, name) for name in ("lines", "replies")]
            for name, content in zip(names, (lines or self.lines, replies or self.replies)):
                name.write_bytes(content)
            return twice.judged(auditor(), *map(str, names), ["--indexes", str(first), *self.words], str(second), rounds or self.rounds)

    def reply(self, line):
        """The reply to the line of this number."""
        return next(it for it in map(json.loads, self.replies.splitlines()) if it["line"] == line)

    def with_reply(self, line, **members):
        """The replies with other members of the reply to this line."""
        changed = {name: value for name, value in {**self.reply(line), **members}.items() if value is not None}
        return b"".join((compact(changed) if json.loads(it)["line"] == line else it) + b"\n" for it in self.replies.splitlines())


def compact(members):
    return json.dumps(members, ensure_ascii=False, separators=(",", ":"), sort_keys=True).encode()


def key(*path):
    return [list(pair) for pair in zip(path[::2], path[1::2])]


class Judgements(Case):
    def test_where_rounds_end(self):
        lines = [b"a", b"b", b"", b" \t\r", b"c", b"", b"d", b"e", b""]
        for rounds, wanted in ((1, (2, 2)), (2, (5, 3)), (3, None), (4, None)):
            self.expect(f"lines up to round {rounds}", cut.first_rounds(lines, rounds), wanted)
        full = [b"x"] * (cut.MOST_ROUND_LINES + 1)
        self.expect("a round that is full", cut.first_rounds(full, 1), (cut.MOST_ROUND_LINES, cut.MOST_ROUND_LINES))
        long = [b"x" * (cut.MOST_LINE_BYTES + 5)] * 33
        self.expect("a round that is full of bytes", cut.first_rounds(long, 1), (32, 32))

    def test_what_is_replaced(self):
        example = Example("transactions_go_on")
        before, behind, last = cut.judgements(example.lines, example.replies, example.rounds)
        self.expect("the last line before the cut", last, 33)
        self.expect("the first judgement's input", example.lines.startswith(before[0]) and before[0].count(b"\n"), 32)
        self.expect("its replies", (example.replies.startswith(before[1]), before[1].count(b"\n")), (True, 26))
        self.expect("its journal", (before[2], behind[2]), (b"".join(behind[2].splitlines(keepends=True)[:4]), journal(example.lines, example.replies)))
        asked, answered = behind[0].split(b"\n"), dict((json.loads(it)["line"], it) for it in behind[1].splitlines())
        original = example.lines.split(b"\n")
        nothing = b'"kind":"none","limit":0,"op":"query"}'
        lines = {
            3: b"{" + nothing, 5: b"{" + nothing, 10: b'{"ancestor":[["G","g"]],"client":1,' + nothing, 11: b'{"ancestor":[["H","h"]],"client":1,' + nothing,
            15: b'{"client":2,"entity":{"key":[["T",null]],"properties":{}},"op":"put"}', 22: b'{"client":4,"entity":{"key":[["T",4503599627370600]],"properties":{}},"op":"put"}',
            26: b'{"ancestor":[["T","p"]],"client":3,' + nothing, 29: b'{"client":5,"entity":{"key":[["T","q"]],"properties":{}},"op":"put"}',
            30: b'{"ancestor":[["T","q"]],"client":5,' + nothing, 33: b"{" + nothing,
        }
        for number, line in enumerate(original, 1):
            self.expect(f"line {number}", asked[number - 1], lines.get(number, line))
        empty = b'"ok":"query","results":[]}'
        memory = b'{"client":%d,"error":24,"line":%d,"name":"NoMemory"}'
        replies = {
            3: b'{"applied":[0,0],"client":0,"line":3,' + empty, 5: b'{"applied":[2,0],"client":0,"line":5,' + empty, 6: memory % (0, 6), 7: memory % (0, 7),
            10: b'{"client":1,"line":10,"ok":"query","place":2,"results":[]}', 16: memory % (2, 16), 30: b'{"client":5,"line":30,"ok":"query","place":3,"results":[]}',
            33: b'{"applied":[3,0],"client":0,"line":33,' + empty,
        }
        for number in answered:
            self.expect(f"the reply to line {number}", answered[number], replies.get(number, compact(example.reply(number))))

    def test_what_cannot_be_read_stays(self):
        lines = b'{"op":"query"\n[1]\n{"op":"query","kind":"T"}\n\n{"op":"settle"}\n'
        replies = b'{"client":0,"error":1,"line":1,"name":"BadJson"}\n{"client":0,"error":3,"field":"line","line":2,"name":"BadRequest"}\nnothing\n{"line":[]}\n'
        self.expect("the second judgement", cut.judgements(lines, replies, 1)[1], (lines, replies, b""))
        self.expect("of an input that ends with the round", cut.judgements(b"{}\n\n", b"x\n", 1), ((b"{}\n\n", b"x\n", b""), None, 3))


class Audited(Case):
    def refused(self, what, example, line, **changed):
        verdict = line if isinstance(line, str) else f"line {line}"
        self.expect(what, example.audit(**changed), (7, f"not legal: {verdict}\n"))

    def test_the_examples_are_legal(self):
        for name in NAMES:
            self.expect(name, Example(name).audit(), (0, "legal\n"))

    def test_each_file_serves_on_its_side(self):
        for name, late, early in (("an_index_is_added", 7, 5), ("transactions_go_on", 39, 3)):
            example = Example(name)
            self.refused(f"{name}: each file serves in place of the other", example, early, swapped=True)
            self.refused(f"{name}: the second file never serves", example, late, rounds=9_999)
        example = Example("transactions_go_on")
        self.refused("the first file serves up to the end", example, 39, rounds=11)
        self.refused("the second file serves too early", example, 10, rounds=1)
        self.expect("a round without an index later", example.audit(rounds=9), (0, "legal\n"))

    def test_a_changed_reply_on_each_side(self):
        example = Example("transactions_go_on")
        missing = {"constraint": {"property": "a", "value": 1}, "error": 17, "name": "MissingIndex"}
        for what, line, members in (
            ("a result left out before the cut", 5, {"results": [key("T", "p")]}),
            ("an entity before the cut that was replaced by a query", 10, {"results": []}),
            ("a result left out after the cut", 39, {"results": [key("G", "g", "T", "x"), key("T", "p")]}),
            ("a count before the cut that a later one forbids", 33, {"applied": [2, 0]}),
            ("an older view after the cut: a count that was shown already is lower", 39, {"applied": [2, 0], "results": [key("G", "g", "T", "x"), key("T", "p")]}),
            ("a commit counted before it is made", 33, {"applied": [3, 2]}),
            ("another suggestion before the cut", 6, {"suggestion": {"ancestor": False, "kind": "T", "properties": [["b", "asc"]]}}),
            ("another refusal before the cut", 7, missing),
            ("another place in a transaction over the cut", 12, {"place": 1}),
            ("another commit after the cut", 35, {"commit": 6}),
            ("an id drawn once more after the cut", 41, {"key": key("T", 2**52 + 1)}),
            ("a transaction that is lost at the cut", 35, {"ok": None, "commit": None, "error": 9, "name": "NoTransaction"}),
            ("a group that isn't in the way", 37, {"group": key("T", "p")}),
        ):
            self.refused(what, example, line, replies=example.with_reply(line, **members))
        self.refused("a commit given twice, of which the journal has the later one", example, 32, replies=example.with_reply(35, commit=4))
        self.refused("an id left out at the cut", example, "ids", replies=example.with_reply(41, key=key("T", 2**52 + 4)).replace(b"4503599627370498]]]}", b"4503599627370500]]]}"))

    def test_a_commit_that_is_dropped_at_the_cut(self):
        """The second side's server doesn't have the last commit of the first side: it gives its number anew, or shows nothing of it."""
        lines = b'{"op":"put","entity":{"key":[["T","a"]],"properties":{}}}\n{"op":"put","entity":{"key":[["T","b"]],"properties":{}}}\n\n'
        lines += b'{"op":"get","key":[["T","b"]]}\n{"op":"put","entity":{"key":[["T","c"]],"properties":{}}}\n{"op":"settle"}\n{"op":"query","kind":"T","select":"keys"}\n'
        puts = b"".join(compact({"client": 0, "commit": at, "key": [["T", name]], "line": at, "ok": "put"}) + b"\n" for at, name in ((1, "a"), (2, "b")))

        def behind(entity, place, commit, applied, names):
            return puts + b"".join(it + b"\n" for it in map(compact, (
                {"client": 0, "entity": entity, "line": 4, "ok": "get", "place": place}, {"client": 0, "commit": commit, "key": [["T", "c"]], "line": 5, "ok": "put"},
                {"applied": [applied], "client": 0, "line": 6, "ok": "settle", "place": applied}, {"applied": [applied], "client": 0, "line": 7, "ok": "query", "results": [[["T", name]] for name in names]})))

        example, there = Example("an_index_is_added"), {"key": [["T", "b"]], "properties": {}}
        self.expect("a run that keeps both", example.audit(lines=lines, replies=behind(there, 2, 3, 3, "abc")), (0, "legal\n"))
        for what, line, replies in (
            ("a get that doesn't find it, at the place before it", 4, behind(None, 1, 3, 3, "abc")),
            ("a get that doesn't find it", 4, behind(None, 2, 3, 3, "abc")),
            ("its number given anew, so that the journal has the later one", 2, behind(there, 2, 2, 2, "abc")),
            ("a settle without it", 6, behind(there, 2, 3, 2, "ab")),
            ("a query that doesn't find it", 7, behind(there, 2, 3, 3, "ac")),
        ):
            self.refused(what, example, line, lines=lines, replies=replies)

    def test_a_run_that_ends_early(self):
        example = Example("transactions_go_on")
        first = b"".join(it + b"\n" for it in example.replies.splitlines()[:26])
        self.refused("a run that ended at the cut", example, "count", replies=first)
        self.expect("the same, of the lines that were answered", example.audit(lines=b"\n".join(example.lines.split(b"\n")[:33]), replies=first), (0, "legal\n"))

    def test_words(self):
        words = ["--shards", "2", f"--next={sys.executable}", "--window", "3", "--after", "0012"]
        self.expect("the words of the cut", twice.taken(words), (["--shards", "2", "--window", "3"], sys.executable, 12))
        self.expect("words without a cut", twice.taken(words[:2]), (words[:2], None, None))
        self.expect("the words of the second judgement", twice.with_indexes(["--indexes", "--indexes=x", "--shards", "2", "--indexes=y"], "n"), ["--shards", "2", "--indexes", "n"])
