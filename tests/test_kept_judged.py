"""The judge over kept runs: legal ones are legal, and they aren't with a changed reply, or with a kept commit that is lost or otherwise."""
import json
import os
import pathlib
import random
import subprocess

from tests import clients
from tests.auditing import journal
from tests.case import SECONDS, SEED, TOP, WORDS, auditor
from tests.keeping import SETTLE, Kept, kept_text, put, read, request, sample

from kept_run import Prologue
from kept_text import FIRST, batch, delete, kept, line
from torfyllan.kept import KeptFile

RUNS, ROUNDS, LINES = sample(6, 2, 40), 12, 60
A = [["T", "a"]]


def compact(reply):
    return kept_text.text(reply).encode() + b"\n"


class Judged(Kept):
    def judge(self, text, replies, before, words=WORDS, index=None, kept=("--kept", "before")):
        """What `./run --audit` says of a run that began with a file of these bytes: status, and the first line that it prints, or that is told."""
        files = {"lines": text, "replies": replies, "before": before, **({"index.yaml": index.encode()} if index is not None else {})}
        for name, content in files.items():
            pathlib.Path(self.folder, name).write_bytes(content)
        command = [TOP / "run", "--audit", "lines", "replies", *kept, *words]
        ran = subprocess.run(command, cwd=self.folder, env={**os.environ, "TORFYLLAN_AUDIT": auditor()}, capture_output=True, text=True, timeout=SECONDS)
        return ran.returncode, (ran.stdout or ran.stderr).partition("\n")[0]

    def lives(self, *texts, words=WORDS):
        """Runs over the file, one behind another: the replies of each, and the file before each."""
        found = []
        for text in texts:
            before = self.file.read_bytes() if self.file.exists() else b""
            ran = self.serve(text, words)
            self.expect("status and standard error of a life", (ran.status, ran.errors), (0, ""))
            found.append((ran.output, before))
        return found

    def test_what_changes_the_verdict(self):
        first = put("a", n=1) + put("b", n=2) + request("delete", key=[["T", "b"]]) + request("put", entity={"key": [["N", None]], "properties": {}})
        second = request("get", key=A) + request("query", kind="T") + SETTLE + request("query", kind="T") + put("c") + request("put", entity={"key": [["N", None]], "properties": {"line": 3}})
        second += request("begin") + request("get", key=A) + put("a", n=5) + request("commit") + request("get", key=[["N", FIRST + 1]])
        (_, _), (replies, before) = self.lives(first, second)
        told = [json.loads(it) for it in replies.splitlines()]
        self.expect("the run", self.judge(second, replies, before), (0, "legal"))
        self.expect("by the other spelling", self.judge(second, replies, before, kept=["--kept=before"]), (0, "legal"))
        # A reply that is otherwise.
        for at, changed in (
            (0, {"entity": None}), (0, {"place": 3}), (1, {"applied": [1]}), (2, {"applied": [3]}), (3, {"results": []}), (4, {"commit": 4}), (5, {"key": [["N", FIRST]]}),
            (7, {"place": 5}), (9, {"commit": 8}), (10, {"line": 10}),
        ):
            text = b"".join(compact({**it, **(changed if number == at else {})}) for number, it in enumerate(told))
            found = self.judge(second, text, before)
            self.expect(f"reply {at + 1} with {changed}: whether it is legal, and {found[1]}", (found[0], found[1].startswith("not legal: ")), (7, True))
        self.expect("the line that is told", self.judge(second, replies.replace(b'"n":1', b'"n":7', 1), before), (7, "not legal: line 1"))
        self.expect("a reply left out", self.judge(second, replies[replies.index(b"\n") + 1:], before), (7, "not legal: count"))
        self.expect("a reply twice its line", self.judge(second, replies.replace(b'"line":1,', b'"line":1,"line":1,', 1), before), (7, "not legal: line 1"))
        # A file that is otherwise: cut behind each of its commits, with another value, with another counter.
        commits = read(before)[0]
        lines = [line(it.number, it.writes, it.touched, it.client) for it in commits]
        for count in range(len(lines)):
            found = self.judge(second, replies, kept(batch(lines[:count], FIRST + 1)))
            self.expect(f"{count} of {len(lines)} kept commits: status, and whether {found[1]} is a verdict", (found[0], found[1].startswith("not legal: ")), (7, True))
        self.expect("all of them", self.judge(second, replies, kept(batch(lines, FIRST + 1))), (0, "legal"))
        self.expect("another value", self.judge(second, replies, kept(batch([lines[0].replace('"n":1', '"n":3'), *lines[1:]], FIRST + 1))), (7, "not legal: line 1"))
        self.expect("a commit more", self.judge(second, replies, kept(batch([*lines, line(5, [])], FIRST + 1)))[0], 7)
        self.expect("a counter too high", self.judge(second, replies, kept(batch(lines, FIRST + 2))), (7, "not legal: line 6"))
        self.expect("a damaged file", self.judge(second, replies, before[:-1] + b"\x01\x00"),
                    (9, f"audit: before is damaged at byte {len(before) - 1}, so no run begins with it; ./run --kept-journal before prints what it keeps before"))

    def test_a_counter_that_fell(self):
        """A run that draws an id which an earlier one drew, without a commit."""
        ids = request("allocate_ids", count=3)
        (_, _), (replies, before) = self.lives(ids, ids)
        self.expect("the run", self.judge(ids, replies, before), (0, "legal"))
        self.expect("one that forgot the counter", self.judge(ids, replies.replace(str(FIRST + 3).encode(), str(FIRST).encode()), before), (7, "not legal: line 1"))
        self.expect("one that left an id out", self.judge(ids, replies.replace(str(FIRST + 3).encode(), str(FIRST + 4).encode()), before), (7, "not legal: ids"))

    def test_transactions_that_overlap(self):
        """Kept transactions that touched groups at places of which later ones were earlier, that only read, wrote nothing, or wrote to several groups."""
        lines = [
            line(1, [kept_text.put(A, n=1)], client=2),
            line(2, [kept_text.put([["U", 1]]), kept_text.put([["U", 2]])], touched=[[[["U", 2]], 0], [[["U", 1]], 1]], client=7),
            line(3, [], touched=[[A, 1], [[["U", 3]], 2]], client=15),
            line(4, [kept_text.put([["U", 3], ["V", 1]], n=2), delete([["U", 3]])], touched=[[[["U", 3]], 2], [A, 3]], client=3),
            line(5, [kept_text.put(["n", ["T", FIRST + 9]]), kept_text.put(["n", ["T", "x"]])], touched=[[["n", ["T", FIRST + 9]], 0], [["n", ["T", "x"]], 0]]),
        ]
        self.file.write_bytes(kept(batch(lines[:2]), batch(lines[2:], FIRST + 10)))
        text = request("query", kind="U", select="keys") + request("get", key=[["U", 3], ["V", 1]]) + SETTLE + request("query", namespace="n", kind="T", select="keys")
        for shards in ("1", "3", "16"):
            words = ["--shards", shards, "--appliers", "0"]
            ((replies, before),) = self.lives(text, words=words)
            self.expect(f"with {shards} shards", self.judge(text, replies, before, words), (0, "legal"))
        self.expect("with other shards", self.judge(text, replies, before)[0], 7)

    def test_an_index_file_that_what_is_kept_does_not_go_with(self):
        many = {"a": list(range(150)), "b": list(range(150))}
        before = kept(batch([line(1, [kept_text.put(A)]), line(2, [kept_text.put(A, **many)])]))
        index = "indexes:\n- kind: T\n  properties:\n  - name: a\n  - name: b\n"
        reply = b'{"applied":[2],"client":0,"line":1,"ok":"settle","place":2}\n'
        found = self.judge(SETTLE, reply, before, ["--indexes", "index.yaml", *WORDS], index)
        self.expect("a kept put with too many rows", found, (7, "not legal: kept commit 2"))

    def test_crowds(self):
        """Sixteen clients at once with background appliers, over a file that earlier runs wrote."""
        print(f"seed {SEED}")
        draw = random.Random(SEED)
        for at in range(RUNS):
            words = ["--shards", str(draw.choice((1, 4, 16))), "--appliers", str(draw.choice((0, 2)))]
            self.file.unlink(missing_ok=True)
            texts = [clients.text_of(clients.rounds(draw.randrange(2**32), ROUNDS, LINES)) for _ in range(3)]
            for life, (text, (replies, before)) in enumerate(zip(texts, self.lives(*texts, words=words))):
                self.expect(f"run {at}, life {life}, {words}", self.judge(text, replies, before, words), (0, "legal"))
            commits = read(before)[0]
            # The file without its last batch with a commit: a later commit's number shows it, wherever one was made.
            last = max(it.number for it in commits)
            lost = kept(batch([line(it.number, it.writes, it.touched, it.client) for it in commits[:last - 1]], read(before)[1]))
            self.expect(f"run {at}: the last of {last} kept commits lost", self.judge(text, replies, lost, words)[0], 7)
            self.expect(f"run {at}: what the acknowledged commits tell is what the file got", read(self.file.read_bytes())[0][last:], read(kept(batch(
                [line(it.number, it.writes, it.touched, it.client) for it in commits] + journal(text, replies, last).decode().splitlines(), read(self.file.read_bytes())[1])))[0][last:])


class Numbered(Kept):
    def test_lines_of_replies_are_numbered_on(self):
        prologue = Prologue(KeptFile(kept(batch([line(1, [kept_text.put(A)])], FIRST + 1))))
        self.expect("lines of the prologue: ids, a put, and an empty one", (prologue.count, prologue.lines.count(b"\n"), prologue.replies.count(b"\n")), (3, 3, 2))
        for reply, wanted in (
            (b'{"client":0,"line":1,"ok":"begin"}', b'{"client":0,"line":4,"ok":"begin"}'),
            (b'{"entity":{"properties":{"line":5}},"line":7}', b'{"entity":{"properties":{"line":5}},"line":10}'),
            (b'{"line":7,"results":[{"line":1},"\\"line\\":2"]}', b'{"line":10,"results":[{"line":1},"\\"line\\":2"]}'),
            (b'{"a\\"line":1,"line":2}', b'{"a\\"line":1,"line":5}'),
            (b'{"line":1,"line":2}', b'{"line":1,"line":2}'),
            (b'{"line":01}', b'{"line":01}'),
            (b'{"line":-1}', b'{"line":-1}'),
            (b'{"line":1.5}', b'{"line":1.5}'),
            (b"no reply", b"no reply"),
            (b"", b""),
        ):
            self.expect(f"{reply}", prologue.behind(reply), wanted)
        self.expect("an empty file", Prologue(KeptFile(b"")).lines, b"\n\n")
