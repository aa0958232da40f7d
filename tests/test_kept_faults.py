"""A server that keeps a file, of whose calls on it each fails in turn: opens, the lock, reads, writes, cuts and syncs, and writes that end halfway; and one that
is refused memory.

The status is 8 until a run ends well. Whatever call failed, what the file then has is whole: the commits of the rounds that were answered, and all of the next
round's or none; no id below its counter is drawn again; and a later run goes on from there. The call that fails is the last one on the file. Where memory is refused a run
may go on, and what it answers is kept all the same.
"""
import errno
import json
import pathlib
import random

from tests.case import SEED, WORDS, keeper
from tests.keeping import SETTLE, put, read, request, sample
from tests.refusing import Refusing

from journal_of import commits_told

GET = request("get", key=[["T", "a"]])


def new(*path):
    """The line of a put under this key, whose id is drawn."""
    return request("put", entity={"key": [*path, ["N", None]], "properties": {}})


# Each round commits or draws, but for the last; and so many commits each has.
ROUNDS = [
    put("a", v=1) + new(),
    request("begin") + GET + put("a", v=2) + new(["T", "a"]) + request("commit"),
    request("allocate_ids", count=3),
    GET,
]
COMMITS = [2, 1, 0, 0]
TEXT = b"\n".join(ROUNDS)
KEPT = ["--kept", "kept", *WORDS]


class Faults(Refusing):
    def setUp(self):
        self.file = pathlib.Path(self.folder, "kept")

    def serve(self, text=TEXT, content=None, **refused):
        """A run over a file of these bytes, or over none."""
        self.file.unlink(missing_ok=True)
        if content is not None:
            self.file.write_bytes(content)
        return self.run_refused(text, KEPT, of=keeper(), **refused)

    def rounds_of(self, replies):
        """How many whole rounds were answered by these replies, None where one was answered in part, and a number above all ids that they tell as drawn."""
        told, counts = [json.loads(it) for it in replies], [text.count(b"\n") for text in ROUNDS]
        ends = [sum(counts[:number]) for number in range(len(counts) + 1)]
        drawn = [it["first"] + it["count"] - 1 for it in told if it.get("ok") == "allocate_ids"] + [it["key"][-1][1] for it in told if "key" in it and it["key"][-1][0] == "N"]
        return ends.index(len(told)) if len(told) in ends else None, max(drawn, default=2**52 - 1) + 1

    def try_calls(self, what, content, first, **most):
        """Over a file that has so many commits and this counter each call on it fails, one after the other."""
        whole = self.serve(content=content, **most)
        self.expect(f"{what}: status, standard error, rounds", (whole.status, whole.errors, self.rounds_of(whole.lines)[0]), (0, "", len(ROUNDS)))
        wanted = read(self.file.read_bytes())
        for kind, name in (("disk", "call"), ("loads", "open")):
            count = whole.counts[kind]
            self.expect(f"{what}: whether there are {name}s", count > 0, True)
            step = sample(1, max(1, count // 12), 1)
            for call in sorted({*range(1, count + 1, step), count, count + 1}):
                for error in (errno.EIO, errno.ENOSPC) if kind == "disk" else (errno.EACCES,):
                    ran = self.serve(content=content, **most, **{"disk" if kind == "disk" else "load": f"{call},{error}"})
                    self.one(f"{what}, {name} {call} of {count} fails with {errno.errorcode[error]}", ran, call > count, whole, wanted, first)

    def one(self, what, ran, is_past, whole, wanted, first):
        content = self.file.read_bytes() if self.file.exists() else b""
        commits, next_id, _, damaged = read(content)
        if is_past:
            self.expect(what, (ran.end, (commits, next_id, damaged)), (whole.end, (wanted[0], wanted[1], False)))
            return
        self.expect(f"{what}: status, standard error's last line, calls behind it", (ran.status, ran.errors.splitlines()[-1:], ran.counts["after_disk"]), (8, ["disk fault"], 0))
        rounds, least = self.rounds_of(ran.lines)
        self.expect(f"{what}: whether whole rounds were answered", rounds is not None and whole.output.startswith(ran.output), True)
        if rounds is None:
            return
        self.expect(f"{what}: whether the file is whole", damaged, False)
        self.expect(f"{what}: whether its {len(commits)} commits are those of {rounds} rounds or of one more", len(commits) - first[0] in (sum(COMMITS[:rounds]), sum(COMMITS[:rounds + 1])), True)
        self.expect(f"{what}: its commits", commits, wanted[0][:len(commits)])
        self.expect(f"{what}: whether its counter is above what was drawn", next_id >= max(least, first[1]), True)
        again = self.run_refused(SETTLE + request("allocate_ids", count=1), KEPT, of=keeper())
        told = [json.loads(it) for it in again.lines]
        self.expect(f"{what}: a later run", (again.status, [it.get("place", it.get("first")) for it in told]), (0, [len(commits), next_id]))

    def test_each_call_fails(self):
        self.try_calls("no file", None, (0, 2**52))
        content = self.file.read_bytes()
        commits, next_id, _, _ = read(content)
        # A file that has more behind its closed gate, as a crash may leave it, is cut.
        self.try_calls("a file that was kept before", content + b"left behind", (len(commits), next_id))

    def test_each_write_that_ends_halfway(self):
        self.try_calls("writes of at most 40 bytes", None, (0, 2**52), disk_most=40)

    def test_memory(self):
        """Calls that take memory are refused, one alone or all from it on, in runs over no file and over one: whatever was answered is kept, and is what later runs find."""
        draw, statuses = random.Random(SEED), {0: 0, 6: 0}
        self.serve()
        kept = self.file.read_bytes()
        for what, content in (("no file", None), ("a file that was kept before", kept)):
            count = self.serve(content=content).counts["memory"]
            calls = [(call, behind) for call in range(1, count + 1) for behind in ("", "..")]
            for call, behind in draw.sample(calls, min(len(calls), sample(80, 12, len(calls)))):
                ran = self.serve(content=content, memory=f"{call}{behind}")
                name = f"{what}, refused from call {call} of {count}{behind}"
                statuses[ran.status] = statuses.get(ran.status, 0) + 1
                self.expect(f"{name}: status and standard error", (ran.status, ran.errors), (6, "no memory") if ran.status == 6 else (0, ""))
                commits, next_id, _, damaged = read(self.file.read_bytes() if self.file.exists() else b"")
                found = {it.number: {"client": it.client, "commit": it.number, "touched": it.touched, "writes": it.writes} for it in commits}
                lost = [number for number, commit in ((it["commit"], it) for it in commits_told(TEXT, ran.output).values()) if found.get(number) != commit]
                self.expect(f"{name}: whether the file is damaged, and commits that were answered and are lost or otherwise", (damaged, lost), (False, []))
                rounds, least = self.rounds_of(ran.lines)
                self.expect(f"{name}: whether whole rounds were answered, and ids stay below the counter", (rounds is not None, next_id >= least), (True, True))
                if content is not None:
                    self.expect(f"{name}: what was kept before", commits[:len(read(content)[0])], read(content)[0])
        print(f"seed {SEED}; runs by their status: {json.dumps(statuses)}")
        self.expect("whether runs ended in both ways", statuses[0] > 0 and statuses[6] > 0, True)

    def test_what_a_round_costs(self):
        """Two syncs for each round that commits or draws, however many lines it has, and none for another."""
        opening = self.serve(b"").counts["syncs"]
        for what, text, syncs in (("a put", put("a"), 2), ("a thousand puts", put("a") * 1_000, 2), ("two rounds", put("a") + b"\n" + put("b"), 4), ("drawn ids", request("allocate_ids", count=1), 2),
                                  ("what was rolled back without an id", request("begin") + put("a") + request("rollback"), 0), ("reads", GET + SETTLE, 0)):
            self.expect(f"the syncs of {what}", self.serve(text).counts["syncs"] - opening, syncs)
