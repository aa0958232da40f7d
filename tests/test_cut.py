"""The reindexer: a second index file that serves behind round N, while clients go on.

The examples are served byte for byte. Beside them stand a run with no round behind N; index files that are wrong or missing; an entity with too many
index rows under the second file; idle servers, which use no processor; transactions that are open over the cut and commit, conflict, read and write
behind it; ids and commits that go on; and a run of sixteen clients with eight background appliers and 50,000 puts before the cut, over which half of
the clients have a transaction open; and random runs. Runs behind a cut are judged.
"""
import json
import pathlib
import random
import tempfile
import time

import tests.auditing  # noqa: F401, for the path of the judgements
from tests.case import EXAMPLES, SEED, WHOLE, Case, Talk, auditor, reindexer, run
from tests.clients import text_of
from tests.test_appliers import ASLEEP_SECONDS, IDLE_SECONDS, MOST_IDLE_SECONDS
from tests.test_cut_anywhere import ROUNDS, SETTINGS, rounds_of

import twice

FOLDER = EXAMPLES / "reindex"
IS_SLOW = reindexer().endswith(".unproved")
FIRST = "indexes:\n- kind: T\n  properties:\n  - name: a\n  - name: b\n"
SECOND = "indexes:\n- kind: T\n  properties:\n  - name: b\n  - name: a\n    direction: desc\n"
WORDS = ["--indexes", "index.yaml", "--shards", "1", "--appliers", "0"]
BY_FIRST = '{"op":"query","kind":"T","select":"keys","filters":[["a","=",1]],"orders":[["b","asc"]]}'
BY_SECOND = '{"op":"query","kind":"T","select":"keys","filters":[["b","=",1]],"orders":[["a","desc"]]}'
PUTS, ROUND, LATER = (2_000 if IS_SLOW else 50_000), 500, 6


def put(name, client=0, **properties):
    return json.dumps({"client": client, "op": "put", "entity": {"key": [["T", name]], "properties": properties}}, separators=(",", ":"))


def text(*rounds):
    return "\n".join(line for lines in rounds for line in (*lines, "")).encode() + b"\n"


class Cuts(Case):
    def serve(self, lines, after=1, first=FIRST, second=SECOND, words=WORDS, front=None):
        """How the reindexer ends over these lines, with index files of these texts; None as a text is no file."""
        files = {name: content for name, content in (("index.yaml", first), ("next.yaml", second)) if content is not None}
        return run(lines, [*(front if front is not None else ["--next", "next.yaml", "--after", str(after)]), *words], of=reindexer(), files=files)

    def judge(self, what, lines, replies, after, first=FIRST, second=SECOND, words=WORDS):
        with tempfile.TemporaryDirectory() as folder:
            names = []
            for name, content in (("lines", lines), ("replies", replies), ("index.yaml", first.encode()), ("next.yaml", second.encode())):
                names.append(str(pathlib.Path(folder, name)))
                pathlib.Path(names[-1]).write_bytes(content)
            words = [names[2] if word == "index.yaml" else word for word in words]
            self.expect(f"{what}: the verdict", twice.judged(auditor(), *names[:2], words, names[3], after), (0, "legal\n"))

    def replies_to(self, what, lines, after=1, words=WORDS):
        """The replies of a run that ends well and is legal, as JSON."""
        ran = self.serve(lines, after, words=words)
        self.expect(f"{what}: status and standard error", (ran.status, ran.errors), (0, ""))
        self.judge(what, lines, ran.output, after, words=words)
        return [json.loads(line) for line in ran.lines]


class Examples(Cuts):
    def test_examples(self):
        for lines in sorted(FOLDER.glob("*.jsonl")):
            files = {name: lines.with_suffix(f".{name}").read_text(encoding="utf-8") for name in ("index.yaml", "next.yaml")}
            words = lines.with_suffix(".words").read_text(encoding="utf-8").split()
            ran = run(lines.read_bytes(), words, of=reindexer(), files=files)
            self.expect(lines.stem, ran.end, (0, lines.with_suffix(".expected").read_bytes(), ""))


class Ends(Cuts):
    def test_no_round_behind(self):
        """Without a round behind round N the replies are those that the first file gives."""
        for rounds in ([[put("x", a=1, b=2), '{"op":"settle"}', BY_FIRST, BY_SECOND]] * 3, [], [[BY_FIRST]]):
            lines = text(*rounds)
            wanted = run(lines, WORDS, index=FIRST)
            for after in (3, 4, 9_999):
                self.expect(f"{len(rounds)} rounds, cut behind round {after}", self.serve(lines, after).end, (0, wanted.output, ""))

    def test_arguments(self):
        good = ["--next", "next.yaml", "--after", "1"]
        for front in ([], ["--next", "next.yaml"], good[2:] + good[:2], ["--next=next.yaml", "--after=1"], good[:3] + ["0"], good[:3] + ["10000"], good[:3] + ["x"],
                      good[:3] + [""], good + ["--next", "next.yaml"], ["--next"], good[:3]):
            self.expect(f"the words {front}", self.serve(b"", front=front).end, (1, b"", "usage"))
        self.expect("wrong words behind", self.serve(b"", words=["--shards", "17"]).end, (1, b"", "usage"))
        self.expect("words of the server alone", self.serve(b"", words=[]).end, (0, b"", ""))

    def test_index_files(self):
        """The first file is looked at before the second; nothing is served then."""
        lines, wrong = text([put("x", a=1)], [BY_FIRST]), "indexes:\n- kind: T\n  order: x\n"
        for what, first, second, end in (
            ("a wrong line of the second file", FIRST, wrong, (8, b"", "next file: line 3")),
            ("the second file begins with a byte order mark", FIRST, "\ufeff" + SECOND, (8, b"", "next file: line 1")),
            ("the second file isn't there", FIRST, None, (5, b"", "file fault")),
            ("a wrong line of the first file", wrong, SECOND, (2, b"", "index file: line 3")),
            ("wrong lines of both", "indexes:\nx\n", wrong, (2, b"", "index file: line 2")),
            ("the first file isn't there", None, SECOND, (5, b"", "file fault")),
        ):
            self.expect(what, self.serve(lines, first=first, second=second).end, end)

    def test_too_many_rows(self):
        """An entity that has 1 + 600 + 20,000 index rows under the second file: what was answered before the cut is written, and nothing behind it."""
        many = put("many", a=list(range(100)), b=list(range(200)))
        second = "indexes:\n- kind: T\n  properties:\n  - name: a\n  - name: b\n"
        first, before = "indexes:\n", [put("x", a=1, b=1), many, put("y", a=1, b=1)]
        wanted = run(text(before), WORDS, index=first).output
        for what, rounds, after in (("behind its round", [before, [BY_FIRST], [BY_FIRST]], 1), ("rounds later", [before[:2], before[2:], [BY_FIRST]], 2)):
            ran = self.serve(text(*rounds), after, first, second)
            self.expect(f"{what}: status and standard error", (ran.status, ran.errors), (9, "too many rows: commit 2"))
            self.expect(f"{what}: whether the replies up to the cut are written", [json.loads(it).get("commit") for it in ran.lines], [1, 2, 3])
        lines = text(before)
        self.expect("where no round comes behind", self.serve(lines, 2, first, second).end, (0, wanted, ""))
        # Under the second file it is refused as it is put; one that a delete took away is among the commits all the same.
        ran = self.serve(text([put("x", a=1, b=1)], [many]), 1, first, second)
        self.expect("put behind the cut", [json.loads(it).get("count") for it in ran.lines], [None, 20_601])
        ran = self.serve(text([many, '{"op":"delete","key":[["T","many"]]}'], [BY_FIRST]), 1, first, second)
        self.expect("deleted before the cut: status and standard error", (ran.status, ran.errors), (9, "too many rows: commit 1"))


class OverTheCut(Cuts):
    def test_a_transaction_commits(self):
        begun = [put("x", a=1, b=1), '{"op":"begin"}', '{"op":"get","key":[["T","x"]]}', put("x", a=2, b=1)]
        replies = self.replies_to("a transaction that was read and written before", text(begun, ['{"op":"commit"}', '{"op":"settle"}', BY_SECOND, '{"op":"get","key":[["T","x"]]}']))
        self.expect("its commit", replies[4].get("commit"), 2)
        self.expect("what is found", (replies[6].get("results"), replies[7]["entity"]["properties"]), ([[["T", "x"]]], {"a": 2, "b": 1}))

    def test_a_transaction_conflicts(self):
        for what, rounds, after in (
            ("with a commit before the cut", [[put("x", a=1, b=1, client=1)]], 2),
            ("with a commit behind the cut", [[BY_FIRST], [put("x", a=1, b=1, client=1)]], 2),
        ):
            begin = ['{"op":"begin"}', '{"op":"get","key":[["T","x"]]}', put("x", a=2)]
            replies = self.replies_to(what, text(begin, *rounds, ['{"op":"commit"}'], [put("x", a=3)]), after)
            self.expect(what, (replies[-2].get("name"), replies[-2].get("commit"), replies[-1].get("commit")), ("Conflict", 1, 2))

    def test_a_transaction_reads_as_of_its_touch(self):
        begin = [put("x", a=1, b=1), '{"op":"begin"}', '{"op":"get","key":[["T","x"]]}']
        under = '{"op":"query","kind":"T","ancestor":[["T","x"]]}'
        lines = text(begin, [put("x", a=2, b=1, client=1), '{"client":1,"op":"settle"}'], ['{"op":"get","key":[["T","x"]]}', under, '{"op":"rollback"}', under])
        replies = self.replies_to("a read of a transaction behind the cut", lines, 2)
        seen = [replies[5]["entity"]["properties"]["a"], *(it["results"][0]["properties"]["a"] for it in (replies[6], replies[8]))]
        self.expect("what it and the next one see", (seen, [it.get("place") for it in replies[5:9]]), ([1, 1, 2], [1, 1, None, 2]))

    def test_all_is_applied_and_numbers_go_on(self):
        new = '{"op":"put","entity":{"key":[["T",null]],"properties":{"b":1}}}'
        lines = text([new, put("x", a=1, b=1), '{"op":"allocate_ids","count":5}', BY_FIRST], [BY_SECOND, new, '{"op":"allocate_ids","count":1}', BY_FIRST])
        for shards in ("1", "5", "16"):
            words = ["--indexes", "index.yaml", "--shards", shards, "--appliers", "0"]
            replies = self.replies_to(f"{shards} shards", lines, words=words)
            self.expect(f"{shards} shards: entries counted before and behind", (sum(replies[3]["applied"]), sum(replies[4]["applied"])), (0, 2))
            self.expect(f"{shards} shards: what is found", (replies[3]["results"], replies[4]["results"]), ([], [[["T", "x"]]]))
            self.expect(f"{shards} shards: commits", [it.get("commit") for it in replies if it.get("ok") == "put"], [1, 2, 3])
            self.expect(f"{shards} shards: ids", (replies[0]["key"][0][1], replies[2]["first"], replies[5]["key"][0][1], replies[6]["first"]), (2**52, 2**52 + 1, 2**52 + 6, 2**52 + 7))
            self.expect(f"{shards} shards: the first file's query", replies[7].get("name"), "MissingIndex")


def crowded(draw, number, client):
    """Lines of a client in the run under load: nine puts of ten, and what reads and transacts."""
    name, chance = f"g{draw.randrange(3_000)}", draw.random()
    if chance < 0.9:
        return [put(name, client, a=draw.randrange(5), b=draw.randrange(5), n=number)]
    of = [["T", name]]
    return [json.dumps({**members, "client": client}) for members in draw.choice([
        [{"op": "get", "key": of}], [{"op": "query", "kind": "T", "ancestor": of}], [{"op": "allocate_ids", "count": 2}],
        [{"op": "put", "entity": {"key": [["T", None]], "properties": {"a": 1, "b": 1}}}],
        [{"op": "begin"}, {"op": "get", "key": of}, {"op": "put", "entity": {"key": of, "properties": {"a": 1, "b": 2}}}, {"op": "commit"}],
    ])]


def crowd(draw, after):
    """The rounds under load, each with a query of either file, as the auditor looks at all entities for one; over the cut half of the clients have a transaction open, of groups that some others write to."""
    rounds = [[line for at in range(ROUND) for line in crowded(draw, number * ROUND + at, at % 16)] for number in range(after + LATER)]
    for number, lines in enumerate(rounds):
        lines += [json.dumps({**json.loads(by), "client": number % 16, "limit": 3}) for by in (BY_FIRST, BY_SECOND)]
    for client in range(8):
        of = [["T", f"g{client}"]]
        rounds[after - 1] += [json.dumps({"client": client, **it}) for it in ({"op": "begin"}, {"op": "get", "key": of}, {"op": "put", "entity": {"key": of, "properties": {"a": 9}}})]
        rounds[after].insert(0, json.dumps({"client": client, "op": "commit"}))
    return [[line.encode() for line in lines] for lines in rounds]


class Crowd(Cuts):
    def test_random_runs(self):
        """Sixteen clients at random: conflicts, reads that are too late, statements, refusals, under index files that serve other queries on each side."""
        draw, runs = random.Random(SEED), 2 if IS_SLOW else 60 if WHOLE else 6
        entry = "- kind: {}\n  ancestor: {}\n  properties:\n  - name: n\n  - name: s\n"
        indexes = ["indexes:\n", "indexes:\n" + entry.format("T", "no"), "indexes:\n" + entry.format("T", "no") + entry.format("G", "yes")]
        for number in range(runs):
            given, after = SETTINGS[number % len(SETTINGS)], draw.randrange(1, ROUNDS)
            rounds, words = rounds_of(draw, int(given[1])), ["--indexes", "index.yaml", *given]
            lines, (first, second) = text_of(rounds), draw.sample(indexes, 2)
            ran = self.serve(lines, after, first, second, words)
            self.expect(f"run {number} of seed {SEED}: status, standard error, replies", (ran.status, ran.errors, len(ran.lines)), (0, "", sum(map(len, rounds))))
            self.judge(f"run {number} of seed {SEED}, cut behind round {after}", lines, ran.output, after, first, second, words)


class Idle(Cuts):
    def test_idle_servers_sleep(self):
        """With 2 appliers and with 8, in the first round's wait, where the second store has been fed, and behind the cut, no processor is used."""
        for appliers in ("2", "8"):
            with tempfile.TemporaryDirectory() as folder:
                for name, content in (("index.yaml", FIRST), ("next.yaml", SECOND)):
                    pathlib.Path(folder, name).write_text(content, encoding="utf-8")
                words = ["--next", "next.yaml", "--after", "2", "--indexes", "index.yaml", "--shards", "4", "--appliers", appliers]
                with Talk(words, of=reindexer(), cwd=folder) as talk:
                    for when in ("before the cut", "at the cut", "behind the cut"):
                        self.expect(f"{appliers} appliers {when}: whether it answers", [b'"ok"' in line for line in talk.round([put("x", a=1, b=1).encode(), b'{"op":"settle"}'])], [True] * 2)
                        time.sleep(ASLEEP_SECONDS)
                        used = talk.seconds()
                        time.sleep(IDLE_SECONDS)
                        seconds = talk.seconds() - used
                        self.expect(f"{appliers} appliers {when}: whether {seconds:.2f} s of a processor in {IDLE_SECONDS} idle seconds are at most {MOST_IDLE_SECONDS}", seconds <= MOST_IDLE_SECONDS, True)


class Load(Cuts):
    def test_a_cut_under_load(self):
        draw, after = random.Random(SEED), PUTS // (ROUND * 9 // 10) + 1
        words = ["--indexes", "index.yaml", "--shards", "8", "--appliers", "8"]
        rounds, replies = crowd(draw, after), []
        lines = text_of(rounds)
        with tempfile.TemporaryDirectory() as folder:
            for name, content in (("index.yaml", FIRST), ("next.yaml", SECOND)):
                pathlib.Path(folder, name).write_text(content, encoding="utf-8")
            with Talk(["--next", "next.yaml", "--after", str(after), *words], of=reindexer(), cwd=folder) as talk:
                for it in rounds:
                    replies += talk.round(it)
        self.expect("status, standard error, bytes behind the replies", talk.end, (0, "", b""))
        self.expect("replies", len(replies), sum(map(len, rounds)))
        told, count = [json.loads(it) for it in replies], sum(map(len, rounds[:after]))
        before, behind = told[:count], told[count:]
        puts, commits = sum(it.get("ok") == "put" and "commit" in it for it in before), [it for it in behind if it.get("ok") == "commit" or it.get("name") == "Conflict"]
        self.expect(f"whether there are {PUTS} puts before the cut ({puts})", puts >= PUTS, True)
        self.expect("whether each transaction that was open ends", len(commits) >= 8, True)
        missing = [[it["suggestion"]["properties"][0][0] for it in side if it.get("name") == "MissingIndex"] for side in (before, behind)]
        self.expect("which queries have no index on each side", [set(it) for it in missing], [{"b"}, {"a"}])
        self.judge("the run", lines, b"".join(replies), after, words=words)
