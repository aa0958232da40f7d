"""What a server may spend, compared with other work of its own: so neither a slow machine nor an unproved program matters.

A query with a limit looks at few rows, on one shard and on four, and makes no thread; an entry that overwrites costs about as much in a large table as in a
small one; an input is read by large pieces; and a store goes on past the counts at which one might stop.
"""
import json
import pathlib
import tempfile

from tests.case import Case, Talk, is_slow, run, sample
from tests.refusing import Refusing

ROWS = sample(50_000, 5_000, 50_000)
# So many queries with a limit, in rounds of some, may use what so many scans of all rows use.
QUERIES, AT_ONCE, SCANS = sample(2_000, 200, 2_000), 20, 20
INDEX = "indexes:\n- kind: T\n  properties:\n  - name: a\n  - name: s\n    direction: desc\n"
SCAN = {"kind": "T", "select": "keys", "offset": ROWS}
LIMITED = {
    "of a kind": {"kind": "T"},
    "of a kind's keys": {"kind": "T", "select": "keys"},
    "of an equality": {"kind": "T", "filters": [["a", "=", 3]]},
    "of two equalities": {"kind": "T", "filters": [["a", "=", 3], ["b", "=", 5]]},
    "of an inequality": {"kind": "T", "filters": [["b", ">", 2]]},
    "of all but one value": {"kind": "T", "filters": [["b", "!=", 5]]},
    "of two values": {"kind": "T", "filters": [["a", "in", [1, 3]]]},
    "by an order": {"kind": "T", "orders": [["s", "desc"]]},
    "by a composite index": {"kind": "T", "filters": [["a", "=", 3]], "orders": [["s", "desc"]]},
    "of two values by a composite index": {"kind": "T", "filters": [["a", "in", [1, 3]]], "orders": [["s", "desc"]]},
    "of a projection": {"kind": "T", "select": ["s"]},
    "of no kind": {},
    "of an ancestor": {"kind": "T", "ancestor": [["G", 1]]},
    "of an ancestor and an equality": {"kind": "T", "ancestor": [["G", 1]], "filters": [["a", "=", 3]]},
}
STATEMENTS = ["SELECT * FROM T LIMIT 1", "SELECT b FROM T WHERE b > 2 LIMIT 1", "SELECT * FROM T WHERE a IN (1, 3) LIMIT 1",
              "SELECT __key__ FROM T WHERE ANCESTOR IS KEY('G', 1) LIMIT 1"]
# The entities of a small table and of a large one, the entries that overwrite some of them, and how many times as much they may cost in the large one.
SMALL, LARGE, OVERWRITES, TIMES = 1_000, sample(50_000, 10_000, 50_000), sample(5_000, 1_000, 5_000), 4
COMMITS = sample(210_000, 1_000, 1_100_000)
# Where more entries than 16,384 are applied, a query without a limit may be asked of all shards at once.
MANY = 17_000
# The bytes that a read gives at least, on the average, of a file that has more.
INPUT_BYTES, READ_BYTES = 1_000_000, 4_096
SETTLE = b'{"op":"settle"}'


def put(number, text=""):
    """A put of an entity with three properties. Every second one is in one group."""
    group = b'["G",1],' if number % 2 else b""
    return b'{"op":"put","entity":{"key":[%s["T",%d]],"properties":{"a":%d,"b":%d,"s":"%s%d"}}}' % (group, number + 1, number % 7, number % 11, text.encode(), number)


def limited(members):
    return json.dumps({"op": "query", "limit": 1, **members}).encode()


def queries():
    """Names of queries that give one row, and their lines."""
    return {**{f"queries {what}": limited(members) for what, members in LIMITED.items()},
            **{f"statements {text}": json.dumps({"op": "gql", "text": text}).encode() for text in STATEMENTS}}


class Costs(Case):
    def used(self, talk, lines, at_once=AT_ONCE, most=None):
        """Seconds of processor time for these lines, each of which must be answered well. It ends early once it is past `most`."""
        before = talk.seconds()
        for at in range(0, len(lines), at_once):
            asked = lines[at:at + at_once]
            replies = talk.round(asked)
            wrong = [reply for reply in replies if b'"ok":' not in reply]
            self.expect("replies, and the first that is an error", (len(replies), wrong[:1]), (len(asked), []))
            if wrong or len(replies) < len(asked) or most is not None and talk.seconds() - before > most:
                break
        return talk.seconds() - before

    def test_queries_with_a_limit(self):
        """Each looks at few rows: 2,000 of them cost less than 20 scans of all rows."""
        for shards in (1, 4):
            with tempfile.TemporaryDirectory() as folder:
                pathlib.Path(folder, "index.yaml").write_text(INDEX, encoding="utf-8")
                with Talk(["--shards", str(shards), "--appliers", "0", "--indexes", "index.yaml"], cwd=folder) as talk:
                    self.used(talk, [*map(put, range(ROWS)), SETTLE], at_once=ROWS + 1)
                    most, spent = self.used(talk, [limited(SCAN)] * SCANS), {}
                    for what, line in queries().items():
                        seconds = spent[what] = self.used(talk, [line] * QUERIES, most=most)
                        self.expect(f"{shards} shards: whether {seconds:.2f} s for at most {QUERIES} {what} are less than {most:.2f} s for {SCANS} scans of {ROWS} rows",
                                    seconds < most, True)
                    dearest = max(spent, key=lambda what: spent[what])
                    print(f"{shards} shards, {ROWS:,} rows: {most:.2f} s for {SCANS} scans, at most {spent[dearest]:.2f} s for {QUERIES:,} queries with a limit ({dearest})")
                self.expect("status, error text, bytes behind the replies", talk.end, (0, "", b""))

    def test_entries_that_overwrite(self):
        """With a small window each takes out a version; what that costs doesn't grow with the table."""
        seconds, stored = [], 0
        with Talk(["--shards", "1", "--appliers", "0", "--window", "10"]) as talk:
            for count in (SMALL, LARGE):
                self.used(talk, [*map(put, range(stored, count)), SETTLE], at_once=count + 1)
                stored = count
                # Those before fill the window.
                for at, entries in enumerate((100, OVERWRITES)):
                    spent = self.used(talk, [*(put(number % SMALL, f"text {at} ") for number in range(entries)), SETTLE], at_once=OVERWRITES + 1)
                seconds.append(spent)
        self.expect("status, error text, bytes behind the replies", talk.end, (0, "", b""))
        small, large = seconds
        print(f"{OVERWRITES:,} entries that overwrite: {small:.2f} s among {SMALL:,} entities, {large:.2f} s among {LARGE:,}")
        self.expect(f"{OVERWRITES} entries that overwrite: whether {large:.2f} s among {LARGE} entities are at most {TIMES} times {small:.2f} s among {SMALL}",
                    large <= TIMES * max(small, 0.05), True)

    def test_many_commits(self):
        """More than 200,000 commits, all of them in one shard, are made, applied and found."""
        lines = [*(b'{"op":"put","entity":{"key":[["T",%d]],"properties":{}}}' % number for number in range(1, COMMITS + 1)),
                 SETTLE, b'{"op":"query","kind":"T","select":"keys","offset":%d,"limit":2}' % (COMMITS - 1), b'{"op":"get","key":[["T",%d]]}' % COMMITS]
        ran = run(b"\n".join(lines))
        self.expect("status and error text", (ran.status, ran.errors), (0, ""))
        replies = ran.lines
        self.expect("commits, and the first reply that is an error", (ran.output.count(b'"commit":'), [it for it in replies if b'"error"' in it][:1]), (COMMITS, []))
        settled, found, got = ({name: value for name, value in json.loads(reply).items() if name not in ("client", "line")} for reply in replies[-3:])
        self.expect("the settle behind them", settled, {"ok": "settle", "applied": [COMMITS], "place": COMMITS})
        self.expect("the last key", found.get("results"), [[["T", COMMITS]]])
        self.expect("the last entity", got.get("entity"), {"key": [["T", COMMITS]], "properties": {}})


class Calls(Refusing):
    """Calls to the system, which are counted and not refused."""

    def counts(self, lines, words):
        """What is called in a run over these lines, which are read from a file."""
        with tempfile.TemporaryFile() as file:
            file.write(b"\n".join(lines))
            file.seek(0)
            ran = self.run_refused(b"", words, how={"stdin": file})
        wrong = [reply for reply in ran.lines if b'"ok":' not in reply]
        self.expect("status, error text, replies, and the first that is an error", (*ran.end[::2], len(ran.lines), wrong[:1]), (0, "", len([line for line in lines if line]), []))
        return ran.counts

    def test_threads_of_queries_with_a_limit(self):
        """On several shards a query without a limit is asked of all at once where many entries are applied; one with a limit makes no thread."""
        if is_slow():
            self.skipTest("no proved server: so many entries aren't stored by an unproved one")
        words = ["--shards", "4", "--appliers", "0", "--indexes", "index.yaml"]
        pathlib.Path(self.folder, "index.yaml").write_text(INDEX, encoding="utf-8")
        stored = [*map(put, range(MANY)), SETTLE, b""]
        before = self.counts(stored, words)["threads"]
        for what, line in queries().items():
            self.expect(f"threads for 20 {what}", self.counts([*stored, *[line, b""] * 20], words)["threads"] - before, 0)
        everything = b'{"op":"query","kind":"T","select":"keys"}'
        many = self.counts([*stored, everything, b"", everything], words)["threads"] - before
        self.expect(f"whether the threads for 2 queries without a limit are counted ({many})", many > 0, True)
        few = self.counts([*map(put, range(40)), SETTLE, b"", *[everything, b""] * 20], words)["threads"] - before
        self.expect("threads for 20 queries without a limit over few entities", few, 0)

    def test_reads(self):
        """A file is read by large pieces, in one round and in many."""
        line = put(0, "x" * 400)
        lines = [line] * (INPUT_BYTES // len(line))
        for what, given in (("one round", lines), ("a round for each line", [it for each in lines for it in (each, b"")])):
            size = len(b"\n".join(given))
            reads = self.counts(given, ["--shards", "1", "--appliers", "0"])["reads"]
            self.expect(f"{what}: whether {reads} reads for {size} bytes are at most one for {READ_BYTES}", reads <= size // READ_BYTES, True)
