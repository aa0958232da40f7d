"""Each limit of docs/protocol.md and one past it, ends of a run that doesn't begin, and loads that have to be served within seconds of processor time.

The whole of it are the bytes of a round too, for which 320 MB are read.
"""
import json
import os
import resource
import subprocess

from tests import law
from tests.case import INDEXED, WHOLE, WORDS, Case, is_slow, run

# The seconds of processor time that a load may take: more than a good run takes, and less than twice as much.
LOAD_SECONDS, OVERWRITING_SECONDS, WIDE_SECONDS = 3, 6, 6
# What a server may map that is to run out of memory, in bytes.
SMALL_MEMORY = 60_000_000


def answered(lines, words=WORDS, index=None):
    """The replies of a run over these lines."""
    text = b"".join((line if isinstance(line, bytes) else json.dumps(line).encode()) + b"\n" for line in lines)
    return [json.loads(line) for line in run(text, words, index).lines]


def parts(reply):
    """A reply without its client and line."""
    return {name: value for name, value in reply.items() if name not in ("client", "line")}


def put(properties, name="a"):
    return {"op": "put", "entity": {"key": [["T", name]], "properties": properties}}


def indexed(*names):
    return "indexes:\n- kind: T\n  properties:\n" + "".join(f"  - name: {name}\n" for name in names)


def refused(error, name, field=None, **more):
    return {"error": error, "name": name, **({"field": field} if field else {}), **more}


def query(**members):
    return {"op": "query", "kind": "T", "select": "keys", **members}


def requests():
    """Pairs of requests, each in a server of its own: one at a limit, which is answered, and one past it with its refusal."""
    text, longer = "a" * 1_500, "a" * 1_501
    path = lambda count: [["T", "a"]] * count
    of = lambda key, properties=None: {"op": "put", "entity": {"key": key, "properties": properties or {}}}
    within = lambda count, operator="in": [["v", operator, list(range(count))]]
    twice = lambda count: [["__key__", "!=", {"key": [["T", "a"]]}], ["v", "in", list(range(count))]]
    nested = lambda levels: b'{"op":"settle","x":' + b"[" * (levels - 1) + b"]" * (levels - 1) + b"}"
    first, last = 2**52, 2**63 - 1
    key, entity = ("BadKey", "key"), ("BadKey", "entity")
    return [
        ("elements of a path, put", of(path(100)), of(path(101)), refused(4, *entity)),
        ("elements of a path, get", {"op": "get", "key": path(100)}, {"op": "get", "key": path(101)}, refused(4, *key)),
        ("elements of a path, statement", {"op": "gql", "text": "SELECT * WHERE ANCESTOR IS KEY(" + ", ".join(["'T', 1"] * 100) + ")"},
         {"op": "gql", "text": "SELECT * WHERE ANCESTOR IS KEY(" + ", ".join(["'T', 1"] * 101) + ")"}, None),
        ("bytes of a kind", of([[text, 1]]), of([[longer, 1]]), refused(4, *entity)),
        ("bytes of a kind, none", of([["k", 1]]), of([["", 1]]), refused(4, *entity)),
        ("bytes of a name", of([["T", text]]), of([["T", longer]]), refused(4, *entity)),
        ("bytes of a property's name", of(path(1), {text: 1}), of(path(1), {longer: 1}), refused(5, "BadValue", "entity")),
        ("bytes of a string", of(path(1), {"s": text}), of(path(1), {"s": longer}), refused(5, "BadValue", "entity")),
        ("bytes of a string that isn't indexed", of(path(1), {"s": {"unindexed": longer}}), of(path(1), {"s": [longer]}), refused(5, "BadValue", "entity")),
        ("bytes of a namespace in a key", of(["n" * 100, *path(1)]), of(["n" * 101, *path(1)]), refused(4, *entity)),
        ("bytes of a namespace of a query", query(namespace="n" * 100), query(namespace="n" * 101), refused(3, "BadRequest", "namespace")),
        ("a rating", of(path(1), {"r": {"rating": 100}}), of(path(1), {"r": {"rating": 101}}), refused(5, "BadValue", "entity")),
        ("an integer", of(path(1), {"n": last}), of(path(1), {"n": last + 1}), refused(5, "BadValue", "entity")),
        ("the least integer", of(path(1), {"n": -last - 1}), of(path(1), {"n": -last - 2}), refused(5, "BadValue", "entity")),
        ("an id", {"op": "get", "key": [["T", last]]}, {"op": "get", "key": [["T", last + 1]]}, refused(4, *key)),
        ("an id that isn't issued", of([["T", first - 1]]), of([["T", first]]), refused(21, "IdNotIssued", id=first, next=first)),
        ("ids in all", {"op": "allocate_ids", "count": last - first}, {"op": "allocate_ids", "count": last - first + 1}, refused(22, "IdsExhausted", next=first)),
        ("ids at once", {"op": "allocate_ids", "count": 1}, {"op": "allocate_ids", "count": 0}, refused(3, "BadRequest", "count")),
        ("a client", {"client": 15, "op": "settle"}, {"client": 16, "op": "settle"}, refused(3, "BadRequest", "client")),
        ("a shard", {"op": "apply", "shard": 0}, {"op": "apply", "shard": 1}, refused(3, "BadRequest", "shard")),
        ("an offset", query(offset=2**31 - 1), query(offset=2**31), refused(3, "BadRequest", "offset")),
        ("a limit", query(limit=2**31 - 1), query(limit=2**31), refused(3, "BadRequest", "limit")),
        ("branches of in", query(filters=within(30)), query(filters=within(31)), refused(16, "TooManySubqueries", count=31)),
        ("branches of in and !=", query(filters=twice(15)), query(filters=twice(16)), refused(16, "TooManySubqueries", count=32)),
        ("levels of JSON", nested(127), nested(128), refused(1, "BadJson")),
    ]


def processor_seconds():
    """What the programs run so far have used, which other work on the machine changes little."""
    used = resource.getrusage(resource.RUSAGE_CHILDREN)
    return used.ru_utime + used.ru_stime


class Limits(Case):
    def test_entities(self):
        text = "x" * 1_048_525
        replies = answered([put({"x": {"text": text}}), put({"x": {"text": text + "x"}})])
        self.expect("an entity at its size", replies[0].get("commit"), 1)
        self.expect("an entity one byte larger", parts(replies[1]), {"error": 6, "name": "TooLarge", "size": 1_048_577})
        numbers = lambda count: list(range(1, count + 1))
        replies = answered([put({"a": numbers(100), "b": numbers(200)})], INDEXED, indexed("a", "b"))
        self.expect("rows of two properties", parts(replies[0]), {"count": 20_601, "error": 7, "name": "TooManyRows"})
        thousand = {f"p{n:03}": n for n in range(1000)}
        replies = answered([put(thousand), {"op": "get", "key": [["T", "a"]]}])
        self.expect("an entity of 1,000 properties", replies[1].get("entity"), {"key": [["T", "a"]], "properties": thousand})

    def test_lines(self):
        replies = answered([b"\xef\xbb\xbf" + json.dumps(put({})).encode(), put({})])
        self.expect("a byte order mark", parts(replies[0]), {"error": 1, "name": "BadJson"})
        self.expect("the line behind a byte order mark", replies[1].get("commit"), 1)

    def test_queries(self):
        names = [f"p{n:02}" for n in range(20)]
        alike = {name: 1 for name in names}
        asked = {"op": "query", "kind": "T", "filters": [[name, "=", 1] for name in names], "select": "keys", "limit": 1, "cursor": True}
        stored = [put(alike, "a"), put(alike, "b"), put({**alike, "p19": 2}, "c"), {"op": "settle"}]
        replies = answered([*stored, asked])
        first = replies[-1]
        self.expect("the first page of 20 filters", first.get("results"), [[["T", "a"]]])
        behind = {**asked, "start": first.get("cursor")}
        replies = answered([*stored, behind, {**behind, "filters": asked["filters"][:19]}])
        self.expect("the second page of 20 filters", replies[-2].get("results"), [[["T", "b"]]])
        self.expect("the cursor of 20 filters for 19", parts(replies[-1]), {"error": 19, "field": "start", "name": "CursorMismatch"})
        values = {f"n{n}": n for n in range(100)}
        text = "SELECT __key__ FROM T WHERE " + " AND ".join(f"a = :{name}" for name in values)
        replies = answered([put({"a": list(range(100))}, "a"), put({"a": list(range(99))}, "b"), {"op": "settle"},
                             {"op": "gql", "text": text, "names": values}])
        self.expect("a statement of 100 names", replies[-1].get("results"), [[["T", "a"]]])

    def test_clients(self):
        """In one round the get of another client meets the put, or comes before it."""
        replies = answered([put({"x": 1}), {"client": 1, "op": "get", "key": [["T", "a"]]}])
        self.expect("a put beside a get", parts(replies[0]), {"commit": 1, "key": [["T", "a"]], "ok": "put"})
        entity = {"key": [["T", "a"]], "properties": {"x": 1}}
        met = {0: None, 1: entity}
        found = replies[1]
        self.expect("a get beside a put", (found.get("client"), found.get("entity")), (1, met.get(found.get("place"), "no such place")))

    def test_writes(self):
        delete = {"op": "delete", "key": [["T", "a"]]}
        replies = answered([{"op": "begin"}, *[delete] * 501, {"op": "commit"}])
        self.expect("the 500th write", replies[500].get("ok"), "delete")
        self.expect("the 501st write", parts(replies[501]), {"error": 12, "name": "TooManyWrites"})
        self.expect("the commit of 500 writes", parts(replies[502]), {"commit": 1, "ok": "commit"})

    def test_ends(self):
        ended = lambda *given, **how: run(*given, **how).end
        line = json.dumps(put({})).encode() + b"\n"
        self.expect("a word that is none", ended(line, ["--"]), (1, b"", "usage"))
        for name, most in (("--shards", 16), ("--appliers", 8), ("--window", 65_536)):
            self.expect(f"{name} {most}", ended(b"", [name, str(most)]), (0, b"", ""))
            self.expect(f"{name} {most + 1}", ended(b"", [name, str(most + 1)]), (1, b"", "usage"))
        self.expect("--shards 0", ended(b"", ["--shards", "0"]), (1, b"", "usage"))
        self.expect("--window 0", ended(b"", ["--window", "0"]), (1, b"", "usage"))
        self.expect("a wrong index file", ended(line, INDEXED, "indexes:\n- kind: T\n  order: yes\n"), (2, b"", "index file: line 3"))
        self.expect("an index file that isn't there", ended(line, INDEXED), (5, b"", "file fault"))
        self.expect("a word that is no text", ended(line, [b"--indexes", b"\xff", *WORDS]), (1, b"", "usage"))
        self.expect("an input without lines", ended(b"", stdin=subprocess.DEVNULL), (0, b"", ""))
        folder = os.open("/", os.O_RDONLY)
        self.expect("an input that can't be read", ended(b"", stdin=folder), (3, b"", "read fault"))
        os.close(folder)
        with open("/dev/full", "wb") as full:
            self.expect("an output that takes nothing", ended(b"{}\n", stdout=full), (4, b"", "write fault"))

    def test_little_memory(self):
        # An unproved program needs more than that for itself.
        if is_slow():
            self.skipTest("no proved program: the unproved one maps more than a small memory for itself")
        large = (json.dumps(put({"x": {"text": "x" * 1_000_000}})).encode() + b"\n") * 100
        self.expect("a round of 67 MB in 60 MB", run(large, most=SMALL_MEMORY).end, (6, b"", "no memory"))

    def test_definitions(self):
        """200 and 201 of them, an entity with the most rows and one more, and the longest name of an index file."""
        file = lambda count: "indexes:\n" + "".join(f"- kind: K{n}\n  properties:\n  - name: a\n  - name: b\n" for n in range(count))
        self.expect("200 definitions", run(b"", INDEXED, file(200)).end, (0, b"", ""))
        self.expect("201 definitions", run(b"", INDEXED, file(201)).end, (2, b"", f"index file: line {1 + 201 * 4}"))
        self.expect("a name of 1,500 bytes", run(b"", INDEXED, indexed("a" * 1_500, "b")).end, (0, b"", ""))
        self.expect("a name of 1,501 bytes", run(b"", INDEXED, indexed("a" * 1_501, "b")).end, (2, b"", "index file: line 4"))
        # With m and n values of two properties there are 1 + 2 m + 2 n rows, and m n of the definition.
        for m, n, rows in ((81, 239, 20_000), (2, 4_999, 20_001)):
            replies = answered([put({"a": list(range(m)), "b": list(range(n))})], INDEXED, indexed("a", "b"))
            wanted = {"commit": 1, "key": [["T", "a"]], "ok": "put"} if rows == 20_000 else {"count": rows, "error": 7, "name": "TooManyRows"}
            self.expect(f"{rows} index rows", parts(replies[0]), wanted)

    def test_one_past(self):
        for what, at, past, wanted in requests():
            replies = sorted(answered([at, past]), key=lambda reply: reply["line"])
            # What is asked past the limit of ids in all stands alone.
            self.expect(f"{what}, at the limit: whether it is answered ({str(replies[0])[:300]})", "ok" in replies[0], True)
            if what == "ids in all":
                replies = [None, *answered([past])]
            self.expect(f"{what}, one past it", parts(replies[1]) if wanted else replies[1]["name"], wanted or "BadGql")

    def test_groups(self):
        gets = [{"op": "get", "key": [["G", n]]} for n in range(1, 28)]
        replies = answered([{"op": "begin", "xg": True}, *gets[:26], gets[0], {"op": "commit"}])
        self.expect("25 groups", [reply.get("place") for reply in replies[1:26]], [0] * 25)
        self.expect("the 26th group", parts(replies[26]), refused(11, "TooManyGroups"))
        self.expect("a group that was touched before it, and the commit", (replies[27].get("place"), replies[28].get("commit")), (0, 1))
        replies = answered([{"op": "begin"}, *gets[:2], {"op": "commit"}])
        self.expect("the second group of one", parts(replies[2]), refused(10, "SecondGroup", group=[["G", 2]]))

    def round_judged(self, what, lines):
        """A round's replies stand by client: so their order tells with which line it ended."""
        text = b"\n".join(lines) + b"\n"
        ran = run(text)
        self.expect(f"{what}: status", (ran.status, ran.errors), (0, ""))
        self.holds(what, law.faults(text, ran.output))

    def test_rounds(self):
        ones, zero = [b'{"client":1}'], [b'{}']
        self.round_judged("65,536 lines, and one", ones * 65_536 + zero)
        if not is_slow():
            self.round_judged("65,535 lines, and one", ones * 65_535 + zero)
        if WHOLE:
            # 31 lines that are too long count 2,097,153 bytes each.
            rest = 67_108_864 - 31 * 2_097_153
            last = lambda size: b'{"client":1,"x":"' + b"x" * (size - 19) + b'"}'
            for size in (rest - 1, rest, rest + 1):
                self.round_judged(f"64 MiB and {size - rest} bytes", [b"a" * 2_097_154] * 31 + [last(size)] + zero)

    def timed(self, what, lines, most):
        """The replies to a load; the seconds of processor time that it takes are told, and of a proved server limited."""
        begun = processor_seconds()
        replies = answered(lines)
        seconds = processor_seconds() - begun
        print(f"{what}: {seconds:.1f} s of processor time")
        if not is_slow():
            self.expect(f"whether {seconds:.1f} seconds are at most {most}", seconds <= most, True)
        return replies

    def test_load(self):
        count = 2_000 if is_slow() else 50_000
        puts = [put({"a": n % 7, "b": n % 11, "s": f"text {n}"}, f"n{n}") for n in range(count)]
        query = {"op": "query", "kind": "T", "filters": [["a", "=", 3], ["b", "=", 5]], "select": "keys"}
        replies = self.timed(f"{count:,} puts, a settle and ten queries of two equalities", [*puts, {"op": "settle"}, *[query] * 10], LOAD_SECONDS)
        self.expect("the settle behind the puts", parts(replies[count]), {"applied": [count], "ok": "settle", "place": count})
        found = sum(1 for n in range(count) if n % 7 == 3 and n % 11 == 5)
        self.expect("the results of ten queries", [len(reply["results"]) for reply in replies[count + 1:]], [found] * 10)

    def test_overwriting(self):
        """The same hundred entities put again and again, with reads between, for which the writes are applied."""
        count = 1_000 if is_slow() else 30_000
        puts = [put({"a": n % 7, "s": f"text {n * 7919 % 1_000}", "t": n}, f"n{n % 100}") for n in range(count)]
        gets = [{"op": "get", "key": [["T", f"n{n}"]]} for n in range(100)]
        lines = [line for at in range(0, count, 10) for line in (*puts[at:at + 10], gets[at // 10 % 100])]
        query = {"op": "query", "kind": "T", "orders": [["t", "desc"]], "select": "keys"}
        replies = self.timed(f"{count:,} puts of a hundred entities, a get behind each ten, and a query", [*lines, {"op": "settle"}, query], OVERWRITING_SECONDS)
        self.expect("the settle behind the puts", parts(replies[-2]), {"applied": [count], "ok": "settle", "place": count})
        self.expect("the keys, the last one put first", replies[-1]["results"], [[["T", f"n{n}"]] for n in range(99, -1, -1)])

    def test_wide(self):
        """Entities with twenty values each, which have 42 rows, put and then put again."""
        count = 200 if is_slow() else 12_000
        values = lambda n: {f"p{i:02}": f"text {n * i % 97}" if i % 2 else n * i % 1_009 for i in range(20)}
        puts = [put(values(n), f"n{n % (count // 2)}") for n in range(count)]
        query = {"op": "query", "kind": "T", "filters": [["p01", "=", "text 5"], ["p03", "=", "text 15"]], "select": "keys"}
        replies = self.timed(f"{count:,} puts of {count // 2:,} entities with twenty values, a settle and a query", [*puts, {"op": "settle"}, query], WIDE_SECONDS)
        self.expect("the settle behind the puts", parts(replies[-2]), {"applied": [count], "ok": "settle", "place": count})
        found = sorted(f"n{n % (count // 2)}" for n in range(count // 2, count) if n % 97 == 5)
        self.expect("the keys found", replies[-1].get("results"), [[["T", name]] for name in found])
