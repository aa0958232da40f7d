"""Lines that the server reads in one pass over their tokens, and the same with a member that no operation has, which are read as a JSON value.

Each line of a table, whole, with its members in another order, doubled, without one or damaged, has the same reply both ways; some of the
lines are read in one pass. The whole of it are 200,000 lines.
"""
import json
import random
import re

from tests import damage
from tests.case import SEED, WORDS, Case, run, sample

LINES = sample(20_000, 4_000, 200_000)
IDENTS = (1, 7, "a", "name", 0, -1, None, 2**63 - 1, 2**63, 1.5, "__x__", "é", True, "", [], "a" * 1501)
VALUES = (0, 1, -1, 10**18, 2**63 - 1, -2**63, 2**63, 2**64, 1.0, -0.0, True, False, None, "", "text", "é\n", "a" * 1501, [], [1, 2], [[1]], {"date": 5}, {"date": "5"}, {"date": 1.5},
          {"text": "long"}, {"text": 1}, {"key": [["T", 1]]}, {"key": []}, {"bytes": "YQ=="}, {"blob": "YQ=="}, {"rating": 50}, {"rating": 101}, {"unindexed": 3}, {"unindexed": [1, "b"]}, {"a": 1}, {},
          {"date": 1, "text": "a"})
NAMES = ("a", "b", "c", "done", "prio", "owner", "é", "", "__key__", "z" * 1501)


def key(draw):
    path = [[draw.choice(("T", "Task", "__T__")) if draw.random() < 0.2 else "T", draw.choice(IDENTS) if draw.random() < 0.3 else draw.randrange(1, 50)] for _ in range(draw.choice((1, 1, 1, 2, 3)))]
    return draw.choice((["n"] + path, path, [], "T", [[]])) if draw.random() < 0.1 else path


def properties(draw):
    names = [draw.choice(NAMES[:6] if draw.random() < 0.9 else NAMES) for _ in range(draw.randrange(4))]
    return {name: draw.choice(VALUES if draw.random() < 0.4 else VALUES[:4]) for name in (sorted(names) if draw.random() < 0.7 else names)}


def condition(draw):
    """A filter, mostly of a property of the puts above."""
    op = draw.choice(("=", "=", "<", "<=", ">", ">=", "!=", "in", "IN", "", 1) if draw.random() < 0.4 else ("=", ">"))
    value = draw.choice(VALUES if draw.random() < 0.3 else VALUES[:4])
    whole = ["__key__", op, {"key": key(draw)}] if draw.random() < 0.2 else [draw.choice(NAMES), op, draw.choice(([value], [value, 1], [], value)) if op == "in" else value]
    return draw.choice((whole[:2], whole + [1], {}, None, whole[::-1])) if draw.random() < 0.05 else whole


def order(draw):
    return draw.choice(([], ["a"], ["a", "asc", 1], ["a", "ASC"], ["a", None], ["", "asc"], "a", None)) if draw.random() < 0.1 else [draw.choice(NAMES), draw.choice(("asc", "desc"))]


def query(draw):
    """The members of a query, of which most are left out."""
    kinds, counts = ("T", "T", "Task", "__kind__", "", None, 1, "é"), (0, 1, 3, 3, 2**31 - 1, 2**31, -1, 1.0, None, "1", 2**64)
    texts = ("", "AA==", "x", None, 1, "é\n")
    members = {"kind": draw.choice(kinds if draw.random() < 0.2 else ("T",)), "ancestor": key(draw), "filters": [condition(draw) for _ in range(draw.choice((0, 1, 1, 2)))],
               "orders": [order(draw) for _ in range(draw.choice((0, 1, 1, 2)))], "select": draw.choice(("entities", "keys", "keys", "Keys", ["a"], ["a", "b"], [], [""], None, 1)),
               "offset": draw.choice(counts), "limit": draw.choice(counts if draw.random() < 0.3 else counts[:4]), "start": draw.choice(texts), "end": draw.choice(texts),
               "cursor": draw.choice((True, False, None, 1)), "namespace": draw.choice(("", "n", "N.1", "a b", "a" * 101, None, 1))}
    rare = {"kind": 0.8, "ancestor": 0.4, "filters": 0.4, "orders": 0.2, "limit": 0.5}
    found = {name: it for name, it in members.items() if draw.random() < rare.get(name, 0.08)}
    if draw.random() < 0.05:
        found[draw.choice(("filters", "orders", "ancestor"))] = draw.choice((None, {}, "", 1, [None]))
    return found


def request(draw):
    """A line as a dictionary."""
    op = draw.choice(("put", "put", "put", "get", "delete", "begin", "commit", "rollback", "settle", "apply", "allocate_ids", "query", "query", "query", "gql", "no"))
    members = {"put": {"entity": {"key": key(draw), "properties": properties(draw)}}, "get": {"key": key(draw)}, "delete": {"key": key(draw)},
               "begin": draw.choice(({}, {"xg": True}, {"xg": False}, {"xg": None}, {"xg": 1})), "apply": {"shard": draw.choice((0, 0, 1, -1, 1.0, None, 2**63))},
               "allocate_ids": {"count": draw.choice((1, 5, 0, -1, 1.0, None, 2**63))}, "query": query(draw), "gql": {"text": "SELECT * FROM T LIMIT 2"}}.get(op, {})
    if draw.random() < 0.1:
        members.update(draw.choice(({"client": None}, {"client": 0}, {"client": 16}, {"client": -1}, {"client": 1.0}, {"client": "0"}, {"key": key(draw)}, {"count": 3}, {"entity": None}, {"xg": 1})))
    return {"op": op, **members}


def text(draw, value):
    """The line's bytes, with members in another order, doubled or left out at times, and with other spellings of texts."""
    if isinstance(value, dict):
        pairs = list(value.items())
        if draw.random() < 0.3:
            draw.shuffle(pairs)
        if pairs and draw.random() < 0.05:
            pairs.insert(draw.randrange(len(pairs) + 1), draw.choice(pairs))
        if pairs and draw.random() < 0.05:
            pairs.pop(draw.randrange(len(pairs)))
        return b"{" + b",".join(text(draw, name) + b":" + text(draw, it) for name, it in pairs) + b"}"
    if isinstance(value, list):
        return b"[" + draw.choice((b",", b",", b", ")).join(text(draw, it) for it in value) + b"]"
    if isinstance(value, str) and value and draw.random() < 0.02:
        return b'"\\u%04x' % ord(value[0]) + json.dumps(value[1:]).encode()[1:]
    return json.dumps(value, ensure_ascii=draw.random() < 0.5).encode()


def with_stranger(line):
    """The line with a member that no operation has, where it begins an object."""
    return re.sub(rb"^([ \t\r]*)\{([ \t\r]*)(\}?)", lambda it: it[1] + b'{"stranger":0' + (b"}" if it[3] else b"," + it[2]), line, count=1)


class CommonLines(Case):
    def test_both_ways(self):
        draw = random.Random(SEED)
        lines = [text(draw, request(draw)) for _ in range(LINES)]
        lines = [damage.damaged(draw, line, draw.choice(lines)) if draw.random() < 0.3 else line for line in lines]
        lines = [line if len(line) < 5_000 else b"{}" for line in lines]
        plain = run(b"".join(line + b"\n" for line in lines), WORDS)
        other = run(b"".join(with_stranger(line) + b"\n" for line in lines), WORDS)
        self.expect("status and replies", (plain.status, len(plain.lines)), (0, len(lines)))
        for line, one, two in zip(lines, plain.lines, other.lines):
            self.expect(f"the reply to {line[:300]!r}", one, two)
        self.expect("status, replies and error text of the other", (other.status, len(other.lines), other.errors), (0, len(lines), ""))
