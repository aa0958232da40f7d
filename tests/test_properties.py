"""Properties over drawn inputs: lines are read as Python reads them, and queries are answered as over a plain list.

`hypothesis` draws them where it is installed; what it or anybody found wrong is kept here as a case, and tried without it too.
"""
import json
import os
import tempfile

from tests import test_lines
from tests.case import SEED, Case, Talk, sample

try:
    from hypothesis import HealthCheck, given, seed, settings
    from hypothesis import strategies as st
    from hypothesis.configuration import set_hypothesis_home_dir

    # What it keeps of its own stands beside other temporary files, and not in the repository.
    set_hypothesis_home_dir(os.path.join(tempfile.gettempdir(), "torfyllan-hypothesis"))
except ImportError:
    st = None

EXAMPLES = sample(150, 30, 3_000)

# ---- queries: entities by name, each with its properties, and a query of them

LESS = {"<": lambda one, other: one < other, "<=": lambda one, other: one <= other, ">": lambda one, other: one > other, ">=": lambda one, other: one >= other,
        "!=": lambda one, other: one != other}
KEPT_QUERIES = [
    ({"x": {"a": [1, 9]}, "y": {"a": [4, 5]}}, {"filters": [["a", ">", 1], ["a", "<", 9]]}),
    ({"x": {"a": [1, 9]}, "y": {"a": [4, 5]}}, {"orders": [["a", "desc"]]}),
    ({"x": {"a": [1, 2], "b": "u"}, "y": {"a": 2, "b": "u"}}, {"filters": [["a", "=", 1], ["a", "=", 2], ["b", "=", "u"]]}),
    ({"x": {"a": 1}, "y": {}, "z": {"a": []}}, {"orders": [["a", "asc"]]}),
    ({"x": {"a": 1}, "y": {"a": "1"}}, {"filters": [["a", ">=", 1]], "orders": [["a", "asc"]]}),
    ({"b": {"a": 1}, "a": {"a": 1}, "é": {"a": 1}}, {"orders": [["a", "desc"]], "offset": 1, "limit": 1}),
    ({"x": {"a": [1, 2, 9]}, "y": {"a": [1, 8]}, "z": {"a": 7}}, {"filters": [["a", "!=", 5]], "orders": [["a", "desc"]], "offset": 1, "limit": 2}),
    ({"x": {"a": [1, 2]}, "y": {"a": [1, 2]}, "z": {"a": 2}}, {"filters": [["a", "in", [1, 2]]], "offset": 1, "limit": 2}),
]


def ordered(value):
    """Integers come before texts, and these by their bytes."""
    return (0, value) if isinstance(value, int) else (1, value.encode())


def values(properties, name):
    found = properties.get(name, [])
    return [ordered(it) for it in (found if isinstance(found, list) else [found])]


def listed(entities, asked):
    """The names that the query has, over a plain list of the entities: each where it comes first, rows by value and then by key."""
    filters, order = asked.get("filters", []), asked.get("orders", [[None, "asc"]])[0]
    name = next((name for name, sign, _ in filters if sign in LESS), order[0])
    rows = []
    for key in sorted(entities, key=str.encode):
        properties = entities[key]
        if all(any(ordered(value) in values(properties, it) for value in ([asked_for] if sign == "=" else asked_for))
               for it, sign, asked_for in filters if sign not in LESS):
            ranged = values(properties, name) if name else [()]
            rows += [(value, key) for value in ranged if all(LESS[sign](value, ordered(least)) for _, sign, least in filters if sign in LESS)]
    rows.sort(key=lambda row: row[0], reverse=order[1] == "desc")
    names = list(dict.fromkeys(key for _, key in rows))
    names = names[asked.get("offset", 0):]
    return names[:asked["limit"]] if "limit" in asked else names


def drawn_queries():
    value = st.one_of(st.integers(-3, 3), st.sampled_from(["", "a", "b", "é", "a\0"]))
    properties = st.dictionaries(st.sampled_from("ab"), st.one_of(value, st.lists(value, max_size=4)), max_size=2)
    entities = st.dictionaries(st.text("abé~", min_size=1, max_size=3), properties, max_size=8)
    name, window = st.sampled_from("ab"), {"offset": st.integers(0, 3), "limit": st.integers(0, 4)}

    def ranged(name):
        filters = st.lists(st.tuples(st.just(name), st.sampled_from(sorted(LESS)), value).map(list), max_size=2)
        return st.fixed_dictionaries({"filters": filters, "orders": st.sampled_from([[[name, "asc"]], [[name, "desc"]]])}, optional=window)

    equality = st.one_of(st.tuples(name, st.just("="), value), st.tuples(name, st.just("in"), st.lists(value, min_size=1, max_size=3)))
    equal = st.fixed_dictionaries({"filters": st.lists(equality.map(list), max_size=3)}, optional=window)
    return entities, st.one_of(name.flatmap(ranged), equal)


class Queries(Case):
    number = 0

    def asked(self, talk, entities, asked):
        """What the server finds, in a namespace of its own."""
        self.number += 1
        self.tried += 1
        space = f"n{self.number}"
        puts = [{"op": "put", "entity": {"key": [space, ["T", name]], "properties": properties}} for name, properties in entities.items()]
        lines = [*puts, {"op": "settle"}, {"op": "query", "kind": "T", "namespace": space, "select": "keys", **asked}]
        replies = [json.loads(reply) for reply in talk.round([json.dumps(line).encode() for line in lines])]
        self.assertEqual(len(replies), len(lines), "replies to the lines of a query")
        self.assertNotIn("error", replies[-1])
        return [key[-1][1] for key in replies[-1]["results"]]

    def test_kept_queries(self):
        with Talk() as talk:
            for entities, asked in KEPT_QUERIES:
                with self.subTest(asked=asked):
                    self.assertEqual(self.asked(talk, entities, asked), listed(entities, asked))

    def test_drawn_queries(self):
        if st is None:
            self.skipTest("no hypothesis")
        entities, queries = drawn_queries()
        with Talk() as talk:
            @seed(SEED)
            @settings(max_examples=EXAMPLES, deadline=None, database=None, suppress_health_check=list(HealthCheck))
            @given(entities, queries)
            def is_as_listed(entities, asked):
                self.assertEqual(self.asked(talk, entities, asked), listed(entities, asked))

            is_as_listed()


# ---- lines

KEPT_LINES = [b'{"op":"settle","x":1e400}', b'{"op":"settle","x":-0}', b'{"client":1.0,"op":"settle"}', b'{"client":null,"op":"settle"}', b'{"op":"settle",}',
              b'\x0b{"op":"settle"}', b'{"op":"settle","x":"\\ud800"}', b'{"op":"settle","op":"settle"}', b'{"op":"settle","x":01}', b'"settle"', b'{"client":99999999999999999999}']


def drawn_lines():
    leaf = st.one_of(st.none(), st.booleans(), st.integers(), st.floats(allow_nan=False), st.text(max_size=5), st.sampled_from(["settle", "get", "T"]))
    inner = st.recursive(leaf, lambda it: st.one_of(st.lists(it, max_size=4), st.dictionaries(st.text(max_size=3), it, max_size=4)), max_leaves=8)
    request = st.dictionaries(st.one_of(st.sampled_from(["op", "client", "key", "kind"]), st.text(max_size=3)), inner, max_size=5)
    whole = st.one_of(request, inner).flatmap(lambda it: st.booleans().map(lambda ascii: json.dumps(it, ensure_ascii=ascii).encode(errors="surrogatepass")))
    spoiled = st.tuples(whole, st.integers(0, 60), st.integers(0, 3), st.one_of(st.binary(max_size=3), st.sampled_from([b",", b"]", b"\\u", b"-", b"1e"])))
    spoiled = spoiled.map(lambda it: it[0][:it[1]] + it[3] + it[0][it[1] + it[2]:])
    return st.one_of(whole, spoiled, st.binary(max_size=20)).map(lambda line: line.replace(b"\n", b" ")).filter(lambda line: line.strip(b" \t\r"))


class Lines(test_lines.Judging):
    def judge(self, talk, lines):
        self.judge_round(self.line, lines, talk.round(lines))
        self.line += len(lines) + 1

    def setUp(self):
        self.line = 1

    def test_kept_lines(self):
        with Talk() as talk:
            self.judge(talk, KEPT_LINES)

    def test_drawn_lines(self):
        if st is None:
            self.skipTest("no hypothesis")
        with Talk() as talk:
            @seed(SEED)
            @settings(max_examples=EXAMPLES, deadline=None, database=None, suppress_health_check=list(HealthCheck))
            @given(st.lists(drawn_lines(), min_size=1, max_size=10))
            def is_read(lines):
                self.judge(talk, lines)

            is_read()
