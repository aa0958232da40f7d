"""Tests of what the driver tells: refusals as sentences, stale queries, and slips that never reach the server.

    python3 drivers/python/test_messages.py
"""
import copy
import os
import pickle
import sys
import unittest

sys.path.insert(0, os.path.dirname(os.path.abspath(__file__)))
import torfyllan
from test_torfyllan import WithServer
from torfyllan import Entity, Key, Rating, Server, Text, Unindexed


class Sentences(WithServer):
    words = {"shards": 4}

    def said(self, kind, ask, *args, **words):
        """What the refusal of this kind says."""
        with self.assertRaises(kind) as caught:
            ask(*args, **words)
        self.assertIn(f"({caught.exception.name}, error {caught.exception.number}: ", str(caught.exception))
        return str(caught.exception)

    def test_a_value_names_its_property_and_why(self):
        put, long = self.client.put, "x" * 1501
        cases = (
            ({"s": long}, "entity: the property s: an indexed text has at most 1,500 bytes, and 'xxx"),
            ({"a": 1, "s": ["y", long]}, "the property s[1]: an indexed text"),
            ({"b": b"1" * 1501}, "the property b: indexed bytes are at most 1,500, and these are 1,501"),
            ({"r": Rating(101)}, "the property r: a rating is 0 to 100, and not 101"),
            ({"__x__": 1}, "the property's name '__x__' is reserved"),
            ({"": 1}, "the property's name is empty"),
        )
        for properties, wanted in cases:
            self.assertIn(wanted, self.said(torfyllan.BadValue, put, Key("T", "a"), properties))
        self.assertIn("the property k: an id is 1 to", self.said(torfyllan.BadKey, put, Key("T", "a"), k=Key("T", 0)))
        put(Key("T", "a"), s=Unindexed(long), t=Text(long))

    def test_a_key_says_which_part_is_wrong(self):
        cases = (
            (self.client.get, Key("T", 0), "key: an id is 1 to 9223372036854775807, and not 0"),
            (self.client.get, Key("T", None), "its last identifier is None"),
            (self.client.get, Key("T", ""), "the key's name is empty"),
            (self.client.get, Key("T" * 1501, "a"), "has 1,501 bytes, and at most 1,500 are allowed"),
            (self.client.get, Key("T", "a", namespace="a b"), "a namespace has at most 100 ASCII letters"),
            (self.client.delete, Key("__T__", "a"), "the kind '__T__' is reserved"),
            (self.client.put, Key("T", None, "U", 1), "element 1 of 2 has no identifier"),
            (self.client.get, Key(*["T", "a"] * 101), "a key has 1 to 100 elements, and this one has 101"),
        )
        for ask, key, wanted in cases:
            self.assertIn(wanted, self.said(torfyllan.BadKey, ask, key))

    def test_a_member_says_what_it_takes(self):
        query = self.client.query
        self.assertIn("limit: limit is an int from 0 to 2,147,483,647, and not -1", self.said(torfyllan.BadRequest, query, "T", limit=-1))
        self.assertIn("kind: the kind is empty", self.said(torfyllan.BadRequest, query, ""))
        self.assertIn("shard is an int from 0 to 3, and not 4", self.said(torfyllan.BadRequest, self.client.apply, 4))
        self.assertIn("count is an int from 1", self.said(torfyllan.BadRequest, self.client.allocate_ids, 0))
        named = self.server.client(3, namespace="a b").query
        self.assertIn("namespace: a namespace has at most 100", self.said(torfyllan.BadRequest, named, "T"))

    def test_each_reason_is_a_sentence_with_the_properties(self):
        query = self.client.query
        cases = (
            ({"filters": [("a", ">", 1), ("b", "<", 1)]}, "on one property alone: here on a and b"),
            ({"filters": [("a", "=", 1), ("a", ">", 1)]}, "may have one of these alone: a has both"),
            ({"filters": [("a", ">", 1)], "orders": ["b"]}, "here a has the inequality, and the first order is on b"),
            ({"filters": [("t", "=", Text("x"))]}, "so nothing can be found by them: here the one on t"),
            ({"filters": [("__key__", "=", 1)]}, "takes a Key"),
            ({"select": ["a", "a"]}, "names each property once: a stands twice"),
            ({"select": ["a"], "filters": [("a", "=", 1)]}, "its value is known by that: a"),
            ({"select": ["__key__"]}, "a projection takes no __key__"),
            ({"filters": [("a", "in", [1, 2])], "cursor": True}, "use offset and limit there"),
        )
        for words, wanted in cases:
            self.assertIn(wanted, self.said(torfyllan.BadQuery, query, "T", **words))
        self.assertIn("without a kind", self.said(torfyllan.BadQuery, query, filters=[("a", "=", 1)]))
        many = [("a", "in", [1, 2, 3, 4, 5, 6]), ("b", "in", [1, 2, 3, 4, 5]), ("c", "!=", 1)]
        self.assertIn("60 queries (a in 6 values times b in 5 values times c != (2))", self.said(torfyllan.TooManySubqueries, query, "T", filters=many))

    def test_a_gql_text_has_a_caret(self):
        gql = self.client.gql
        said = self.said(torfyllan.BadGql, gql, "SELECT * FROM Täsk WHERE a OR b")
        self.assertIn("no statement goes on with 'ä' here\n\n    SELECT * FROM Täsk WHERE a OR b\n    " + " " * 15 + "^", said)
        said = self.said(torfyllan.BadGql, gql, "SELECT *\nFROM T\nWHERE a OR b")
        self.assertIn("no statement goes on with 'OR' here\n\n    WHERE a OR b\n    " + " " * 8 + "^", said)
        self.assertIn("ends too early", self.said(torfyllan.BadGql, gql, "SELECT * FROM"))
        self.assertIn("has no ' at its end", self.said(torfyllan.BadGql, gql, "SELECT * FROM T WHERE a = 'x"))

    def test_a_missing_argument_is_named(self):
        gql = self.client.gql
        text = "SELECT * FROM T WHERE a = :1 AND b = :2 AND c = :who"
        self.assertIn("the argument :1 isn't given: put it behind the text", self.said(torfyllan.BadGql, gql, text))
        self.assertIn("the argument :2 isn't given: 1 stand behind the text", self.said(torfyllan.BadGql, gql, text, 1))
        self.assertIn("the argument :who isn't given: put it in names={'who': ...}; names has whom", self.said(torfyllan.BadGql, gql, text, 1, 2, names={"whom": 3}))

    def test_transactions_say_what_is_open(self):
        self.assertIn("client 0 has no open transaction to commit", self.said(torfyllan.NoTransaction, self.client.commit))
        with self.assertRaises(ZeroDivisionError):
            with self.client.transaction():
                self.client.get(Key("A", 1))
                self.assertRegex(self.said(torfyllan.InTransaction, self.client.settle), r"begun at \S*test_messages\.py:\d+: settle stands outside of one")
                said = self.said(torfyllan.SecondGroup, self.client.get, Key("B", 2))
                self.assertIn("touched the group Key('A', 1), and Key('B', 2) is a second one: begin it with xg=True", said)
                self.assertIn("give ancestor=", self.said(torfyllan.NeedAncestor, self.client.query, "A"))
                1 / 0

    def test_a_conflict_says_which_transaction_came_between(self):
        other = self.server.client(1)
        with self.assertRaises(torfyllan.Conflict) as caught:
            with self.client.transaction():
                self.client.get(Key("C", "c"))
                with other.transaction():
                    other.put(Key("C", "c", "D", 1))
                    other.delete(Key("C", "c", "D", 2))
        self.assertIn("transaction that wrote Key('C', 'c', 'D', 1), Key('C', 'c', 'D', 2), commit 1 of client 1 at ", str(caught.exception))
        self.assertEqual((caught.exception.writer.commit, caught.exception.writer.client), (1, 1))

    def test_an_id_of_another_store_says_how_to_load_it(self):
        far = 2**52 + 10
        self.assertIn(f"call server.reserve_ids({far}) before", self.said(torfyllan.IdNotIssued, self.client.put, Key("T", far)))
        self.server.reserve_ids(far)
        self.client.put(Key("T", far))
        self.assertGreater(self.client.put(Key("T", None)).key.identifier, far)
        self.server.reserve_ids(far)
        self.server.reserve_ids(17)
        with self.assertRaises(ValueError):
            self.server.reserve_ids(2**63)

    def test_sizes_and_rows_say_what_is_large(self):
        said = self.said(torfyllan.TooLarge, self.client.put, Key("T", "a"), t=Text("x" * 1_048_577), n=1)
        self.assertIn("of these the property t has 1,048,610, and an entity may have 1,048,576", said)
        said = self.said(torfyllan.TooManyRows, self.client.put, Key("T", "a"), a=list(range(10_000)), b=1)
        self.assertIn("20,003 index rows; its lists are a (10000 values)", said)

    def test_escapes_that_make_a_line_too_long_are_told_as_that(self):
        with self.assertRaises(ValueError) as caught:
            self.client.put(Key("T", "a"), t=Text("\x01" * 500_000))
        self.assertIn("the entity itself is within its bound, with 500,051 of 1,048,576 bytes, but JSON writes control characters", str(caught.exception))
        with self.assertRaises(ValueError) as caught:
            self.client.put(Key("T", "a"), t=Text("x" * 2_200_000))
        self.assertIn("the entity has 2,200,051 bytes, and an entity may have 1,048,576", str(caught.exception))
        with self.assertRaises(ValueError) as caught:
            self.client.put(Key("T", "a"), t="\ud800")
        self.assertIn("half of a surrogate pair", str(caught.exception))

    def test_cursors_that_are_none_or_of_another_query(self):
        self.client.put(Key("T", "a"), n=1)
        cursor = self.client.query("T", cursor=True).cursor
        self.assertIn("start='?' is no cursor, since it isn't base64", self.said(torfyllan.BadCursor, self.client.query, "T", start="?"))
        self.assertIn("the cursor in end is one of another query", self.said(torfyllan.CursorMismatch, self.client.query, "U", end=cursor))

    def test_a_refusal_is_copied_and_pickled(self):
        with self.assertRaises(torfyllan.BadKey) as caught:
            self.client.get(Key("T", 0))
        for again in (copy.copy(caught.exception), pickle.loads(pickle.dumps(caught.exception))):
            self.assertEqual((type(again), str(again), again.field), (torfyllan.BadKey, str(caught.exception), "key"))


class Stale(WithServer):
    words = {"shards": 16}

    def test_a_query_says_what_was_not_applied(self):
        self.client.put(Key("T", "a"))
        other = self.server.client(1)
        with other.transaction(xg=True):
            other.put(Key("T", "b"))
            other.put(Key("U", "c"))
        found = self.client.query("T")
        self.assertEqual([(write.commit, write.client, write.keys[0]) for write in found.unapplied], [(1, 0, Key("T", "a")), (2, 1, Key("T", "b"))])
        self.assertRegex(repr(found), r"unapplied=\[put of Key\('T', 'a'\), commit 1 of client 0 at \S+\.py:\d+; transaction that wrote Key\('T', 'b'\), Key")
        self.assertEqual([write.commit for write in self.client.query("U").unapplied], [2])
        self.assertEqual(len(self.client.query().unapplied), 2)
        self.assertEqual([write.commit for write in self.client.gql("SELECT * FROM U").unapplied], [2])
        self.client.apply(Key("T", "a"))
        self.assertEqual([write.commit for write in self.client.query("T").unapplied], [2])
        self.client.settle()
        self.assertEqual(self.client.query("T").unapplied, [])
        self.assertEqual(len(found.unapplied), 2, "what an earlier query didn't see stays what it was")
        self.assertEqual(self.client.query("T", ancestor=Key("T", "a")).unapplied, [])

    def test_namespaces_are_told_apart(self):
        one, other = self.server.client(0, namespace="one"), self.server.client(1, namespace="other")
        one.put(Key("T", "a"))
        self.assertEqual((len(one.query("T").unapplied), other.query("T").unapplied), (1, []))

    def test_what_a_client_writes_later_in_a_round_is_not_missed(self):
        with self.server.round() as round:
            found = round.client(0).query("T")
            round.client(0).put(Key("T", "a"))
        self.assertEqual(found.reply.unapplied, [])
        self.assertEqual(len(self.client.query("T").unapplied), 1)

    def test_a_reply_is_copied_and_pickled(self):
        self.client.put(Key("T", "a"), n=1)
        found = self.client.query("T")
        for again in (copy.copy(found), copy.deepcopy(found), pickle.loads(pickle.dumps(found))):
            self.assertEqual((again, again.applied, [write.commit for write in again.unapplied]), (found, found.applied, [1]))
        with self.assertRaises(AttributeError):
            found.comit

    def test_the_counts_are_those_that_the_server_tells(self):
        for n in range(1, 200):
            self.client.put(Key("T", n))
        with self.client.transaction(xg=True):
            for n in range(1, 10):
                self.client.put(Key("T", n, "U", 1))
                self.client.put(Key("T", n, "U", 2))
        self.assertEqual(self.server._journal.counts(), self.client.settle().applied)


class Slips(WithServer):
    def test_forms_of_queries_are_refused_at_once(self):
        cases = (
            ({"filters": [("a", "==", 1)]}, "'=' is meant"),
            ({"filters": [("a =", 1)]}, "a filter is a property, an operator and a value"),
            ({"filters": ("a", "=", 1)}, "filters is a list"),
            ({"filters": ["a"]}, "filters is a list"),
            ({"filters": [(1, "=", 1)]}, "names a property by a str"),
            ({"filters": [("a", "in", "xy")]}, "takes a list of values"),
            ({"filters": [("a", "in", [])]}, "at least one value"),
            ({"filters": [("a", "=", [1])]}, "takes one value"),
            ({"orders": "a"}, "orders is a list"),
            ({"orders": ("a", "desc")}, "orders is a list"),
            ({"orders": ["a desc"]}, "is written '-a'"),
            ({"orders": ["+a"]}, "is written 'a'"),
            ({"orders": [("a", "down")]}, "'asc' or 'desc', and not 'down'"),
            ({"orders": ["-"]}, "not the empty text"),
            ({"select": "n"}, "a list of properties, as ['n']"),
            ({"select": []}, "at least one property"),
            ({"ancestor": "a"}, "a Key is wanted"),
        )
        for words, wanted in cases:
            with self.assertRaises((TypeError, ValueError)) as caught:
                self.client.query("T", **words)
            self.assertIn(wanted, str(caught.exception))
        with self.assertRaises(TypeError):
            self.client.query("T", filter=[("a", "=", 1)])
        with self.assertRaises(TypeError) as caught:
            self.client._ask("query", knid="T")
        self.assertIn("query has no member 'knid'", str(caught.exception))
        self.assertEqual(self.server._line, 3, "nothing was sent")

    def test_values_say_which_property_and_what_to_do(self):
        for value, wanted in ((1.5, "store an int in a smaller unit"), ({}, "as a Text"), ([[1]], "lists don't nest"), (object(), "stores no object")):
            with self.assertRaises(TypeError) as caught:
                self.client.put(Key("T", "a"), price=value)
            self.assertIn("the property price: ", str(caught.exception))
            self.assertIn(wanted, str(caught.exception))
        with self.assertRaises(TypeError):
            self.client.put(Entity(Key("T", "a")), n=1)


class NoServer(unittest.TestCase):
    def test_a_server_that_is_not_running_says_so(self):
        with self.assertRaises(torfyllan.ServerFailed) as caught:
            Server().client().settle()
        self.assertIn("start() it", str(caught.exception))


if __name__ == "__main__":
    unittest.main()
