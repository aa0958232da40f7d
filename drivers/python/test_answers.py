"""Tests of which unapplied writes would have changed a query's results: by a table, and against the server, which is asked again once all is applied.

    python3 drivers/python/test_answers.py
"""
import datetime
import random
import unittest

from by_pytest import TestByPytest
from torfyllan import Blob, Key, Rating, Server, Text, Unindexed

EPOCH = datetime.datetime(1970, 1, 1, tzinfo=datetime.timezone.utc)
VALUES = [None, -1, 0, 1, 2, 3, True, False, "a", "b", "ä", b"a", b"\xff", Rating(2), EPOCH, EPOCH + datetime.timedelta(microseconds=2), Key("Task", "a"), Key("Task", 1)]
ROUNDS = 400


class Table(unittest.TestCase):
    def setUp(self):
        self.server = Server().start()
        self.addCleanup(self.server.kill)
        self.client = self.server.client()

    def test_what_a_query_would_have_found(self):
        client = self.client
        client.put(Key("Task", "kept"), n=1, done=True)
        client.put(Key("Task", "goes"), n=2, done=True)
        client.settle()
        client.put(Key("Task", "new"), n=3, done=False)
        client.delete(Key("Task", "goes"))
        client.put(Key("Task", "kept"), n=1, done=True)
        for words, commits in (
            ({}, [3, 4]),
            ({"select": "keys"}, [3, 4]),
            ({"filters": [("done", "=", False)]}, [3]),
            ({"filters": [("done", "=", True)]}, [4]),
            ({"filters": [("n", ">", 3)]}, []),
            ({"filters": [("n", "in", [2, 9])]}, [4]),
            ({"filters": [("n", "!=", 3)]}, [4]),
            ({"filters": [("other", "=", 1)]}, []),
            ({"orders": ["other"]}, []),
            ({"orders": ["n"], "limit": 1}, []),
            ({"orders": ["-n"], "limit": 1}, [3, 4]),
            ({"limit": 0}, []),
            ({"select": ["n"]}, [3, 4]),
        ):
            with self.subTest(words=words):
                found = client.query("Task", **words)
                self.assertEqual([write.commit for write in found.unapplied], commits)
        self.assertEqual([write.commit for write in client.gql("SELECT * FROM Task WHERE n > 3").unapplied], [3, 4, 5])

    def test_the_last_version_counts(self):
        client = self.client
        for n in (1, 2, 3):
            client.put(Key("Task", "a"), n=n)
        self.assertEqual([write.commit for write in client.query("Task").unapplied], [3])
        self.assertEqual(client.query("Task", filters=[("n", "=", 2)]).unapplied, [])
        client.apply(shard=client.shard_of(Key("Task", "a")))
        self.assertEqual([write.commit for write in client.query("Task", filters=[("n", "=", 1)]).unapplied], [3])
        self.assertEqual([write.commit for write in client.query("Task", filters=[("n", "=", 3)]).unapplied], [3])
        with client.transaction():
            client.put(Key("Task", "a"), n=4)
            client.delete(Key("Task", "a"))
        self.assertEqual([write.commit for write in client.query("Task", filters=[("n", "=", 1)]).unapplied], [4])
        self.assertEqual(client.query("Task", filters=[("n", "=", 4)]).unapplied, [])

    def test_what_is_applied_is_given_up(self):
        for n in range(20):
            self.client.put(Key("Task", n + 1), n=n)
        self.assertEqual(len(self.server._journal._contents), 20)
        self.client.get(Key("Task", 1))
        self.assertLess(len(self.server._journal._contents), 20)
        self.client.settle()
        self.assertEqual(self.server._journal._contents, {})


class AgainstTheServer(unittest.TestCase):
    def value(self, draws):
        one = draws.choice(VALUES)
        return draws.choice([one] * 6 + [[one, draws.choice(VALUES)], Unindexed(one), Text("t"), Blob(b"b"), [one], []])

    def asked(self, draws):
        """A query that built-in indexes serve."""
        words = {}
        kind = draws.randrange(6)
        if kind == 1:
            words["filters"] = [("n", "=", draws.choice(VALUES))]
        elif kind == 2:
            words["filters"] = [("n", "in", draws.sample(VALUES, 3))]
        elif kind == 3:
            words["filters"] = [("n", draws.choice(["<", "<=", ">", ">=", "!="]), draws.choice(VALUES)) for _ in range(draws.choice([1, 1, 2]))]
        elif kind == 4:
            words["filters"] = [("n", "=", draws.choice(VALUES)), ("m", "=", draws.choice(VALUES))]
        elif kind == 5:
            words["filters"] = [("__key__", draws.choice([">", "<="]), Key("Task", draws.choice("abcdef")))]
        if kind in (0, 3) and draws.random() < 0.4:
            words["orders"] = [draws.choice(["n", "-n"])]
        if kind in (0, 3) and draws.random() < 0.3:
            words["select"] = ["n"]
        elif draws.random() < 0.3:
            words["select"] = "keys"
        if draws.random() < 0.4:
            words["limit"] = draws.choice([1, 2, 3, 5])
        return words

    def test_results_differ_exactly_where_it_is_said(self):
        draws, counts = random.Random(1), [0, 0, 0]
        with Server() as server:
            client = server.client()
            for step in range(ROUNDS):
                if step % 40 == 0:
                    client = server.client(namespace=f"n{step}")
                for _ in range(draws.randrange(1, 4)):
                    key = Key("Task", draws.choice("abcdef"))
                    if draws.random() < 0.2:
                        client.delete(key)
                    else:
                        client.put(key, n=self.value(draws), m=self.value(draws), o=draws.randrange(3))
                if draws.random() < 0.3:
                    client.get(Key("Task", draws.choice("abcdef")))
                words = self.asked(draws)
                before = client.query("Task", **words)
                said = len(before.unapplied)
                client.settle()
                after = client.query("Task", **words)
                differ = list(before) != list(after)
                counts[differ] += 1
                with self.subTest(step=step, words=words, before=list(before), after=list(after)):
                    moves = words.get("select") == "keys" and ("orders" in words or words.get("filters", [("", "=")])[0][1] not in ("=", "in"))
                    if differ or not ("limit" in words or moves):
                        self.assertEqual(said > 0, differ)
                    else:
                        counts[2] += said > 0
        self.assertTrue(min(counts[:2]) > ROUNDS / 8 and counts[2] < ROUNDS / 10, counts)


class ByReport(TestByPytest):
    def test_a_failing_test_is_told_what_makes_a_difference(self):
        said, _ = self.run_tests(
            """
def test_it(datastore):
    datastore.put(Key("Task", "goes"), n=1)
    datastore.settle()
    datastore.put(Key("Task", "new"), n=2)
    datastore.delete(Key("Task", "goes"))
    datastore.put(Key("Task", "other"), n=9)
    assert datastore.count("Task", filters=[("n", "=", 1)]) == 0
    assert False
"""
        )
        self.assertIn("the query of Task has no ancestor; with what wasn't applied yet it would not have found:\n    delete of Key('Task', 'goes'), commit 3", said)
        self.assertNotIn("Key('Task', 'other')", said.split("queries that saw less")[1])
        self.assertNotIn("it would have found", said)


if __name__ == "__main__":
    unittest.main()
