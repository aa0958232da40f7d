"""Tests of the driver, against the server itself and against programs that behave badly.

    python3 drivers/python/test_torfyllan.py
"""
import datetime
import os
import signal
import sys
import textwrap
import time
import unittest

sys.path.insert(0, os.path.dirname(os.path.abspath(__file__)))
import torfyllan
from torfyllan import Blob, Date, Entity, Key, Rating, Server, ServerFailed, Text, Unindexed

UTC = datetime.timezone.utc


class WithServer(unittest.TestCase):
    words = {"shards": 1}

    def setUp(self):
        self.server = Server(**self.words)
        self.server.start()
        self.addCleanup(self.server.kill)
        self.client = self.server.client()


class Values(WithServer):
    def test_each_kind_of_value_comes_back_as_it_was_put(self):
        values = {
            "null": None, "truth": True, "int": -(2**63), "str": "å\u0000\U0001f600", "bytes": b"\x00\xff", "blob": Blob(b"\x01"),
            "text": Text("lång"), "date": datetime.datetime(2026, 11, 27, 1, 2, 3, 4, UTC), "far": Date(2**62), "rating": Rating(99),
            "key": Key("T", "b", "U", 7), "several": [1, "x", Key("T", 1)], "note": Unindexed("quiet"), "notes": Unindexed([1, 2]),
        }
        key = self.client.put(Key("T", "ä"), values).key
        entity = self.client.get(key).entity
        self.assertEqual(entity.properties, values)
        for name, value in values.items():
            self.assertIs(type(entity[name]), type(value), name)

    def test_what_the_server_stores_not_is_refused_here(self):
        for value, error in ((1.5, TypeError), (2**63, ValueError), (datetime.datetime(2026, 1, 1), ValueError), ({}, TypeError)):
            with self.assertRaises(error):
                self.client.put(Key("T", "a"), v=value)
        for path in ((), ("T",), (7, "a"), ("T", True), ("T", 1.0)):
            with self.assertRaises((TypeError, ValueError)):
                Key(*path)

    def test_keys_have_parents_and_children(self):
        key = Key("A", 1).child("B", "x")
        self.assertEqual((key, key.parent, key.parent.parent, key.kind), (Key("A", 1, "B", "x"), Key("A", 1), None, "B"))
        self.assertEqual(repr(key), "Key('A', 1, 'B', 'x')")

    def test_a_reply_of_a_megabyte(self):
        text = "ö" * 500_000
        self.client.put(Key("T", "a"), t=Text(text))
        self.assertEqual(self.client.get(Key("T", "a")).entity["t"], text)


class Requests(WithServer):
    words = {"shards": 1, "indexes": "indexes:\n- kind: T\n  properties:\n  - name: a\n  - name: b\n    direction: desc\n"}

    def test_an_id_is_drawn(self):
        first = self.client.put(Key("T", None)).key.identifier
        self.assertEqual(self.client.allocate_ids(3).first, first + 1)
        self.assertEqual(self.client.put(Key("T", None)).key, Key("T", first + 4))

    def test_a_query_is_stale_until_its_writes_are_applied(self):
        self.client.put(Key("T", "a"), a=1)
        self.assertEqual(self.client.query("T").results, [])
        self.assertTrue(self.client.apply().applied)
        self.assertFalse(self.client.apply().applied)
        self.assertEqual(self.client.query("T").results, [Entity(Key("T", "a"), a=1)])
        self.client.delete(Key("T", "a"))
        self.assertIsNone(self.client.get(Key("T", "a")).entity)
        self.assertEqual(len(self.client.query("T")), 0)

    def test_filters_orders_selections_and_cursors(self):
        for n in range(5):
            self.client.put(Key("T", n + 1), a=n % 2, b=n)
        self.client.settle()
        found = self.client.query("T", filters=[("a", "=", 0)], orders=["-b"], limit=2, cursor=True)
        self.assertEqual([entity["b"] for entity in found], [4, 2])
        rest = self.client.query("T", filters=[("a", "=", 0)], orders=[("b", "desc")], start=found.cursor)
        self.assertEqual([entity["b"] for entity in rest], [0])
        self.assertEqual(self.client.query("T", filters=[("b", "in", [1, 3])], select="keys").results, [Key("T", 2), Key("T", 4)])
        self.assertEqual(self.client.query("T", select=["b"], offset=3, limit=1).results, [Entity(Key("T", 4), b=3)])
        said = self.client.gql("SELECT __key__ FROM T WHERE b >= :1 AND b < :top", 3, names={"top": 4})
        self.assertEqual(said.results, [Key("T", 4)])

    def test_a_missing_index_is_told_ready_to_paste(self):
        with self.assertRaises(torfyllan.MissingIndex) as caught:
            self.client.query("T", filters=[("b", "=", 1)], orders=["-c"])
        entry = "- kind: T\n  properties:\n  - name: b\n  - name: c\n    direction: desc\n"
        self.assertEqual(caught.exception.index_yaml, entry)
        self.assertIn(entry, str(caught.exception))
        self.assertEqual(caught.exception.number, 17)
        with Server(indexes="indexes:\n" + entry) as server:
            self.assertEqual(server.client().query("T", filters=[("b", "=", 1)], orders=["-c"]).results, [])

    def test_a_refusal_has_its_name_number_and_members(self):
        with self.assertRaises(torfyllan.BadQuery) as caught:
            self.client.query("T", filters=[("a", ">", 1), ("b", ">", 1)])
        self.assertEqual((caught.exception.name, caught.exception.number, caught.exception.reason), ("BadQuery", 15, "inequalities"))
        self.assertIn("inequalities", str(caught.exception))
        with self.assertRaises(torfyllan.BadGql) as caught:
            self.client.gql("SELECT * FROM")
        self.assertEqual(caught.exception.at, 13)

    def test_slips_are_told_before_anything_is_sent(self):
        for words in ({"filters": [("a", "==", 1)]}, {"filters": ("a", "=", 1)}, {"filters": [("a", "=")]}, {"orders": "-a"}):
            with self.assertRaises((TypeError, ValueError)):
                self.client.query("T", **words)
        self.assertEqual(self.client.query("T").results, [])

    def test_namespaces_are_apart(self):
        one, other = self.server.client(1, namespace="one"), self.server.client(2, namespace="other")
        key = one.put(Key("T", "a"), ref=Key("T", "b")).key
        self.assertEqual((key, key.namespace), (Key("T", "a"), None))
        self.assertIsNone(other.get(Key("T", "a")).entity)
        self.assertEqual(other.get(Key("T", "a", namespace="one")).entity.key.namespace, "one")
        self.client.settle()
        self.assertEqual((one.query("T", select="keys").results, other.query("T").results), ([Key("T", "a")], []))
        found = other.query("T", namespace="one", filters=[("ref", "=", Key("T", "b", namespace="one"))], select="keys")
        self.assertEqual((found.results, other.server), ([Key("T", "a", namespace="one")], self.server))
        with self.assertRaises(torfyllan.BadRequest):
            self.server.client(3, namespace="a b").query("T")


class Transactions(WithServer):
    def counted(self, client):
        entity = client.get(Key("C", "c")).entity
        client.put(Key("C", "c"), n=entity["n"] + 1 if entity else 1)

    def test_a_block_commits_or_rolls_back(self):
        with self.client.transaction():
            self.counted(self.client)
        with self.assertRaises(ZeroDivisionError):
            with self.client.transaction():
                self.counted(self.client)
                1 / 0
        self.assertEqual(self.client.get(Key("C", "c")).entity["n"], 1)
        self.assertFalse(self.client.in_transaction)

    def test_of_two_transactions_one_conflicts_and_is_run_again(self):
        other = self.server.client(1)
        tries = []

        def work():
            tries.append(1)
            self.counted(self.client)
            if len(tries) == 1:
                with other.transaction():
                    self.counted(other)

        self.client.run_in_transaction(work)
        self.assertEqual((len(tries), self.client.get(Key("C", "c")).entity["n"]), (2, 2))

    def test_a_conflict_names_its_group(self):
        other = self.server.client(1)
        with self.assertRaises(torfyllan.Conflict) as caught:
            with self.client.transaction():
                self.counted(self.client)
                other.put(Key("C", "c"), n=9)
        self.assertEqual((caught.exception.group, caught.exception.commit), (Key("C", "c"), 1))
        said = str(caught.exception)
        self.assertIn("the group Key('C', 'c'), which the transaction touched, was written meanwhile: put of Key('C', 'c'), commit 1 of client 1 at ", said)
        self.assertRegex(said, r"test_torfyllan\.py:\d+\. Nothing of the transaction is written")
        self.assertIn("(Conflict, error 13: commit of client 0, line ", said)

    def test_shards_apply_apart(self):
        with Server() as server:
            client = server.client()
            client.put(Key("T", "a"))
            client.get(Key("Other", "x"))
            self.assertEqual((client.query("T").results, len(client.query("T").applied)), ([], 16))

    def test_several_groups_need_the_flag(self):
        with self.assertRaises(torfyllan.SecondGroup):
            with self.client.transaction():
                self.client.get(Key("C", "a"))
                self.client.get(Key("C", "b"))
        with self.client.transaction(xg=True):
            self.client.put(Key("C", "a"))
            self.client.put(Key("C", "b"))
        self.assertIsNotNone(self.client.get(Key("C", "b")).entity)


class Rounds(WithServer):
    words = {"shards": 4}

    def test_sixteen_clients_in_a_round(self):
        with self.server.round() as round:
            puts = [round.client(n).put(Key("T", f"n{n}"), n=n) for n in range(16)]
            reads = [round.client(n).get(Key("T", f"n{n}")) for n in range(16)]
        self.assertEqual(sorted(put.reply.commit for put in puts), list(range(1, 17)))
        self.assertEqual([read.reply.entity["n"] for read in reads], list(range(16)))

    def test_a_refusal_is_raised_at_the_end_of_a_round(self):
        with self.assertRaises(torfyllan.BadQuery) as caught:
            with self.server.round() as round:
                good = round.client(1).put(Key("T", "a"))
                bad = [round.client(0).query("T", filters=[("a", "=", 1), ("a", ">", 0)]) for _ in range(3)]
        self.assertIn("2 more of the round were refused", str(caught.exception))
        self.assertEqual((good.reply.commit, bad[2].refused.reason), (1, "equal_and_range"))

    def test_a_refusal_in_a_round_is_kept_for_its_line_where_this_is_asked(self):
        with self.server.round(raises=False) as round:
            bad = round.client(0).query("T", filters=[("a", "=", 1), ("a", ">", 0)])
            good = round.client(1).put(Key("T", "a"))
            with self.assertRaises(torfyllan.TorfyllanError):
                good.reply
        self.assertIsInstance(bad.refused, torfyllan.BadQuery)
        self.assertIsNone(good.refused)
        with self.assertRaises(torfyllan.BadQuery):
            bad.reply

    def test_a_round_of_many_lines(self):
        with self.server.round() as round:
            client = round.client(0)
            puts = [client.put(Key("T", n), text="x" * 200) for n in range(1, 5001)]
        self.assertEqual(puts[-1].reply.commit, 5000)

    def test_what_a_round_cannot_do_is_said(self):
        with self.server.round() as round:
            with self.assertRaises(torfyllan.TorfyllanError):
                with round.client(0).transaction():
                    pass
        with self.assertRaises(ValueError):
            self.client.put(Key("T", "a"), t=Text("x" * 2_200_000))
        self.assertIsNone(self.client.get(Key("T", "a")).entity)


class Failures(unittest.TestCase):
    def program(self, body):
        """A program in place of the server: it answers the first line, and then does this."""
        text = 'import os, sys, time\nsys.stdin.readline()\nsys.stdin.readline()\nprint(\'{"client":0,"line":1,"ok":"settle"}\', flush=True)\n'
        return [sys.executable, "-c", text + textwrap.dedent(body)]

    def failed(self, body, **words):
        server = Server(program=self.program(body), **words).start()
        with self.assertRaises(ServerFailed) as caught:
            server.client().settle()
        with self.assertRaises(ServerFailed):
            server.client().settle()
        self.assertFalse(server.is_alive)
        return str(caught.exception)

    def test_a_server_that_dies_in_the_middle_of_a_round(self):
        said = self.failed("sys.stdin.readline(); print('out of luck', file=sys.stderr); sys.exit(6)")
        self.assertIn("status 6", said)
        self.assertIn("out of luck", said)

    def test_the_server_itself_is_killed(self):
        server = Server().start()
        os.kill(server._process.pid, signal.SIGKILL)
        with self.assertRaises(ServerFailed):
            server.client().settle()

    def test_a_broken_pipe(self):
        server = Server(program=self.program("os.close(0); time.sleep(30)")).start()
        with self.assertRaises(ServerFailed):
            for _ in range(2):
                with server.round() as round:
                    client = round.client(0)
                    for n in range(1000):
                        client.put(Key("T", n + 1), t="x" * 1000)

    def test_lines_that_are_no_replies(self):
        self.assertIn("isn't JSON", self.failed("sys.stdin.readline(); print('{', flush=True); time.sleep(30)"))
        self.assertIn("no reply", self.failed("sys.stdin.readline(); print('[1]', flush=True); time.sleep(30)"))
        wrong = "sys.stdin.readline(); print('{\"client\":0,\"line\":9,\"ok\":\"settle\"}', flush=True); time.sleep(30)"
        self.assertIn("line 3 got no reply", self.failed(wrong))

    def test_a_server_that_says_nothing(self):
        begun = time.monotonic()
        self.assertIn("within 1 seconds", self.failed("time.sleep(30)", timeout=1.0))
        self.assertLess(time.monotonic() - begun, 10)

    def test_a_program_that_is_not_there(self):
        with self.assertRaises(ServerFailed):
            Server(program="/no/such/program").start()

    def test_words_and_index_files_that_are_wrong(self):
        for words in ({"shards": 17}, {"appliers": 9}, {"window": 0}, {"indexes": "- kind: T\n"}):
            with self.assertRaises(ValueError):
                Server(**words).start()
        with self.assertRaises(torfyllan.IndexFileError) as caught:
            Server(indexes="no_such_index.yaml").start()
        self.assertIn("no_such_index.yaml", str(caught.exception))
        with self.assertRaises(torfyllan.IndexFileError) as caught:
            Server(indexes="indexes:\n- kind: T\n  order: yes\n").start()
        self.assertEqual(caught.exception.line, 3)
        self.assertIn("line 3: order: yes\n    expected `kind:`, `ancestor:` or `properties:`, and not `order:`", str(caught.exception))

    def test_a_server_is_stopped_and_stays_so(self):
        with Server() as server:
            client = server.client()
        with self.assertRaises(ServerFailed):
            client.settle()
        with self.assertRaises(torfyllan.TorfyllanError):
            server.start()


if __name__ == "__main__":
    unittest.main()
