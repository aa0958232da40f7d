"""Tests of faults on purpose: conflicts by another client, and commits whose reply is withheld.

    python3 drivers/python/test_faults_on_purpose.py
"""
import os
import pickle
import random
import tempfile
import unittest

from by_pytest import TestByPytest
from torfyllan import Conflict, Entity, Key, Server, TorfyllanError, UnknownCommit, cloud, ndb
from torfyllan.schedules import Drawn


class Faults(unittest.TestCase):
    def start(self, **words):
        server = Server(**words).start()
        self.addCleanup(server.kill)
        return server

    def test_words_that_are_no_shares(self):
        for words in ({"conflicts": 1.5}, {"unknown_commits": -0.1}, {"conflicts": True}, {"unknown_commits": "0.1"}):
            with self.subTest(words=words), self.assertRaisesRegex(ValueError, "is the share of commits that meet it, from 0 to 1, and not"):
                Server(**words)

    def test_a_conflict_is_genuine(self):
        """It is another client's delete of a key that isn't there: it is refused by the server, stands in the journal, and changes nothing."""
        server = self.start(conflicts=1)
        client = server.client(namespace="tenant")
        client.put(Key("C", "c"), n=1)
        with self.assertRaises(Conflict) as caught, client.transaction():
            client.get(Key("C", "c"))
            client.put(Key("C", "c"), n=2)
        self.assertEqual((caught.exception.group, caught.exception.commit, caught.exception.writer.client), (Key("C", "c"), 2, 15))
        self.assertIn("on purpose, so that the commit there conflicts", str(caught.exception))
        self.assertEqual(client.settle().place, 2)
        self.assertEqual([(task.key, task["n"]) for task in client.query()], [(Key("C", "c"), 1)])

    def test_what_cannot_conflict(self):
        """A put outside of a transaction, a transaction that touches nothing, and one of a group whose id it draws itself."""
        server = self.start(conflicts=1)
        client = server.client()
        client.put(Key("C", "c"))
        with client.transaction():
            pass
        with client.transaction():
            key = client.put(Key("C", None)).key
        self.assertIsNotNone(client.get(key).entity)

    def test_all_sixteen_in_a_transaction(self):
        """Nobody is left to write beside it, so it doesn't conflict."""
        server = self.start(conflicts=1)
        for number in range(16):
            server.client(number).begin()
            server.client(number).get(Key("C", number + 1))
        server.client(0).commit()
        with self.assertRaises(Conflict):
            server.client(1).commit()

    def test_an_unknown_commit_is_made(self):
        server = self.start(unknown_commits=1)
        client = server.client()
        for number, ask in enumerate((lambda: client.put(Key("T", "a"), n=1), lambda: client.put_multi([Entity(Key("T", "b"))]), lambda: client.delete(Key("T", "b"))), 1):
            with self.assertRaises(UnknownCommit) as caught:
                ask()
            self.assertEqual(caught.exception.commit, number)
            self.assertIn("the reply is withheld on purpose", str(caught.exception))
            self.assertEqual(str(pickle.loads(pickle.dumps(caught.exception))), str(caught.exception))
        self.assertIsInstance(caught.exception, TorfyllanError)
        with self.assertRaises(UnknownCommit), client.transaction():
            client.put(Key("T", "c"))
        self.assertFalse(client.in_transaction)
        self.assertEqual(len(client.get_multi([Key("T", "a"), Key("T", "c")])), 2)
        with client.transaction():
            self.assertIsNotNone(client.get(Key("T", "c")).entity)
        with server.round(raises=False) as round:
            put = round.client(client).put(Key("T", "d"))
        self.assertIsInstance(put.refused, UnknownCommit)

    def test_without_faults(self):
        server = self.start(unknown_commits=1, conflicts=1)
        client = server.client()
        with server.without_faults():
            client.put(Key("T", "a"))
            with client.transaction():
                client.get(Key("T", "a"))
        with self.assertRaises(UnknownCommit):
            client.put(Key("T", "a"))
        with tempfile.TemporaryDirectory() as folder:
            with open(f"{folder}/t.jsonl", "w", encoding="utf-8") as file:
                file.write('{"key":[["T","b"]],"properties":{}}\n')
            self.assertEqual(client.load(f"{folder}/t.jsonl"), 1)

    @staticmethod
    def met(client, count=40):
        """Which of so many transactions meet what."""
        found = ""
        for _ in range(count):
            try:
                with client.transaction():
                    client.get(Key("C", "c"))
                    client.put(Key("C", "c"))
                found += "."
            except Conflict:
                found += "c"
            except UnknownCommit:
                found += "u"
        return found

    def test_the_seed_repeats_them(self):
        first = self.met(self.start(conflicts=0.3, unknown_commits=0.1, seed=7).client())
        self.assertTrue({"c", "u", "."} <= set(first), first)
        again = self.start(conflicts=0.3, unknown_commits=0.1, seed=7, consistency="strong")
        self.assertEqual(self.met(again.client()), first)
        again.reset()
        self.assertEqual(self.met(again.client()), first)
        self.assertNotEqual(self.met(again.client(namespace="other")), first)
        self.assertNotEqual(self.met(self.start(conflicts=0.3, unknown_commits=0.1, seed=8).client()), first)
        self.assertIn("drawn once more by conflicts=0.3, unknown_commits=0.1, seed=7", again._choices.told())

    def test_a_share_is_met_about_so_often(self):
        found = self.met(self.start(conflicts=0.3, unknown_commits=0.2, seed=3).client(), 150)
        self.assertTrue(30 < found.count("c") < 62, found)
        self.assertTrue(10 < found.count("u") < 36, found)

    def test_without_shares_nothing_is_met(self):
        self.assertEqual(self.met(self.start().client()), "." * 40)

    def test_ndb(self):
        class Counter(ndb.Model):
            n = ndb.IntegerProperty(default=0)

        def add():
            counter = Counter.get_or_insert("c")
            counter.n += 1
            counter.put()

        server = self.start(conflicts=1)
        with ndb.use(server.client()), self.assertRaises(ndb.datastore_errors.TransactionFailedError):
            ndb.transaction(add)
        server = self.start(unknown_commits=1)
        with ndb.use(server.client()):
            with self.assertRaises(ndb.datastore_errors.Timeout) as caught:
                ndb.transaction(add)
            self.assertIsInstance(caught.exception.unknown, UnknownCommit)
            self.assertFalse(ndb.in_transaction())
            with self.assertRaises(ndb.datastore_errors.Timeout):
                Counter(id="d").put()
        with ndb.use(server.client()):
            self.assertEqual((Counter.get_by_id("c").n, Counter.get_by_id("d").n), (1, 0))

    def test_the_cloud_client(self):
        server = self.start(unknown_commits=1)
        client = cloud.Client(server.client())
        entity = cloud.Entity(client.key("T", 1))
        with self.assertRaises(cloud.exceptions.DeadlineExceeded) as caught:
            client.put(entity)
        self.assertIsInstance(caught.exception.unknown, UnknownCommit)
        with self.assertRaises(cloud.exceptions.DeadlineExceeded), client.transaction():
            client.put(cloud.Entity(client.key("T", 2)))
        self.assertEqual(len(client.get_multi([client.key("T", 1), client.key("T", 2)])), 2)
        server = self.start(conflicts=1)
        client = cloud.Client(server.client())
        with self.assertRaises(cloud.exceptions.Aborted), client.transaction():
            client.get(client.key("T", 1))
            client.put(entity)


@unittest.skipUnless(os.environ.get("TORFYLLAN_AUDIT"), "TORFYLLAN_AUDIT names no auditor")
class Audited(unittest.TestCase):
    def test_a_run_with_faults_and_one_under_a_schedule_are_legal(self):
        """What the driver does on purpose are lines like others: the auditor finds the whole run legal."""
        with Server(audit=True, conflicts=0.4, unknown_commits=0.2, seed=4) as server:
            client = server.client(namespace="tenant")
            found = Faults.met(client)
            self.assertTrue({"c", "u", "."} <= set(found), found)
            for seed in range(5):
                server._choices = Drawn(random.Random(seed), 20)
                Faults.met(client, 10)
                client.query("C")


class ByFixtures(TestByPytest):
    def test_a_test_says_which_faults_it_met_and_by_which_seed(self):
        text = """
def work(datastore):
    with datastore.transaction():
        datastore.get(Key("C", "c"))
        datastore.put(Key("C", "c"))

def test_first(datastore):
    for _ in range(3):
        try:
            work(datastore)
        except (Conflict, UnknownCommit):
            pass
    assert False

def test_second(datastore):
    assert False, "it met nothing"
"""
        ini = "datastore_conflicts = 0.5\ndatastore_unknown_commits = 0.5\ndatastore_seed = 7\n"
        said, status = self.run_tests(text, ini=ini)
        self.assertEqual(said.count("faults on purpose"), 1, said)
        self.assertIn("the same ones are drawn once more by conflicts=0.5, unknown_commits=0.5, seed=7", said)
        met = [line for line in said.splitlines() if "conflicts" in line or "withheld" in line]
        alone, status = self.run_tests(text, "--datastore-seed", "8", "-k", "first", ini=ini)
        self.assertIn("seed=8", alone)
        alone, status = self.run_tests(text, "-k", "first", ini=ini)
        self.assertEqual([line for line in alone.splitlines() if "conflicts" in line or "withheld" in line], met)

    def test_a_share_that_is_none(self):
        said, status = self.run_tests("\ndef test_it(datastore):\n    pass\n", ini="datastore_conflicts = often\n")
        self.assertIn("conflicts is the share of commits that meet it, from 0 to 1, and not 'often'", said)


if __name__ == "__main__":
    unittest.main()
