"""Tests of namespaces of a test's own, of keys in GQL texts, and of queries of metadata, which are refused.

    python3 drivers/python/test_spaces.py
"""
import copy
import os
import pathlib
import pickle
import subprocess
import sys
import tempfile
import unittest

sys.path.insert(0, os.path.dirname(os.path.abspath(__file__)))
from torfyllan import BadGql, BadRequest, Key, Refused, Server, shard_of
from torfyllan.gql_keys import keys_bound
from torfyllan.spaces import OwnSpace, space_in, space_out

HERE = os.path.dirname(os.path.abspath(__file__))

CONFTEST = 'pytest_plugins = ["torfyllan.pytest_plugin"]\n'

TESTS = """\
import pytest
from torfyllan import Key, cloud, ndb

class Thing(ndb.Model):
    n = ndb.IntegerProperty()

@pytest.mark.parametrize("turn", [1, 2])
def test_an_application_with_namespaces(ndb_context, turn):
    ndb_context.client.settle()
    assert Thing.query(namespace="tenant").count() == 0
    key = Thing(id="a", n=turn, namespace="tenant").put()
    assert (key.namespace(), key.get().n) == ("tenant", turn)
    ndb_context.client.settle()
    ndb_context.clear_cache()
    assert [thing.key for thing in Thing.query(namespace="tenant")] == [ndb.Key(Thing, "a", namespace="tenant")]
    assert Thing.query().count() == 0

@pytest.mark.parametrize("turn", [1, 2])
def test_the_driver(datastore, datastore_server, turn):
    other = datastore_server.client(1, namespace=datastore.namespace)
    other.put(Key("Thing", "a", namespace="tenant"), at=Key("Thing", "b", namespace="tenant"), n=turn)
    found = datastore.get(Key("Thing", "a", namespace="tenant")).entity
    assert (found.key, found["at"], found["n"]) == (Key("Thing", "a", namespace="tenant"), Key("Thing", "b", namespace="tenant"), turn)
    assert len(datastore.query("Thing", namespace="tenant")) == 1
    assert datastore_server.client(2).get(Key("Thing", "a", namespace="tenant")).entity is None
    assert datastore.get(Key("Thing", "a", namespace="")).entity is None
    datastore.put(Key("Thing", "c"))
    assert datastore.get(Key("Thing", "c", namespace="")).entity.key == Key("Thing", "c")
    assert datastore.get(Key("Thing", "c", namespace=datastore.namespace)).entity.key == Key("Thing", "c")
"""


class OwnSpaces(unittest.TestCase):
    def test_names_both_ways(self):
        space, other = OwnSpace("test-a"), OwnSpace("test-b")
        self.assertEqual((space, space_out(None, space), space_out("", space), space_out("test-a", space)), ("test-a",) * 4)
        self.assertEqual((space_out("tenant", ""), space_in("tenant", ""), space_in("", "")), ("tenant", "tenant", None))
        names = ["tenant", "t" * 100, "t" * 99, "a.b_c-d"]
        sent = {name: space_out(name, space) for name in names}
        self.assertEqual(len({*sent.values(), *(space_out(name, other) for name in names)}), 8)
        for name in names:
            self.assertLessEqual(len(sent[name]), 100)
            self.assertEqual((space_in(sent[name], space), space_out(name, space)), (name, sent[name]))
        for wrong in ("a b", "t" * 101, "ö"):
            self.assertEqual(space_out(wrong, space), wrong)

    def test_groups_have_the_shards_that_they_have_in_the_namespace_of_the_name(self):
        space = OwnSpace("test-a")
        for name in ("tenant", "x", "t" * 100):
            for group in ("a", "b", "c", 7):
                key = Key("Task", group, namespace=name)
                self.assertEqual(shard_of(key, 16, space), shard_of(key, 16), key)

    def test_copies(self):
        space = OwnSpace("test-a")
        sent = space_out("tenant", space)
        for each in (pickle.loads(pickle.dumps(space)), copy.deepcopy(space)):
            self.assertEqual((type(each), each, space_in(sent, each)), (OwnSpace, "test-a", "tenant"))

    def test_what_is_told_has_the_names_of_the_application(self):
        with Server() as server:
            client, other = (server.client(number, namespace=OwnSpace("test-a")) for number in (0, 1))
            tenant = Key("Task", "a", namespace="tenant")
            client.put(tenant, n=1)
            found = client.query("Task", namespace="tenant")
            self.assertEqual((found.results, [write.commit for write in found.unapplied]), ([], [1]))
            self.assertEqual(client.apply(tenant).applied, True)
            self.assertEqual(client.query("Task", namespace="tenant").results[0].key, tenant)
            self.assertEqual(server.client(2).query("Task", namespace="tenant").results, [])
            client.begin()
            client.get(tenant)
            other.put(tenant, n=2)
            client.put(tenant, n=3)
            with self.assertRaises(Refused) as caught:
                client.commit()
            self.assertEqual((caught.exception.group, caught.exception.writer.commit), (tenant, 2))
            with self.assertRaises(BadRequest):
                client.query("Task", namespace="a b")


class KeysInGql(unittest.TestCase):
    def test_the_text(self):
        for text, expected, keys in (
            ("SELECT * FROM P WHERE __key__ = KEY('P', 'a')", "SELECT * FROM P WHERE __key__ = :k1          ", [Key("P", "a")]),
            ("... ANCESTOR IS key ( 'P' , 7 , 'Q','it''s' ) AND a = 'KEY(''P'', 1)'", "... ANCESTOR IS :k1" + " " * 27 + "AND a = 'KEY(''P'', 1)'", [Key("P", 7, "Q", "it's")]),
            ("a IN (KEY('P',1), KEY('P',2), :k1)", "a IN (:k2       , :k3       , :k1)", [Key("P", 1), Key("P", 2)]),
            ("a = KEY('ö', 1)", "a = :k1         ", [Key("ö", 1)]),
        ):
            bound, found = keys_bound(text, ["k9"])
            self.assertEqual((bound.rstrip(), list(found.values())), (expected.rstrip(), keys))
            self.assertEqual(len(bound.encode()), len(text.encode()), text)

    def test_what_is_no_key_is_left_to_the_server(self):
        for text in ("a = KEY('P')", "a = KEY('P', 0)", "a = KEY(P, 1)", "a = KEY('P', 1,)", "a = KEY('P', 9223372036854775808)", "a = KEY('', 1)", 'a = "KEY"',
                     "a = 'KEY(''P'', 1)", "KEYS('P', 1)", ":KEY", "a.KEY('P',1)", "KEY('P' 1)"):
            self.assertEqual(keys_bound(text, []), (text, {}))

    def test_a_key_stands_in_the_namespace_of_the_client(self):
        with Server() as server:
            for space in ("", "tenant", OwnSpace("test-a")):
                client = server.client(namespace=space)
                client.put(Key("P", "a"), other=Key("P", "b"))
                client.put(Key("P", "a", "Q", 1), other=Key("P", "b"))
                client.settle()
                self.assertEqual(client.gql("SELECT __key__ FROM P WHERE __key__ = KEY('P', 'a')").results, [Key("P", "a")])
                self.assertEqual(client.gql("SELECT __key__ FROM P WHERE other = KEY('P', 'b')").results, [Key("P", "a")])
                found = client.gql("SELECT __key__ FROM Q WHERE ANCESTOR IS KEY('P', 'a') AND other = :who", names={"who": Key("P", "b")})
                self.assertEqual(found.results, [Key("P", "a", "Q", 1)])
                with self.assertRaises(BadGql) as caught:
                    client.gql("SELECT __key__ FROM P WHERE __key__ = KEY('P', 'a') OR a = 1")
                self.assertEqual(caught.exception.at, 52)


class Metadata(unittest.TestCase):
    def test_it_is_refused_before_it_is_sent(self):
        with Server() as server:
            client = server.client()
            for ask in (lambda: client.query("__kind__"), lambda: client.query("__namespace__", select="keys"), lambda: client.fetch("__property__"),
                        lambda: client.gql("SELECT * FROM __kind__"), lambda: client.query("__Stat_Total__"), lambda: client.count("__entitygroup__")):
                with self.assertRaises(ValueError) as caught:
                    ask()
                self.assertIn("no list of kinds", str(caught.exception))
            self.assertEqual(client.query("_kind_").results, [])


class Fixtures(unittest.TestCase):
    def test_each_test_has_namespaces_of_its_own(self):
        python = next((each for each in (sys.executable, "/usr/bin/python3")
                       if os.path.exists(each) and subprocess.run([each, "-c", "import pytest"], capture_output=True).returncode == 0), None)
        if python is None:
            print("namespaces of a test's own: not tried by the fixtures, since there is no pytest")
            self.skipTest("no pytest")
        with tempfile.TemporaryDirectory() as folder:
            pathlib.Path(folder, "conftest.py").write_text(CONFTEST, encoding="utf-8")
            pathlib.Path(folder, "test_fixtures.py").write_text(TESTS, encoding="utf-8")
            words = {**os.environ, "PYTHONPATH": HERE, "PYTHONDONTWRITEBYTECODE": "1"}
            ran = subprocess.run([python, "-m", "pytest", "-q", "-p", "no:cacheprovider", folder], capture_output=True, text=True, env=words)
        self.assertIn("4 passed", ran.stdout, ran.stdout + ran.stderr)


if __name__ == "__main__":
    unittest.main()
