"""Tests of `torfyllan.cloud`: each name of it that applications use, against the server.

    python3 drivers/python/test_cloud.py
"""
import datetime
import os
import sys
import unittest

sys.path.insert(0, os.path.dirname(os.path.abspath(__file__)))
from torfyllan import Server, cloud
from torfyllan.cloud import exceptions

UTC = datetime.timezone.utc


class WithServer(unittest.TestCase):
    """One server for the tests of a class, and a namespace for each test."""

    @classmethod
    def setUpClass(cls):
        cls.server = Server().start()
        cls.addClassCleanup(cls.server.kill)

    def setUp(self):
        self.space = self.id().rpartition(".")[2]
        self.connection = self.server.client(namespace=self.space)
        self.connection.settle()
        self.client = cloud.Client(self.connection)

    def put(self, *path, **properties):
        entity = self.client.entity(self.client.key(*path))
        entity.update(properties)
        self.client.put(entity)
        return entity

    def tasks(self, *numbers):
        self.client.put_multi([self.made("Task", f"t{n}", n=n, even=n % 2 == 0) for n in numbers])
        self.connection.settle()

    def made(self, *path, **properties):
        entity = cloud.Entity(key=self.client.key(*path))
        entity.update(properties)
        return entity


class Keys(WithServer):
    def test_parts_of_a_key(self):
        key = self.client.key("Book", "main", "Greeting", 7)
        self.assertEqual((key.kind, key.id, key.name, key.id_or_name, key.is_partial), ("Greeting", 7, None, 7, False))
        self.assertEqual((key.flat_path, key.path), (("Book", "main", "Greeting", 7), [{"kind": "Book", "name": "main"}, {"kind": "Greeting", "id": 7}]))
        self.assertEqual((key.parent, key.parent.parent, key.project, key.namespace), (self.client.key("Book", "main"), None, "torfyllan", None))
        self.assertEqual((key, len({key, self.client.key("Greeting", 7, parent=key.parent)})), (cloud.Key("Book", "main", "Greeting", 7, project="torfyllan"), 1))
        partial = self.client.key("Greeting", parent=key.parent)
        self.assertEqual((partial.is_partial, partial.kind, partial.id_or_name, partial.completed_key(7)), (True, "Greeting", None, key))
        self.assertNotEqual(partial, self.client.key("Greeting", parent=key.parent))
        self.assertEqual((cloud.Entity(key).kind, cloud.Entity(key).id, cloud.Entity().kind), ("Greeting", 7, None))

    def test_keys_that_are_none(self):
        partial = self.client.key("Task")
        for work in (self.client.key, lambda: self.client.key(7), lambda: self.client.key("T", 1.5), lambda: self.client.key("T", 1, parent=partial),
                     lambda: self.client.get(partial), lambda: self.client.delete(partial), lambda: self.client.key("T", 1).completed_key(2)):
            with self.assertRaises(ValueError):
                work()

    def test_allocate_ids(self):
        keys = self.client.allocate_ids(self.client.key("Task"), 3)
        self.assertEqual([key.id - keys[0].id for key in keys], [0, 1, 2])
        entity = cloud.Entity(keys[2])
        self.client.put(entity)
        self.assertEqual(self.put("Task").key.id, keys[2].id + 1)
        with self.assertRaises(ValueError):
            self.client.allocate_ids(keys[0], 1)

    def test_namespaces(self):
        tenant = cloud.Client(self.connection, namespace="tenant")
        entity = cloud.Entity(tenant.key("Task", "a"))
        entity.update(ref=tenant.key("Task", "b"), outside=self.client.key("Task", "c"), several=[tenant.key("Task", "b"), self.client.key("Task", "c")])
        tenant.put(entity)
        self.put("Task", "a", n=1)
        self.connection.settle()
        self.assertEqual((tenant.get(tenant.key("Task", "a")), entity.key.namespace), (entity, "tenant"))
        self.assertEqual(list(tenant.query(kind="Task").fetch()), [entity])
        self.assertEqual(([e.key for e in tenant.query(kind="Task").fetch()], [dict(e) for e in self.client.query(kind="Task").fetch()]), ([entity.key], [{"n": 1}]))
        self.assertEqual(len(list(self.client.query(kind="Task", namespace="tenant").fetch())), 1)


class Entities(WithServer):
    def test_values_come_back(self):
        values = {
            "null": None, "truth": True, "number": -(2**63), "text": "å", "bytes": b"\xff", "note": "x" * 2000, "date": datetime.datetime(2026, 1, 1, tzinfo=UTC),
            "key": self.client.key("A", "b"), "many": [1, "x"], "one": [1], "none": [], "quiet": ["q"],
        }
        entity = cloud.Entity(self.client.key("Task"), exclude_from_indexes=["note", "quiet"])
        entity.update(values)
        self.client.put(entity)
        found = self.client.get(entity.key)
        self.assertEqual(found, entity)
        self.assertEqual((dict(found), found.exclude_from_indexes), (values, {"note", "quiet"}))
        for name, value in values.items():
            self.assertIs(type(found[name]), type(value), name)

    def test_a_date_without_a_zone_is_of_utc(self):
        entity = self.put("Task", "a", at=datetime.datetime(2026, 1, 1))
        self.assertEqual(self.client.get(entity.key)["at"], datetime.datetime(2026, 1, 1, tzinfo=UTC))

    def test_what_is_not_stored(self):
        for value in (1.5, {"a": 1}, cloud.Entity(), datetime.date(2026, 1, 1)):
            with self.assertRaises(TypeError) as caught:
                self.put("Task", "a", v=value)
            self.assertIn("v:", str(caught.exception))
        with self.assertRaises(cloud.InvalidArgument) as caught:
            self.put("Task", "a", long="x" * 1501)
        self.assertIn("'long'", str(caught.exception))
        for work in (lambda: self.client.put(cloud.Entity()), lambda: self.client.put_multi(self.made("T", 1))):
            with self.assertRaises(ValueError):
                work()

    def test_get_put_delete(self):
        entity = self.put("Task", "a", n=1)
        self.assertEqual(self.client.get(entity.key), entity)
        entity["n"] = 2
        self.client.put(entity)
        self.assertEqual(self.client.get(entity.key, eventual=True)["n"], 2)
        self.client.delete(entity.key)
        self.assertIsNone(self.client.get(entity.key))

    def test_multi(self):
        self.tasks(1, 2, 3)
        keys = [self.client.key("Task", name) for name in ("t3", "none", "t1")]
        missing = []
        self.assertEqual([entity["n"] for entity in self.client.get_multi(keys, missing=missing)], [3, 1])
        self.assertEqual([entity.key for entity in missing], [keys[1]])
        self.client.delete_multi(keys)
        self.assertEqual(self.client.get_multi(keys), [])

    def test_an_id_that_was_not_drawn(self):
        with self.assertRaises(exceptions.BadRequest):
            self.put("Task", 2**60)


class Queries(WithServer):
    def setUp(self):
        super().setUp()
        self.tasks(1, 2, 3, 4, 5)

    def numbers(self, query, **words):
        return [entity["n"] for entity in query.fetch(**words)]

    def test_filters_orders_and_limits(self):
        query = self.client.query(kind="Task", filters=[("n", ">", 1)], order=["-n"])
        self.assertEqual((self.numbers(query), self.numbers(query, limit=2, offset=1)), ([5, 4, 3, 2], [4, 3]))
        query = self.client.query(kind="Task")
        query.add_filter("even", "=", True).add_filter(filter=cloud.query.PropertyFilter("n", "=", 4))
        self.assertEqual((self.numbers(query), query.filters), ([4], [("even", "=", True), cloud.query.PropertyFilter("n", "=", 4)]))
        query = self.client.query(kind="Task")
        query.order = "-n"
        self.assertEqual(self.numbers(query, limit=1), [5])
        for operator, expected in (("<", [1, 2]), ("<=", [1, 2, 3]), (">=", [3, 4, 5]), ("!=", [1, 2, 4, 5])):
            self.assertEqual(self.numbers(self.client.query(kind="Task", filters=[("n", operator, 3)])), expected)
        self.assertEqual(self.numbers(self.client.query(kind="Task", filters=[("n", "IN", [4, 2])], order=["n"])), [2, 4])
        with self.assertRaises(ValueError):
            query.add_filter("n", "~", 1)

    def test_projection_and_keys_only(self):
        query = self.client.query(kind="Task", projection=["n"])
        self.assertEqual([dict(entity) for entity in query.fetch(limit=2)], [{"n": 1}, {"n": 2}])
        query = self.client.query(kind="Task")
        query.keys_only()
        query.add_filter("__key__", ">", self.client.key("Task", "t4"))
        self.assertEqual([(entity.key.name, dict(entity)) for entity in query.fetch()], [("t5", {})])
        with self.assertRaises(ValueError):
            query.add_filter("__key__", "=", "t4")

    def test_keys_of_another_namespace(self):
        tenant = cloud.Client(self.connection, namespace="tenant")
        entity = cloud.Entity(tenant.key("Task", "x", "Step", 1))
        entity.update(ref=self.client.key("Task", "t1"), own=tenant.key("Task", "x"))
        tenant.put(entity)
        self.connection.settle()
        for query in (tenant.query(kind="Step", filters=[("ref", "=", self.client.key("Task", "t1"))]),
                      tenant.query(kind="Step", filters=[("own", "=", tenant.key("Task", "x"))]),
                      tenant.query(kind="Step", ancestor=tenant.key("Task", "x"))):
            self.assertEqual(list(query.fetch()), [entity])
        self.assertEqual(list(tenant.query(kind="Step", filters=[("ref", "=", tenant.key("Task", "t1"))]).fetch()), [])

    def test_ancestor(self):
        child = self.put("Task", "t1", "Step", 1)
        query = self.client.query(kind="Step", ancestor=child.key.parent)
        self.assertEqual([entity.key for entity in query.fetch()], [child.key])
        with self.assertRaises(TypeError):
            self.client.query(kind="Step", ancestor="t1")

    def test_cursors(self):
        query = self.client.query(kind="Task", order=["n"])
        first = query.fetch(limit=2)
        self.assertIsNone(first.next_page_token)
        page = next(first.pages)
        self.assertEqual([entity["n"] for entity in page], [1, 2])
        second = query.fetch(limit=3, start_cursor=first.next_page_token.decode())
        self.assertEqual([entity["n"] for entity in second], [3, 4, 5])
        self.assertIsNone(second.next_page_token)
        self.assertEqual(self.numbers(query, end_cursor=first.next_page_token), [1, 2])
        several = self.client.query(kind="Task", filters=[("n", "IN", [1, 2])]).fetch(limit=1)
        self.assertEqual(len(list(several)), 1)
        for work in (lambda: several.next_page_token, lambda: query.fetch(start_cursor="ö"),
                     lambda: list(self.client.query(kind="Task").fetch(start_cursor=first.next_page_token))):
            with self.assertRaises(cloud.InvalidArgument):
                work()

    def test_a_stale_query(self):
        self.put("Task", "new", n=6)
        query = self.client.query(kind="Task", filters=[("n", "=", 6)])
        self.assertEqual(self.numbers(query), [])
        self.connection.settle()
        self.assertEqual(self.numbers(query), [6])

    def test_a_missing_index_is_told(self):
        with self.assertRaises(cloud.FailedPrecondition) as caught:
            list(self.client.query(kind="Task", filters=[("even", "=", True)], order=["-n"]).fetch())
        self.assertIn("- kind: Task\n  properties:\n  - name: even\n  - name: n\n    direction: desc\n", caught.exception.message)
        self.assertEqual((caught.exception.code, caught.exception.grpc_status_code), (400, "FAILED_PRECONDITION"))

    def test_queries_that_are_refused(self):
        with self.assertRaises(cloud.InvalidArgument):
            list(self.client.query(kind="Task", filters=[("n", ">", 1), ("even", ">", False)]).fetch())
        with self.assertRaises(NotImplementedError):
            self.client.query(kind="Task", distinct_on=["n"])


class Writes(WithServer):
    def setUp(self):
        super().setUp()
        self.put("Task", "a", n=1)
        self.key = self.client.key("Task", "a")
        self.other = cloud.Client(self.server.client(1, namespace=self.space))

    def grow(self, client, by):
        with client.transaction():
            entity = client.get(self.key)
            entity["n"] += by
            client.put(entity)

    def test_a_batch(self):
        with self.client.batch() as batch:
            entity = self.made("Task")
            batch.put(entity)
            batch.delete(self.key)
            self.assertIs(self.client.current_batch, batch)
            self.assertTrue(entity.key.is_partial)
            self.assertIsNotNone(self.client.get(self.key))
        self.assertEqual((self.client.get(entity.key), self.client.get(self.key), self.client.current_batch), (entity, None, None))
        with self.assertRaises(ZeroDivisionError):
            with self.client.batch() as batch:
                batch.delete(entity.key)
                1 / 0
        self.assertIsNotNone(self.client.get(entity.key))
        with self.assertRaises(ValueError):
            batch.put(entity)
        with self.assertRaises(cloud.InvalidArgument):
            self.client.put_multi([self.made("Task", n) for n in range(1, 502)])

    def test_a_transaction(self):
        self.grow(self.client, 1)
        with self.client.transaction() as transaction:
            self.assertIs(self.client.current_transaction, transaction)
            entity = self.made("Task", "a", "Step")
            transaction.put(entity)
            self.client.put(self.made("Other", "x"))
        self.assertEqual((self.client.get(self.key)["n"], self.client.get(entity.key), self.client.current_transaction), (2, entity, None))
        self.assertIsNotNone(self.client.get(self.client.key("Other", "x")))

    def test_a_conflict(self):
        with self.assertRaises(cloud.Conflict) as caught:
            with self.client.transaction():
                entity = self.client.get(self.key)
                self.grow(self.other, 10)
                entity["n"] += 1
                self.client.put(entity)
        self.assertIsInstance(caught.exception, cloud.Aborted)
        self.assertEqual((caught.exception.code, self.client.get(self.key)["n"], self.connection.in_transaction), (409, 11, False))
        self.grow(self.client, 1)
        self.assertEqual(self.client.get(self.key)["n"], 12)

    def test_rollback(self):
        with self.assertRaises(ZeroDivisionError):
            with self.client.transaction():
                self.client.delete(self.key)
                1 / 0
        with self.client.transaction() as transaction:
            self.client.delete(self.key)
            transaction.rollback()
        transaction = self.client.transaction()
        transaction.begin()
        transaction.delete(self.key)
        transaction.rollback()
        self.assertEqual((self.client.get(self.key)["n"], self.connection.in_transaction), (1, False))
        transaction = self.client.transaction()
        transaction.begin()
        transaction.delete(self.key)
        transaction.commit()
        self.assertIsNone(self.client.get(self.key))

    def test_read_only(self):
        with self.client.transaction(read_only=True):
            self.assertEqual(self.client.get(self.key)["n"], 1)
            for work in (lambda: self.client.put(self.made("Task", "b")), lambda: self.client.delete(self.key)):
                with self.assertRaises(RuntimeError):
                    work()

    def test_a_query_in_a_transaction_has_an_ancestor(self):
        with self.assertRaises(cloud.InvalidArgument):
            with self.client.transaction():
                list(self.client.query(kind="Task").fetch())
        with self.client.transaction():
            self.assertEqual(len(list(self.client.query(kind="Task", ancestor=self.key).fetch())), 1)


class Modes(unittest.TestCase):
    """The server's modes of consistency, as the Cloud client sees them."""

    def seen(self, **words):
        with Server(**words) as server:
            client, seen = cloud.Client(server.client()), []
            for n in range(12):
                entity = cloud.Entity(client.key("Task", f"t{n}"))
                entity["n"] = n
                client.put(entity)
                seen.append(len(list(client.query(kind="Task", filters=[("n", "=", n)]).fetch())))
            return seen

    def test_the_modes(self):
        self.assertEqual((self.seen(), self.seen(consistency="strong")), ([0] * 12, [1] * 12))
        some = self.seen(consistency=0.5, seed=7)
        self.assertEqual((some, set(some)), (self.seen(consistency=0.5, seed=7), {0, 1}))


class Modules(WithServer):
    def test_a_client_without_a_server_uses_that_of_the_block(self):
        client = cloud.Client("project-of-the-application")
        with cloud.use(self.connection):
            self.assertIsNone(client.get(client.key("Task", "a")))
        with self.assertRaises(RuntimeError) as caught:
            client.get(client.key("Task", "a"))
        self.assertIn("cloud.use(server.client())", str(caught.exception))

    def test_the_imports_of_google_cloud(self):
        cloud.install()
        from google.api_core.exceptions import Aborted
        from google.cloud import datastore
        from google.cloud.exceptions import Conflict

        from google.cloud.datastore.batch import Batch
        from google.cloud.datastore.client import Client
        from google.cloud.datastore.entity import Entity
        from google.cloud.datastore.helpers import GeoPoint
        from google.cloud.datastore.key import Key
        from google.cloud.datastore.query import And, Iterator, Or, PropertyFilter, Query
        from google.cloud.datastore.transaction import Transaction
        from google.cloud.datastore.version import __version__

        self.assertIs(datastore.Client, cloud.Client)
        self.assertEqual([Batch, Client, Entity, Key, Query, Transaction], [cloud.Batch, cloud.Client, cloud.Entity, cloud.Key, cloud.Query, cloud.Transaction])
        self.assertEqual([And, Iterator, Or, PropertyFilter, GeoPoint, __version__],
                         [*(getattr(cloud.query, name) for name in ("And", "Iterator", "Or", "PropertyFilter")), cloud.helpers.GeoPoint, datastore.__version__])
        self.assertTrue(issubclass(Aborted, Conflict))


if __name__ == "__main__":
    unittest.main()
