"""Tests of the transactions and batches of `torfyllan.cloud`: beside each other, their ends, and what is no part of them.

    python3 drivers/python/test_cloud_transactions.py
"""
import os
import sys
import threading
import unittest
from concurrent import futures

HERE = os.path.dirname(os.path.abspath(__file__))
sys.path.insert(0, HERE)
from cloud_case import WithServer
from torfyllan import Server, cloud
from torfyllan.spaces import OwnSpace


class Transactions(WithServer):
    def setUp(self):
        super().setUp()
        self.client.put_multi([self.made("Task", name, n=1) for name in ("a", "b")])
        self.a, self.b = self.client.key("Task", "a"), self.client.key("Task", "b")

    def put(self, client, key, n):
        entity = cloud.Entity(key)
        entity["n"] = n
        client.put(entity)

    def test_one_that_only_read_a_group_is_never_refused(self):
        for words in ({}, {"read_only": True}):
            with self.client.transaction(**words):
                self.client.get(self.a)
                self.assertEqual(len(list(self.client.query(ancestor=self.a).fetch())), 1)
                self.put(self.other, self.a, 2)
                self.assertEqual(self.client.get(self.a)["n"], 1 if not words else 2)
        with self.client.transaction():
            pass

    def test_one_that_read_several_groups_is_committed(self):
        with self.assertRaises(cloud.Aborted):
            with self.client.transaction():
                self.client.get_multi([self.a, self.b])
                self.put(self.other, self.a, 2)
        with self.client.transaction():
            self.client.get_multi([self.a, self.b])

    def test_one_that_is_read_only_sees_one_time(self):
        with self.client.transaction(read_only=True):
            self.client.get_multi([self.a, self.b])
            self.put(self.other, self.a, 2)
            self.put(self.other, self.client.key("Task", "c"), 2)
            self.client.get(self.b)
        for tenant in (self.client, cloud.Client(self.server.client(namespace=OwnSpace(self.space)), namespace="tenant")):
            first, second = tenant.key("Task", "x"), tenant.key("Task", "y")
            with self.assertRaises(cloud.Aborted) as caught:
                with tenant.transaction(read_only=True):
                    tenant.get(first)
                    self.put(cloud.Client(self.server.client(1, namespace=tenant._connection().namespace)), first, 2)
                    tenant.get(second)
            self.assertIn("before this read-only transaction read another group", str(caught.exception))
            with tenant.transaction(read_only=True):
                tenant.get(first)
                self.put(self.other, self.a, 2)
                tenant.get(second)

    def test_several_are_open_at_once(self):
        with self.client.transaction():
            self.put(self.client, self.a, 10)
            with self.client.transaction() as inner:
                self.put(self.client, self.b, 20)
                self.assertIs(self.client.current_transaction, inner)
            self.assertEqual(self.client.get(self.b)["n"], 20)
        self.assertEqual([self.client.get(key)["n"] for key in (self.a, self.b)], [10, 20])
        transactions = [self.client.transaction() for _ in range(10)]
        for transaction in transactions:
            transaction.begin()
        self.assertEqual(len({transaction.id for transaction in transactions}), 10)
        for transaction in transactions:
            transaction.rollback()
            self.assertIsNone(transaction.id)

    def test_what_is_outside_of_one_is_no_part_of_it(self):
        transaction = self.client.transaction()
        transaction.begin()
        self.assertEqual(self.client.get(self.a, transaction=transaction)["n"], 1)
        self.put(self.client, self.b, 5)
        self.assertEqual((self.client.get(self.b)["n"], len(transaction.mutations)), (5, 0))
        self.put(self.client, self.a, 5)
        self.assertEqual((self.client.get(self.a, transaction=transaction)["n"], self.client.get(self.a)["n"]), (1, 5))
        transaction.delete(self.a)
        self.assertEqual(transaction.mutations, [("delete", self.a)])
        with self.assertRaises(cloud.Aborted):
            transaction.commit()
        self.assertEqual(self.client.get(self.a)["n"], 5)

    def test_a_key_is_complete_once_its_transaction_is_committed(self):
        entity = self.made("Task", n=5)
        with self.assertRaises(cloud.Aborted):
            with self.client.transaction():
                self.client.get(self.a)
                self.client.put(entity)
                self.put(self.other, self.a, 2)
        self.assertTrue(entity.key.is_partial)
        with self.client.transaction():
            self.client.put(entity)
        self.assertEqual(self.client.get(entity.key)["n"], 5)

    def test_a_batch_in_a_transaction_is_no_part_of_it(self):
        with self.client.transaction() as transaction:
            self.client.get(self.a)
            with self.client.batch() as batch:
                self.assertIsNone(self.client.current_transaction)
                self.assertIs(transaction.current(), None)
                self.put(self.client, self.b, 7)
                self.assertEqual([(each.operation, each.key) for each in batch.mutations], [("upsert", self.b)])
            self.assertIs(transaction.current(), transaction)
            self.assertEqual(self.other.get(self.b)["n"], 7)
            transaction.rollback()
            self.assertIsNone(self.client._transaction(None, False))

    def test_two_requests_at_once_by_one_client_of_the_application(self):
        client, second = cloud.Client("shop"), self.server.client(1, namespace=self.space)
        with cloud.use(self.connection):
            with self.assertRaises(cloud.Aborted):
                with client.transaction() as transaction:
                    entity = client.get(self.a)
                    with cloud.use(second):
                        self.assertIsNone(client.current_transaction)
                        self.put(client, self.a, 5)
                        with client.transaction() as inner:
                            self.assertIs(client.current_transaction, inner)
                            client.delete(self.b)
                    self.assertIs(client.current_transaction, transaction)
                    client.put(entity)
            self.assertEqual((client.get(self.a)["n"], client.get(self.b)), (5, None))

    def test_threads_without_a_block_use_the_one_that_is_open(self):
        client = cloud.Client("shop")

        def read(key):
            with client.transaction():
                return client.get(key)["n"]

        with futures.ThreadPoolExecutor(4) as threads:
            with cloud.use(self.connection):
                self.assertEqual(list(threads.map(read, [self.a, self.b] * 10)), [1] * 20)
            with self.assertRaises(RuntimeError):
                threads.submit(read, self.a).result()
        with self.assertRaises(TypeError):
            with cloud.use("shop"):
                pass

    def test_threads_share_a_client(self):
        def add():
            for left in reversed(range(50)):
                try:
                    with self.client.transaction():
                        entity = self.client.get(self.a)
                        entity["n"] += 1
                        self.client.put(entity)
                    return
                except cloud.Aborted:
                    self.assertTrue(left)

        threads = [threading.Thread(target=add) for _ in range(8)]
        for thread in threads:
            thread.start()
        for thread in threads:
            thread.join()
        self.assertEqual(self.client.get(self.a)["n"], 9)

    def test_calls_out_of_their_turn(self):
        batch, transaction = self.client.batch(), self.client.transaction()
        for work in (lambda: batch.put(self.made("Task", 1)), lambda: batch.delete(self.a), batch.commit, batch.rollback, transaction.commit, transaction.rollback):
            with self.assertRaises(ValueError) as caught:
                work()
            self.assertIn("must be in progress", str(caught.exception))
        batch.begin()
        with self.assertRaises(ValueError):
            batch.begin()
        with self.assertRaises(cloud.InvalidArgument) as caught:
            self.client.put_multi([self.made("Task", "a"), self.made("Task", "a")])
        self.assertIn("one write of a key", str(caught.exception))
        with self.client.transaction():
            self.client.put_multi([self.made("Task", "a", n=1), self.made("Task", "a", n=2)])
            with self.assertRaises(ValueError):
                self.client.get(self.a, eventual=True)
            with self.assertRaises(ValueError):
                list(self.client.query(ancestor=self.a).fetch(eventual=True))
        self.assertEqual(self.client.get(self.a)["n"], 2)
        later = self.client.transaction(begin_later=True)
        later.delete(self.a)
        later.commit()
        self.assertIsNone(self.client.get(self.a))
        with self.assertRaises(RuntimeError):
            with self.client.transaction(read_only=True):
                self.client.delete(self.b)

    def test_one_whose_versions_are_gone_is_aborted(self):
        with Server(shards=1, window=1) as server:
            client, other = cloud.Client(server.client(0)), cloud.Client(server.client(1))
            with self.assertRaises(cloud.Aborted):
                with client.transaction():
                    client.get(client.key("Task", "a"))
                    self.put(other, other.key("Task", "b"), 1)
                    self.put(other, other.key("Task", "c"), 1)
                    server.client(1).settle()
                    with self.assertRaises(cloud.Aborted):
                        client.get(client.key("Task", "a"))
                    client.get(client.key("Task", "a"))
            self.assertFalse(server.client(0).in_transaction)


if __name__ == "__main__":
    unittest.main()
