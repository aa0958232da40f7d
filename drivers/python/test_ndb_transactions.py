"""Tests of the transactions of `torfyllan.ndb`, against the server.

    python3 drivers/python/test_ndb_transactions.py
"""
import os
import sys
import threading
import unittest

sys.path.insert(0, os.path.dirname(os.path.abspath(__file__)))
from ndb_people import Person, WithPeople
from torfyllan import Server, ndb
from torfyllan.ndb import datastore_errors as errors


class Transactions(WithPeople):
    def setUp(self):
        super().setUp()
        Person(id="a", age=1).put()

    def grow(self):
        person = Person.get_by_id("a")
        person.age += 1
        person.put()
        return person.age

    def in_between(self):
        with self.other_request():
            person = Person.get_by_id("a")
            person.age += 10
            person.put()

    def age(self):
        return Person.get_by_id("a", use_cache=False).age

    def test_a_transaction_is_run_again_after_a_conflict(self):
        tries = []

        def work():
            tries.append(ndb.in_transaction())
            grown = self.grow()
            if len(tries) == 1:
                self.in_between()
            return grown

        self.assertEqual(Person.get_by_id("a").age, 1)
        self.assertEqual((ndb.transaction(work), tries, self.age(), ndb.in_transaction()), (12, [True, True], 12, False))
        self.assertEqual(Person.get_by_id("a").age, 12)

    def test_retries(self):
        tries = []

        @ndb.transactional(retries=1)
        def work():
            tries.append(1)
            self.grow()
            self.in_between()

        with self.assertRaises(errors.TransactionFailedError):
            work()
        self.assertEqual((len(tries), self.age()), (2, 21))

    def test_rollback(self):
        def work(error):
            self.grow()
            raise error

        self.assertIsNone(ndb.transaction(lambda: work(ndb.Rollback())))
        with self.assertRaises(ZeroDivisionError):
            ndb.transaction(lambda: work(ZeroDivisionError()))
        self.assertEqual((self.age(), self.client.in_transaction), (1, False))

    def test_xg(self):
        def work():
            ndb.Key(Person, "a").get()
            Person(id="b").put()

        with self.assertRaises(errors.BadRequestError) as caught:
            ndb.transaction(work)
        self.assertIn("xg=True", str(caught.exception))
        ndb.transaction(work, xg=True)
        self.assertIsNotNone(Person.get_by_id("b"))

    def test_an_open_transaction_is_joined(self):
        @ndb.transactional
        def joined():
            return ndb.in_transaction()

        @ndb.transactional(xg=True)
        def outer():
            self.assertTrue(joined())
            with self.assertRaises(errors.BadRequestError):
                ndb.transaction(joined)
            raise ndb.Rollback()

        self.assertTrue(joined())
        self.assertIsNone(outer())

    def test_non_transactional(self):
        @ndb.non_transactional
        def outside():
            Person(id="log").put()
            return ndb.in_transaction()

        @ndb.non_transactional(allow_existing=False)
        def never():
            pass

        def work():
            self.grow()
            self.assertFalse(outside())
            with self.assertRaises(errors.BadRequestError):
                never()
            raise ndb.Rollback()

        ndb.transaction(work)
        self.assertIsNotNone(Person.get_by_id("log"))
        self.assertEqual((self.age(), outside(), never()), (1, False, None))

    def test_threads(self):
        outcomes = []

        @ndb.non_transactional
        def outside():
            return Person.get_by_id("none")

        @ndb.transactional(retries=100)
        def work():
            outside()
            self.grow()

        def run(number):
            with self.other_request(number):
                for _ in range(3):
                    work()
            outcomes.append(number)

        threads = [threading.Thread(target=run, args=(number,)) for number in range(1, 5)]
        for thread in threads:
            thread.start()
        for thread in threads:
            thread.join()
        self.assertEqual((sorted(outcomes), self.age()), ([1, 2, 3, 4], 13))

    def test_no_client_is_left_for_work_outside(self):
        with Server() as server, ndb.use(server.client(0)):
            ndb.transaction(ndb.non_transactional(lambda: None))
            for number in range(16):
                server.client(number, namespace="taken")
            ndb.transaction(ndb.non_transactional(lambda: None))
        with Server() as server, ndb.use(server.client(0)):
            for number in range(16):
                server.client(number)
            with self.assertRaises(RuntimeError) as caught:
                ndb.transaction(ndb.non_transactional(lambda: None))
            self.assertIn("sixteen", str(caught.exception))

    def test_a_query_in_a_transaction_has_an_ancestor(self):
        with self.assertRaises(errors.BadRequestError):
            ndb.transaction(lambda: Person.query().fetch())
        self.assertEqual(ndb.transaction(lambda: Person.query(ancestor=ndb.Key(Person, "a")).count()), 1)

    def test_what_is_called_on_commit(self):
        called = []

        def work():
            ndb.get_context().call_on_commit(lambda: called.append(ndb.in_transaction()))
            return len(called)

        self.assertEqual((ndb.transaction(work), called), (0, [False]))


if __name__ == "__main__":
    unittest.main()
