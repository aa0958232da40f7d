"""Three tests of a guestbook that a store in memory lets pass.

    GUESTBOOK=first_guestbook python3 examples/app/test_guestbook.py      all three fail
    python3 examples/app/test_guestbook.py                                all three pass
"""
import datetime
import importlib
import os
import sys
import unittest

HERE = os.path.dirname(os.path.abspath(__file__))
sys.path[:0] = [HERE, os.path.join(HERE, "..", "..", "drivers", "python")]
from torfyllan import Server

guestbook = importlib.import_module(os.environ.get("GUESTBOOK", "guestbook"))


def day(number):
    return datetime.datetime(2026, 11, number, tzinfo=datetime.timezone.utc)


class Guestbook(unittest.TestCase):
    def start(self, indexes):
        server = Server(indexes=indexes).start()
        self.addCleanup(server.kill)
        return server

    def test_the_index_file_serves_the_queries(self):
        """A missing index: the exception carries the entry to add."""
        server = self.start(guestbook.INDEXES)
        self.assertEqual(guestbook.App(server.client()).newest("main"), [])

    def test_a_new_greeting_is_shown_at_once(self):
        """A stale read: nothing is applied here unless the application's own reads see to it."""
        index = "indexes:\n- kind: Greeting\n  properties:\n  - name: book\n  - name: date\n    direction: desc\n"
        server = self.start(guestbook.INDEXES or index)
        app = guestbook.App(server.client())
        app.sign("main", "ann", "Hello", day(1))
        app.sign("main", "bob", "Bye", day(2))
        self.assertEqual(app.newest("main"), [("bob", "Bye"), ("ann", "Hello")])

    def test_two_who_sign_at_once_are_both_counted(self):
        """A lost update: another client signs between the application's read and its write."""
        server = self.start(guestbook.INDEXES)
        client, other = server.client(0), server.client(1)
        app = guestbook.App(client)
        app.sign("main", "ann", "Hello", day(1))

        plain_put, put_in_between = client.put, []

        def put(key, *properties, **more):
            if not put_in_between:
                put_in_between.append(True)
                guestbook.App(other).sign("main", "bob", "Bye", day(2))
            return plain_put(key, *properties, **more)

        client.put = put
        app.sign("main", "cid", "Hi", day(3))
        self.assertEqual(app.count("main"), 3)


if __name__ == "__main__":
    unittest.main()
