"""Three tests of a forum in ndb that a store in memory lets pass.

    FORUM=first_ndb_forum python3 examples/forum/test_ndb_forum.py      all three fail
    python3 examples/forum/test_ndb_forum.py                            all three pass
"""
import importlib
import os
import sys
import unittest

HERE = os.path.dirname(os.path.abspath(__file__))
sys.path[:0] = [HERE, os.path.join(HERE, "..", "..", "drivers", "python")]
from torfyllan import Server, ndb

ndb.install()
NAME = os.environ.get("FORUM", "ndb_forum")
forum = importlib.import_module(NAME)
INDEXES = None if NAME.startswith("first") else os.path.join(HERE, "index.yaml")
INDEXES_OF_THE_FIRST = "indexes:\n- kind: Post\n  properties:\n  - name: thread\n  - name: written\n    direction: desc\n"


class Forum(unittest.TestCase):
    def start(self, indexes):
        self.server = Server(indexes=indexes).start()
        self.addCleanup(self.server.kill)

    def request(self, number=0):
        """What one request of a user sees."""
        return ndb.use(self.server.client(number))

    def test_the_index_file_serves_the_queries(self):
        """A missing index: the exception carries the entry to add."""
        self.start(INDEXES)
        with self.request():
            self.assertEqual(forum.newest(forum.start("Hello")), [])

    def test_a_new_post_is_listed_at_once(self):
        """A stale list: nothing is applied here unless the application's own reads see to it."""
        self.start(INDEXES or INDEXES_OF_THE_FIRST)
        with self.request():
            thread = forum.start("Hello")
            forum.write(thread, "ann", "First")
            forum.write(thread, "bob", "Second")
        with self.request():
            self.assertEqual([(post.author, post.text) for post in forum.newest(thread)], [("bob", "Second"), ("ann", "First")])

    def test_two_who_write_at_once_are_both_counted(self):
        """A lost update: another request writes between the first one's get and its put."""
        self.start(INDEXES)
        with self.request():
            thread = forum.start("Hello")
        others = ["bob"]

        def before_put(post):
            if others:
                author = others.pop()
                with self.request(1):
                    forum.write(thread, author, "Second")

        forum.Post._pre_put_hook = before_put
        self.addCleanup(delattr, forum.Post, "_pre_put_hook")
        with self.request():
            forum.write(thread, "ann", "First")
        with self.request():
            self.assertEqual(thread.get().posts, 2)


if __name__ == "__main__":
    unittest.main()
