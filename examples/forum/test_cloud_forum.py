"""Three tests of a forum for the Cloud client that a store in memory lets pass.

    FORUM=first_cloud_forum python3 examples/forum/test_cloud_forum.py      all three fail
    python3 examples/forum/test_cloud_forum.py                              all three pass
"""
import importlib
import os
import sys
import unittest

HERE = os.path.dirname(os.path.abspath(__file__))
sys.path[:0] = [HERE, os.path.join(HERE, "..", "..", "drivers", "python")]
from torfyllan import Server, cloud

cloud.install()
NAME = os.environ.get("FORUM", "cloud_forum")
forum = importlib.import_module(NAME)
INDEXES = None if NAME.startswith("first") else os.path.join(HERE, "index.yaml")
INDEXES_OF_THE_FIRST = "indexes:\n- kind: Post\n  properties:\n  - name: thread\n  - name: written\n    direction: desc\n"


class Forum(unittest.TestCase):
    def start(self, indexes):
        self.server = Server(indexes=indexes).start()
        self.addCleanup(self.server.kill)
        self.client = cloud.Client(self.server.client())

    def test_the_index_file_serves_the_queries(self):
        """A missing index: the exception carries the entry to add."""
        self.start(INDEXES)
        self.assertEqual(forum.newest(self.client, forum.start(self.client, "Hello")), [])

    def test_a_new_post_is_listed_at_once(self):
        """A stale list: nothing is applied here unless the application's own reads see to it."""
        self.start(INDEXES or INDEXES_OF_THE_FIRST)
        thread = forum.start(self.client, "Hello")
        forum.write(self.client, thread, "ann", "First")
        forum.write(self.client, thread, "bob", "Second")
        found = [(post["author"], post["text"]) for post in forum.newest(self.client, thread)]
        self.assertEqual(found, [("bob", "Second"), ("ann", "First")])

    def test_two_who_write_at_once_are_both_counted(self):
        """A lost update: another request writes right after the first one's get."""
        self.start(INDEXES)
        thread = forum.start(self.client, "Hello")
        plain_get, others = self.client.get, ["bob"]

        def get(key):
            found = plain_get(key)
            if others:
                forum.write(cloud.Client(self.server.client(1)), thread, others.pop(), "Second")
            return found

        self.client.get = get
        forum.write(self.client, thread, "ann", "First")
        self.assertEqual(plain_get(thread)["posts"], 2)


if __name__ == "__main__":
    unittest.main()
