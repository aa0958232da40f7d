"""A server for the tests of a class of `torfyllan.cloud`, and a namespace and clients for each."""
import os
import sys
import unittest

sys.path.insert(0, os.path.dirname(os.path.abspath(__file__)))
from torfyllan import Server, cloud

INDEXES = "indexes:\n- kind: Task\n  properties:\n  - name: even\n  - name: n\n- kind: Task\n  properties:\n  - name: even\n  - name: n\n    direction: desc\n" \
    "- kind: Any\n  properties:\n  - name: w\n  - name: v\n"


class WithServer(unittest.TestCase):
    """One server for the tests of a class, and a namespace for each test."""

    @classmethod
    def setUpClass(cls):
        cls.server = Server(indexes=INDEXES).start()
        cls.addClassCleanup(cls.server.kill)

    def setUp(self):
        self.space = self.id().rpartition(".")[2][:90]
        self.connection = self.server.client(namespace=self.space)
        self.connection.settle()
        self.client = cloud.Client(self.connection)
        self.other = cloud.Client(self.server.client(1, namespace=self.space))

    def tearDown(self):
        self.assertFalse([number for number, session in enumerate(self.server._sessions) if session.is_open])

    def made(self, *path, **properties):
        entity = cloud.Entity(key=self.client.key(*path))
        entity.update(properties)
        return entity

    def tasks(self, *numbers):
        self.client.put_multi([self.made("Task", f"t{n}", n=n, even=n % 2 == 0) for n in numbers])
        self.connection.settle()

    def numbers(self, **words):
        limit = {name: words.pop(name) for name in ("limit", "offset") if name in words}
        return [entity["n"] for entity in self.client.query(kind="Task", **words).fetch(**limit)]
