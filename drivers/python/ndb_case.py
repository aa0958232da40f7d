"""What the tests of `torfyllan.ndb` share: one server for the tests of a class, and a namespace for each test."""
import os
import sys
import unittest

sys.path.insert(0, os.path.dirname(os.path.abspath(__file__)))
from torfyllan import Server, ndb


class WithServer(unittest.TestCase):
    indexes = None

    @classmethod
    def setUpClass(cls):
        cls.server = Server(indexes=cls.indexes).start()
        cls.addClassCleanup(cls.server.kill)

    def setUp(self):
        self.space = self.id().rpartition(".")[2]
        self.client = self.server.client(namespace=self.space)
        self.client.settle()
        used = ndb.use(self.client)
        self.context = used.__enter__()
        self.addCleanup(used.__exit__, None, None, None)

    def other_request(self, number=1):
        return ndb.use(self.server.client(number, namespace=self.space))
