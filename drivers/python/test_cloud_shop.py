"""Tests of a ticket shop that is written for Google Cloud Datastore, which runs as it is behind `cloud.install()`.

    python3 drivers/python/test_cloud_shop.py
"""
import datetime
import importlib
import os
import sys
import unittest

sys.path.insert(0, os.path.dirname(os.path.abspath(__file__)))
from torfyllan import Server, cloud

cloud.install()
shops = importlib.import_module("cloud_shop")

INDEXES = """\
indexes:
- kind: Event
  properties:
  - name: closed
  - name: starts
- kind: Event
  properties:
  - name: genres
  - name: price
    direction: desc
- kind: Order
  properties:
  - name: paid
  - name: held_until
"""
NOW = datetime.datetime(2026, 5, 1, 20, 0, tzinfo=datetime.timezone.utc)


class TicketShop(unittest.TestCase):
    @classmethod
    def setUpClass(cls):
        cls.server = Server(indexes=INDEXES).start()
        cls.addClassCleanup(cls.server.kill)

    def setUp(self):
        space = self.id().rpartition(".")[2]
        self.connection = self.server.client(0, namespace=space)
        self.second = self.server.client(1, namespace=space)
        self.connection.settle()
        used = cloud.use(self.connection)
        used.__enter__()
        self.addCleanup(used.__exit__, None, None, None)
        self.shop = shops.Shop("shop")

    def add(self, *codes, **words):
        for at, code in enumerate(codes):
            given = {"seats": 10, "price": 20 + at, "genres": ["rock"], **words}
            self.shop.add_event(code, code.title(), NOW + datetime.timedelta(days=at), **given)
        self.connection.settle()

    def test_events_come_back_as_they_were(self):
        self.add("a", text="x" * 5000, genres=[])
        event = self.shop.event("a")
        self.assertEqual((event["genres"], event["starts"], len(event["text"]), event.exclude_from_indexes), ([], NOW, 5000, {"text"}))
        with self.assertRaises(shops.NoSuchEvent):
            self.shop.event("b")
        found, missing = self.shop.events(["a", "b", "c"])
        self.assertEqual((list(found), missing), (["a"], ["b", "c"]))

    def test_the_calendar_by_pages(self):
        self.add("a", "b", "c", "d", "e")
        self.shop.close("c")
        self.connection.settle()
        pages, cursor = [], None
        while True:
            events, cursor = self.shop.calendar(2, cursor)
            pages.append([event.key.name for event in events])
            if cursor is None:
                break
        self.assertEqual(pages, [["a", "b"], ["d", "e"]])

    def test_a_calendar_is_stale_until_what_was_put_is_applied(self):
        self.shop.add_event("a", "A", NOW, 10, 20)
        self.assertEqual(self.shop.calendar(), ([], None))
        self.connection.settle()
        self.assertEqual(len(self.shop.calendar()[0]), 1)

    def test_search(self):
        self.add("a", "b", "c")
        self.add("d", genres=["jazz", "soul"], price=5)
        self.assertEqual((self.shop.search("jazz"), self.shop.search("jazz", title="B"), self.shop.titles()), (["D"], ["B", "D"], ["A", "B", "C", "D"]))
        self.assertEqual((self.shop.search("rock", at_most=21), self.shop.search(at_most=20)), (["B", "A"], ["A", "D"]))

    def test_orders(self):
        self.add("a")
        key = self.shop.order("a", "ann", 4, NOW)
        self.shop.pay(key)
        self.shop.order("a", "ann", 6, NOW)
        self.assertEqual((sorted(order["seats"] for order in self.shop.orders_of("ann")), self.shop.event("a")["left"]), ([4, 6], 0))
        for code, error in (("a", shops.SoldOut), ("b", shops.NoSuchEvent)):
            with self.assertRaises(error):
                self.shop.order(code, "bob", 1, NOW)
        self.assertEqual((self.shop.orders_of("bob"), self.connection.in_transaction), ([], False))
        link = self.shop.link_of(key)
        self.assertEqual((self.shop.order_by_link(link)["paid"], self.shop.order_by_link(link).key.path[0]), (True, {"kind": "Customer", "name": "ann"}))
        self.connection.settle()
        self.assertEqual((self.shop.waiting(), self.shop.report(["a"])), (1, {"a": 10}))
        self.assertEqual((self.shop.expire(NOW), self.shop.expire(NOW + datetime.timedelta(hours=1)), self.shop.event("a")["left"]), (0, 1, 6))

    def test_two_who_order_at_once_are_both_served(self):
        """Another customer orders behind the shop's own get: the first try is a conflict, and the second one succeeds."""
        self.add("a")
        plain_get, others = self.shop.client.get, ["bob"]

        def get(key, **words):
            found = plain_get(key, **words)
            if others:
                with cloud.use(self.second):
                    shops.Shop("shop").order("a", others.pop(), 3, NOW)
            return found

        self.shop.client.get = get
        self.shop.order("a", "ann", 4, NOW)
        self.assertEqual((self.shop.event("a")["left"], len(self.shop.orders_of("ann")), len(self.shop.orders_of("bob"))), (3, 1, 1))

    def test_loads(self):
        keys = self.shop.load([{"title": f"t{n:04}", "n": n} for n in range(1001)])
        self.assertEqual((len(set(keys)), self.shop.client.get(keys[-1])["n"]), (1001, 1000))
        self.connection.settle()
        self.assertEqual((self.shop.titles()[-1], self.shop.remove_all()), ("t1000", 1001))
        self.connection.settle()
        self.assertEqual(self.shop.titles(), [])
        first = self.shop.client.allocate_ids(self.shop.client.key("Order"), 1)[0].id
        loaded = self.shop.load_orders("ann", {first + 500: {"seats": 1}, first + 300: {"seats": 2}})
        self.assertEqual([entity["seats"] for entity in self.shop.client.get_multi(loaded)], [1, 2])

    def test_tenants_see_their_own(self):
        self.add("a")
        tenant = shops.Shop("shop", tenant="tenant")
        tenant.add_event("t", "T", NOW, 1, 1)
        self.connection.settle()
        self.assertEqual((tenant.titles(), self.shop.titles(), tenant.event("t").key.namespace), (["T"], ["A"], "tenant"))
        key = tenant.order("t", "ann", 1, NOW)
        self.assertEqual((key.namespace, tenant.order_by_link(tenant.link_of(key)).key, self.shop.orders_of("ann")), ("tenant", key, []))


if __name__ == "__main__":
    unittest.main()
