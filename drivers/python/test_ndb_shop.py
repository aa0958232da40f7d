"""Tests of a ticket shop in ndb, `ndb_shop.py`, which runs unchanged here.

    python3 drivers/python/test_ndb_shop.py
"""
import datetime
import json
import os
import sys
import unittest

sys.path.insert(0, os.path.dirname(os.path.abspath(__file__)))
from torfyllan import ndb

ndb.install()

import ndb_shop as shop  # noqa: E402
from ndb_case import WithServer  # noqa: E402

INDEXES = """\
indexes:
- kind: Event
  properties: [{name: starts}, {name: title}]
- kind: Order
  ancestor: yes
  properties: [{name: ordered, direction: desc}]
"""


class Shop(WithServer):
    indexes = INDEXES

    def setUp(self):
        super().setUp()
        floor = shop.TicketClass(name="floor", price=shop.Price(cents=50000), seats=3)
        balcony = shop.TicketClass(name="balcony", price=shop.Price(cents=30000), seats=1)
        self.concert = shop.open_sale(shop.Concert(title="Kraftwerk", artist="Kraftwerk", starts=datetime.datetime(2014, 6, 1, 20), doors=datetime.time(19),
                                                   tags=["music", "live"], classes=[floor, balcony]))
        self.game = shop.open_sale(shop.Game(title="Derby", starts=datetime.datetime(2014, 5, 2, 18), tags=["sport", "live"], description="x" * 5000, classes=[
            shop.TicketClass(name="floor", price=shop.Price(cents=20000, currency="EUR"), seats=10)]))
        self.ann = shop.sign_up(" Ann@Example.com ", "Ann")
        self.client.settle()
        self.context.clear_cache()

    def left(self, event, name="floor"):
        return ndb.Key(shop.Stock, name, parent=event).get(use_cache=False).left

    def test_an_order(self):
        order = shop.buy(self.ann, (self.concert, "floor", 2), (self.game, "floor", 1)).get()
        self.assertEqual((order.total, order.events, order.status, order.key.parent()), (120000, [self.concert, self.game], "paid", self.ann))
        self.assertEqual((self.left(self.concert), self.left(self.game), self.ann.get().spent), (1, 9, 120000))
        self.client.settle()
        self.assertEqual([line.text for line in shop.Log.query()], ["order %d: paid" % order.key.id()])
        self.assertEqual(shop.Order.query(shop.Order.events == self.game).get(keys_only=True), order.key)

    def test_sold_out(self):
        with self.assertRaises(shop.SoldOut):
            shop.buy(self.ann, (self.game, "floor", 1), (self.concert, "balcony", 2))
        self.assertEqual((self.left(self.concert, "balcony"), self.left(self.game), shop.Order.query(ancestor=self.ann).count()), (1, 10, 0))

    def test_two_who_buy_the_last_at_once(self):
        """The other request takes the last ticket between the read and the commit: the transaction is tried again, and finds none."""
        bob = shop.sign_up("bob@example.com", "Bob")
        put, tried = shop.Order._pre_put_hook, []

        def in_between(order):
            if not tried:
                tried.append(order)
                with self.other_request():
                    shop.buy(bob, (self.concert, "balcony", 1))

        shop.Order._pre_put_hook = in_between
        self.addCleanup(setattr, shop.Order, "_pre_put_hook", put)
        with self.assertRaises(shop.SoldOut):
            shop.buy(self.ann, (self.concert, "balcony", 1))
        self.assertEqual((self.left(self.concert, "balcony"), shop.Order.query(ancestor=bob).count(), shop.Order.query(ancestor=self.ann).count()), (0, 1, 0))

    def test_a_refund(self):
        order = shop.buy(self.ann, (self.concert, "floor", 2), (self.game, "floor", 4))
        self.assertEqual((shop.refund(order), shop.refund(order)), (True, False))
        self.assertEqual((self.left(self.concert), self.left(self.game), self.ann.get().spent, order.get().status), (3, 10, 0, "refunded"))
        self.client.settle()
        self.assertEqual(sorted(line.text.split(": ")[1] for line in shop.Log.query()), ["paid", "refunded"])

    def test_an_account(self):
        shop.buy(self.ann, (self.concert, "floor", 1))
        last = shop.buy(self.ann, (self.game, "floor", 2), (self.concert, "floor", 1))
        shop.refund(last)
        self.assertEqual(shop.account(self.ann), {"name": "Ann", "count": 2, "lines": ["refunded: Derby + Kraftwerk, 90000", "paid: Kraftwerk, 50000"]})

    def test_a_customer(self):
        self.assertEqual((self.ann.get().email, self.ann.get().settings["ratio"]), ("ann@example.com", 0.5))
        self.assertEqual(shop.sign_up("ann@example.com", "Anna").get().name, "Ann")
        shop.buy(self.ann, (self.concert, "floor", 1))
        self.ann.delete()
        self.assertEqual((self.ann.get(), shop.Order.query(ancestor=self.ann).count()), (None, 0))

    def test_events(self):
        found = shop.Event.tagged("sport", "live").fetch()
        self.assertEqual([type(event) for event in found], [shop.Game, shop.Concert])
        self.assertEqual([event.title for event in shop.Concert.tagged("live")], ["Kraftwerk"])
        self.assertEqual(shop.Event.query(shop.Event.classes == shop.TicketClass(name="floor", price=shop.Price(cents=50000))).fetch(keys_only=True), [self.concert])
        self.assertEqual(shop.Event.query(shop.Event.classes.price.cents == 20000).get().description, "x" * 5000)
        self.assertEqual(shop.Event.query(shop.Event.search_title == "derby").get(keys_only=True), self.game)
        event = self.game.get()
        event.rating = 4.5
        with self.assertRaises(shop.datastore_errors.BadValueError) as caught:
            event.put()
        self.assertIn("rating is a FloatProperty", str(caught.exception))

    def test_pages(self):
        for n in range(5):
            shop.buy(self.ann, (self.game, "floor", 1 + n % 2))
        query, sizes, bookmark = shop.Order.query(ancestor=self.ann).order(-shop.Order.ordered), [], None
        while True:
            results, bookmark = shop.page_of(query, 2, bookmark)
            sizes.append([order.items[0].count for order in results])
            if bookmark is None:
                break
        self.assertEqual(sizes, [[1, 2], [1, 2], [1]])

    def test_the_start_page(self):
        told = []
        body = b"".join(shop.application({}, lambda status, headers: told.append(status)))
        self.assertEqual((told, [row[:2] for row in json.loads(body)]), (["200 OK"], [["Derby", "2014-05-02T18:00:00"], ["Kraftwerk", "2014-06-01T20:00:00"]]))
        self.assertEqual(ndb.Key(urlsafe=json.loads(body)[0][2]), self.game)
        self.assertEqual(b"".join(shop.application({"shop.tenant": "other"}, lambda status, headers: None)), b"[]")
        shop.namespace_manager.set_namespace("")

    def test_what_a_store_in_memory_hides(self):
        """A new event is not on the start page at once, and is by an ancestor query."""
        new = shop.open_sale(shop.Concert(title="New", starts=datetime.datetime(2014, 7, 1)))
        page = json.loads(b"".join(shop.application({}, lambda status, headers: None)))
        self.assertEqual([row[0] for row in page], ["Derby", "Kraftwerk"])
        self.assertEqual(shop.Event.query(ancestor=new).get(), new.get())


if __name__ == "__main__":
    unittest.main()
