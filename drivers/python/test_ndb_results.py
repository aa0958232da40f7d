"""Tests of results of `torfyllan.ndb` that are easily wrong without a word.

    python3 drivers/python/test_ndb_results.py
"""
import datetime
import os
import sys
import unittest

sys.path.insert(0, os.path.dirname(os.path.abspath(__file__)))
from ndb_case import WithServer
from torfyllan import Conflict, Key, Unindexed, ndb
from torfyllan.ndb import datastore_errors as errors


class Item(ndb.Model):
    name = ndb.StringProperty()
    n = ndb.IntegerProperty()
    tags = ndb.StringProperty(repeated=True)
    twice = ndb.ComputedProperty(lambda self: (self.n or 0) * 2)
    whole = ndb.ComputedProperty(lambda self: f"{self.name}:{self.n}")


class Dated(ndb.Model):
    made = ndb.DateTimeProperty(auto_now_add=True)


class Writes(WithServer):
    def test_several_are_given_by_any_iterable(self):
        keys = ndb.put_multi(Item(id=n, n=n) for n in range(1, 4))
        self.assertEqual([key.id() for key in keys], [1, 2, 3])
        self.assertEqual([key.id() for key in ndb.put_multi(map(lambda n: Item(id=n), (7, 8)))], [7, 8])
        self.assertEqual([future.get_result().id() for future in ndb.put_multi_async(Item(id=n) for n in (9, 10))], [9, 10])
        self.context.clear_cache()
        self.assertEqual([item.n for item in ndb.get_multi(key for key in keys)], [1, 2, 3])
        self.assertEqual([future.get_result().n for future in ndb.get_multi_async(iter(keys))], [1, 2, 3])
        ndb.delete_multi(key for key in keys[:2])
        for future in ndb.delete_multi_async(iter(keys[2:])):
            future.check_success()
        self.context.clear_cache()
        self.assertEqual(ndb.get_multi(keys), [None] * 3)

    def test_a_truth_value_is_stored_as_a_number(self):
        item = Item(n=True)
        self.assertIs(type(item.n), int)
        self.assertEqual(self.client.get(item.put().to_driver()).entity["n"], 1)
        self.assertIs(type(self.client.get(item.put().to_driver()).entity["n"]), int)
        self.client.settle()
        self.assertEqual(Item.query(Item.n == 1).count(), 1)

    def test_none_beside_auto_now_add(self):
        key = Dated(made=None).put()
        self.assertIsNone(key.get().made)
        self.context.clear_cache()
        self.assertIsNone(key.get().put().get().made)
        self.assertIsNotNone(Dated().put().get().made)
        dated = Dated(made=datetime.datetime(2014, 1, 1))
        self.assertEqual(dated.put().get().made, datetime.datetime(2014, 1, 1))
        del dated.made
        self.assertGreater(dated.put().get().made, datetime.datetime(2014, 1, 1))

    def test_a_text_that_is_too_long_is_refused_at_assignment(self):
        item = Item()
        for name, value in (("name", "x" * 1501), ("name", "ö" * 751), ("tags", ["a", "x" * 1501])):
            with self.assertRaises(errors.BadValueError) as caught:
                setattr(item, name, value)
            self.assertIn("more than 1500", str(caught.exception))
        item.name = "ö" * 745
        self.assertEqual(item.put().get().name, "ö" * 745)
        blob = ndb.BlobProperty("blob", indexed=True)
        with self.assertRaises(errors.BadValueError):
            blob._do_validate(b"x" * 1501)
        self.assertEqual(ndb.TextProperty()._do_validate("x" * 1501), "x" * 1501)

    def test_bytes_of_a_text(self):
        self.assertEqual(Item(name="ö".encode()).name, "ö")
        with self.assertRaises(errors.BadValueError):
            Item(name=b"\xff")

    def test_a_list_read_as_a_single_value_is_the_last(self):
        self.client.put(Key("Item", "a"), name=["first", "last"], n=Unindexed([1, 2]))
        item = Item.get_by_id("a")
        self.assertEqual((item.name, item.n), ("last", 2))

    def test_values_that_the_server_does_not_store(self):
        class Place(ndb.Model):
            price = ndb.FloatProperty(indexed=False)
            prices = ndb.FloatProperty(repeated=True)
            at = ndb.GeoPtProperty()
            owner = ndb.UserProperty(auto_current_user_add=True)
            photo = ndb.BlobKeyProperty()
            name = ndb.StringProperty()

        key = Place(name="x").put()
        self.context.clear_cache()
        found = key.get()
        self.assertEqual((found.price, found.prices, found.at, found.owner, found.photo), (None, [], None, None, None))
        self.client.settle()
        self.assertEqual(Place.query(Place.at == None).count(), 1)  # noqa: E711
        for name, value, told in (("price", 1.5, "floats"), ("price", 2, "floats"), ("prices", [0.5], "floats"), ("at", ndb.GeoPt("1.5, 2"), "places"),
                                  ("photo", ndb.BlobKey("b"), "Blobstore"), ("owner", object(), "users")):
            place = Place(name="y")
            setattr(place, name, value)
            with self.assertRaises(ndb.NotStoredError) as caught:
                place.put()
            self.assertIn(told, str(caught.exception))
            self.assertIn(f"Place.{name}", str(caught.exception))
        for work in (lambda: Place.query(Place.prices > 1.5), lambda: ndb.FilterNode("price", "=", 1.5)):
            with self.assertRaises(ndb.NotStoredError):
                work()
        for name, value in (("price", "x"), ("at", (1, 2)), ("photo", "b")):
            with self.assertRaises(errors.BadValueError):
                setattr(Place(), name, value)
        for given in ((91, 0), ("x",), ("1",), (1, 181)):
            with self.assertRaises(errors.BadValueError):
                ndb.GeoPt(*given)
        self.assertEqual((ndb.GeoPt("1.5, 2"), str(ndb.GeoPt(1, 2))), (ndb.GeoPt(1.5, 2), "1.0,2.0"))


class Results(WithServer):
    indexes = "indexes:\n- kind: Item\n  properties:\n  - name: n\n  - name: whole\n"

    def setUp(self):
        super().setUp()
        rows = (("a", 1, "x", "z"), ("b", 2, "y"), ("c", 3, "x"), ("d", 2, "y", "z"))
        self.keys = ndb.put_multi(Item(id=name, name=name, n=n, tags=list(tags)) for name, n, *tags in rows)
        self.client.settle()

    def names(self, query, **options):
        return [item.name for item in query.fetch(**options)]

    def test_branches_come_one_after_another(self):
        for query, expected in (
            (Item.query(Item.name.IN(["d", "none", "a", "d"])), ["d", "a"]), (Item.query(Item.tags.IN(["y", "x"])), ["b", "d", "a", "c"]),
            (Item.query(Item.n != 2), ["a", "c"]), (Item.query(Item.n.IN([3, 1]), Item.tags.IN(["z", "x"])), ["c", "a"]),
            (Item.query(ndb.OR(Item.n == 3, Item.tags.IN(["z", "y"]))), ["c", "a", "d", "b"]), (Item.query(ndb.FilterNode("n", "in", [3, 2])), ["c", "b", "d"]),
            (Item.query(Item.n.IN([3, 1])).order(Item.n), ["a", "c"]), (Item.query(Item.n.IN([1, 3])).order(-Item.n), ["c", "a"]),
            (Item.query(Item.tags.IN(["z", "y"])).order(Item.tags), ["b", "d", "a"]), (Item.query(ndb.OR(Item.tags == "z", Item.tags == "y")).order(Item.tags), ["b", "d", "a"]),
            (Item.query(ndb.OR(Item.tags == "x", Item.tags == "z")).order(-Item.tags), ["a", "d", "c"]),
        ):
            self.assertEqual(self.names(query), expected, query)
        query = Item.query(Item.tags.IN(["y", "x"]))
        self.assertEqual((self.names(query, offset=1, limit=2), query.count(), query.get().name, query.fetch(2, keys_only=True)),
                         (["d", "a"], 4, "b", [ndb.Key(Item, "b"), ndb.Key(Item, "d")]))
        with self.assertRaises(errors.BadArgumentError) as caught:
            Item.query(Item.n.IN(list(range(31)))).fetch()
        self.assertIn("31", str(caught.exception))
        self.assertEqual(Item.query(Item.n.IN(list(range(30)))).count(), 4)

    def test_one_value_has_cursors(self):
        query = Item.query(Item.n.IN([2]))
        first, cursor, more = query.fetch_page(1)
        self.assertEqual(([each.name for each in first], more), (["b"], True))
        self.assertEqual([each.name for each in query.fetch_page(5, start_cursor=cursor)[0]], ["d"])
        for query in (Item.query(Item.n.IN([2, 3])), Item.query(Item.n != 2), Item.query(ndb.OR(Item.n == 1, Item.n == 2)).order(Item.n)):
            with self.assertRaises(errors.BadArgumentError):
                query.fetch_page(1)

    def test_a_query_without_the_cache_reads_the_datastore(self):
        with self.other_request():
            item = Item.get_by_id("a")
            item.name = "changed"
            item.put()
        self.client.settle()
        query = Item.query(Item.n == 1)
        own = Item.get_by_id("a")
        self.assertEqual(own.name, "a")
        for found in (query.fetch(use_cache=False), list(query.iter(use_cache=False)), [query.get(use_cache=False)], query.fetch_page(1, use_cache=False)[0],
                      query.fetch(options=ndb.QueryOptions(use_cache=False)), query.map(lambda each: each, use_cache=False),
                      list(ndb.Query(kind="Item", filters=Item.n == 1, default_options=ndb.QueryOptions(use_cache=False)))):
            self.assertEqual([each.name for each in found], ["changed"])
            self.assertIsNot(found[0], own)
        self.assertIs(query.fetch()[0], own)
        self.assertIs(next(iter(query)), own)

    def test_a_computed_property_that_is_not_projected(self):
        found = Item.query(projection=[Item.n]).fetch()
        self.assertEqual([(each.n, each.twice) for each in found], [(1, 2), (2, 4), (2, 4), (3, 6)])
        with self.assertRaises(ndb.UnprojectedPropertyError):
            found[0].whole
        self.assertEqual(Item.query(Item.n == 1, projection=[Item.whole]).get().whole, "a:1")

    def test_equal_cursors(self):
        query = Item.query()
        one, same, other = query.fetch_page(1)[1], query.fetch_page(1)[1], query.fetch_page(2)[1]
        self.assertEqual((one == same, one == other, one != other, hash(one) == hash(same), one == "x"), (True, False, True, True, False))
        self.assertEqual(ndb.Cursor(urlsafe=one.urlsafe()), one)
        self.assertEqual(ndb.Cursor.from_websafe_string(one.to_websafe_string()), one)

    def test_keys_in_gql(self):
        """A KEY in a statement is one of the client's namespace, or of the one that is set."""
        Item(id="child", name="c", n=9, parent=self.keys[0]).put()
        self.client.settle()
        self.assertEqual(ndb.gql("SELECT __key__ FROM Item WHERE ANCESTOR IS KEY('Item', 'a') AND n = :1", 9).get().id(), "child")
        self.assertEqual(Item.gql("WHERE __key__ = KEY('Item', 'b')").get().name, "b")
        ndb.namespace_manager.set_namespace("tenant")
        Item(id="b", name="tenant's").put()
        self.client.settle()
        found = Item.gql("WHERE __key__ = KEY('Item', 'b')").get()
        self.assertEqual((found.name, found.key.namespace()), ("tenant's", "tenant"))

    def test_metadata_is_refused(self):
        for work in (lambda: ndb.Query(kind="__kind__"), lambda: ndb.gql("SELECT * FROM __namespace__"), lambda: ndb.metadata.get_kinds(),
                     lambda: ndb.Query(kind="__Stat_Kind__")):
            with self.assertRaises(NotImplementedError) as caught:
                work()
            self.assertIn("name the kinds", str(caught.exception))


class ReadOnly(WithServer):
    """A transaction that only read one entity group never fails."""

    def setUp(self):
        super().setUp()
        self.keys = ndb.put_multi(Item(id=name, n=1) for name in ("a", "b"))

    def write_in_between(self):
        with self.other_request():
            Item(id="a", n=2).put()

    def test_one_group(self):
        tries = []

        def work():
            tries.append(self.keys[0].get().n)
            self.write_in_between()
            return Item.query(ancestor=self.keys[0]).count()

        self.assertEqual((ndb.transaction(work, retries=0), tries), (1, [1]))
        self.assertEqual((ndb.transaction(lambda: 7), self.client.in_transaction), (7, False))

    def test_several_groups_are_committed(self):
        def work():
            ndb.get_multi(self.keys)
            self.write_in_between()

        with self.assertRaises(errors.TransactionFailedError) as caught:
            ndb.transaction(work, xg=True, retries=0)
        self.assertIsInstance(caught.exception.refusal, Conflict)

    def test_one_that_writes_conflicts(self):
        def work():
            self.keys[0].get()
            self.write_in_between()
            self.keys[0].delete()

        with self.assertRaises(errors.TransactionFailedError):
            ndb.transaction(work, retries=0)


if __name__ == "__main__":
    unittest.main()
