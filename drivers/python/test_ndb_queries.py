"""Tests of the queries of `torfyllan.ndb`, against the server.

    python3 drivers/python/test_ndb_queries.py
"""
import datetime
import os
import sys
import unittest

sys.path.insert(0, os.path.dirname(os.path.abspath(__file__)))
from ndb_people import Address, Everything, Person, WithPeople
from torfyllan import ndb
from torfyllan.ndb import datastore_errors as errors


class Queries(WithPeople):
    def setUp(self):
        super().setUp()
        self.keys = self.people(("ann", 30, "x", "y"), ("bob", 20, "y"), ("cid", 40), ("dan", 20, "z"))

    def test_comparisons(self):
        for query, expected in (
            (Person.query(Person.name == "bob"), ["bob"]), (Person.query(Person.age != 20), ["ann", "cid"]), (Person.query(Person.age < 30), ["bob", "dan"]),
            (Person.query(Person.age <= 30).order(-Person.age), ["ann", "bob", "dan"]), (Person.query(Person.age > 30), ["cid"]),
            (Person.query(Person.age >= 30, Person.age < 40), ["ann"]), (Person.query(Person.tags == "y"), ["ann", "bob"]),
            (Person.query(Person.name == None), []), (Person.query(Person.key > ndb.Key(Person, "bob")), ["cid", "dan"]),  # noqa: E711
            (Person.query().filter(Person.age == 20).filter(Person.name == "dan"), ["dan"]), (ndb.Query(kind="Person"), ["ann", "bob", "cid", "dan"]),
        ):
            self.assertEqual(self.names(query), expected, query)

    def test_in_and_or(self):
        self.assertEqual(self.names(Person.query(Person.name.IN(["cid", "ann", "none"]))), ["cid", "ann"])
        self.assertEqual(self.names(Person.query(ndb.OR(Person.age == 20, Person.tags == "y"))), ["bob", "dan", "ann"])
        query = Person.query(ndb.AND(ndb.OR(Person.name == "ann", ndb.AND(Person.name == "dan", Person.age == 20)), Person.active == True))  # noqa: E712
        self.assertEqual(self.names(query), ["ann", "dan"])
        ordered = Person.query(ndb.OR(Person.age > 25, Person.age < 25)).order(-Person.age, Person.name)
        with self.assertRaises(errors.NeedIndexError):
            ordered.fetch()
        ordered = Person.query(ndb.OR(Person.age > 25, Person.age < 25)).order(-Person.age)
        self.assertEqual((self.names(ordered), self.names(ordered, offset=1, limit=2)), (["cid", "ann", "bob", "dan"], ["ann", "bob"]))
        self.assertEqual((ordered.count(), ordered.fetch(1, keys_only=True)), (4, [ndb.Key(Person, "cid")]))
        for query in (Person.query(Person.name.IN([])), ):
            with self.assertRaises(errors.BadQueryError):
                query.fetch()

    def test_orders(self):
        self.assertEqual(self.names(Person.query().order(Person.age, Person.name)), ["bob", "dan", "ann", "cid"])
        self.assertEqual(self.names(Person.query().order(-Person.name)), ["dan", "cid", "bob", "ann"])
        with self.assertRaises(errors.BadRequestError):
            Person.query(Person.age > 1).order(Person.name).fetch()

    def test_ancestor(self):
        team = ndb.Key("Team", "x")
        Person(name="new", parent=team).put()
        self.assertEqual(self.names(Person.query(ancestor=team)), ["new"])
        self.assertEqual(len(ndb.Query(ancestor=team).fetch()), 1)
        with self.assertRaises(errors.BadArgumentError):
            Person.query(ancestor="x")

    def test_fetch_get_count_iter(self):
        query = Person.query().order(Person.key)
        self.assertEqual((self.names(query, limit=2, offset=1), query.get().name, query.count(), query.count(3)), (["bob", "cid"], "ann", 4, 3))
        self.assertEqual([person.name for person in query], ["ann", "bob", "cid", "dan"])
        self.assertIsNone(Person.query(Person.name == "none").get())
        for options in ({"keys_only": True, "batch_size": 2},):
            self.assertEqual(query.fetch(2, **options), self.keys[:2])
        with self.assertRaises(TypeError):
            query.fetch(key_only=True)
        self.assertEqual([person.name for person in query.iter(limit=3)], ["ann", "bob", "cid"])
        self.assertEqual(next(query.iter(offset=1)).name, "bob")
        cursor = query.fetch_page(2)[1]
        self.assertEqual((self.names(query, start_cursor=cursor), self.names(query, end_cursor=cursor)), (["cid", "dan"], ["ann", "bob"]))

    def test_what_was_deleted_in_this_context_is_left_out(self):
        query = Person.query().order(Person.key)
        self.keys[0].delete()
        self.assertEqual(self.names(query, limit=3), ["bob", "cid"])
        page, cursor, more = query.fetch_page(2)
        self.assertEqual(([each.name for each in page], more, self.names(query, start_cursor=cursor)), (["bob"], True, ["cid", "dan"]))
        self.context.clear_cache()
        self.assertEqual(len(query.fetch()), 4)

    def test_fetch_page(self):
        query = Person.query().order(-Person.age)
        first, cursor, more = query.fetch_page(3)
        self.assertEqual(([each.name for each in first], more), (["cid", "ann", "bob"], True))
        rest, last, more = query.fetch_page(3, start_cursor=ndb.Cursor(urlsafe=cursor.urlsafe()))
        self.assertEqual(([each.name for each in rest], more), (["dan"], False))
        self.assertEqual(query.fetch_page(3, start_cursor=last), ([], None, False))
        self.assertEqual((len(query.fetch_page(4)[0]), query.fetch_page(4)[2]), (4, False))
        with self.assertRaises(errors.BadArgumentError):
            Person.query(Person.name.IN(["a", "b"])).fetch_page(1)
        with self.assertRaises(errors.BadValueError):
            ndb.Cursor(urlsafe="ö")
        with self.assertRaises(errors.BadRequestError):
            Person.query().fetch_page(1, start_cursor=cursor)

    def test_projection(self):
        found = Person.query(projection=[Person.tags]).fetch()
        self.assertEqual([each.tags for each in found], [["x"], ["y"], ["y"], ["z"]])
        for work, error in ((lambda: found[0].name, ndb.UnprojectedPropertyError), (found[0].put, errors.BadRequestError),
                            (lambda: setattr(found[0], "tags", []), ndb.ReadonlyPropertyError)):
            with self.assertRaises(error):
                work()
        with self.assertRaises(ndb.InvalidPropertyError):
            Person.query(projection=["nme"])
        Everything(moment=datetime.datetime(2026, 1, 1), found=b"abc", home=Address(city="Lund"), day=datetime.date(2026, 1, 2)).put()
        self.client.settle()
        part = Everything.query().get(projection=[Everything.moment])
        self.assertEqual((part.moment, part.to_dict()), (datetime.datetime(2026, 1, 1), {"moment": datetime.datetime(2026, 1, 1)}))
        self.assertEqual(Everything.query().get(projection=["found"]).found, b"abc")
        self.assertEqual(Everything.query().get(projection=["home.city"]).home.city, "Lund")
        self.assertEqual(repr(part), "Everything(key=%r, moment=%r)" % (part.key, part.moment))
        self.assertEqual(Everything.query().get(projection=["day"]).day, datetime.date(2026, 1, 2))

    def test_structured(self):
        Everything(id=1, home=Address(city="Lund", street="A"), homes=[Address(city="Umeå"), Address(city="Lund")]).put()
        self.client.settle()
        self.assertEqual(Everything.query(Everything.home.city == "Lund").count(), 1)
        self.assertEqual(Everything.query(Everything.homes.city == "Umeå").count(), 1)
        self.assertEqual(Everything.query(Everything.home == Address(city="Lund")).count(), 1)
        with self.assertRaises(errors.BadFilterError):
            Everything.query(Everything.home.street == "A")
        with self.assertRaises(errors.BadFilterError):
            Everything.query(Everything.local == Person())

    def test_a_repeated_structure_is_compared_part_by_part(self):
        class Size(ndb.Model):
            name = ndb.StringProperty()
            price = ndb.IntegerProperty()

        class Thing(ndb.Model):
            sizes = ndb.StructuredProperty(Size, repeated=True)

        Thing(id=1, sizes=[Size(name="s", price=1), Size(name="l", price=2)]).put()
        Thing(id=2, sizes=[Size(name="s", price=2), Size(name="l", price=1)]).put()
        self.client.settle()
        self.assertEqual(Thing.query(Thing.sizes.name == "s", Thing.sizes.price == 2).count(), 2)
        self.assertEqual(Thing.query(Thing.sizes == Size(name="s")).count(), 2)
        self.assertEqual(Thing.query(Thing.sizes == Size(name="s", price=2)).fetch(keys_only=True), [ndb.Key(Thing, 2)])

    def test_gql(self):
        self.assertEqual(self.names(Person.gql("WHERE age > :1 ORDER BY age DESC", 20)), ["cid", "ann"])
        self.assertEqual(self.names(ndb.gql("SELECT * FROM Person WHERE name = :who", who="bob")), ["bob"])
        query = ndb.gql("SELECT __key__ FROM Person WHERE name IN (:1, :2)", "ann", "bob")
        self.assertEqual((query.fetch(), query.bind("dan", "none").count()), (self.keys[:2], 1))
        with self.assertRaises(errors.BadQueryError) as caught:
            query.bind("ann").fetch()
        self.assertIn("argument :2 isn't given", str(caught.exception))
        first = ndb.gql("SELECT * FROM Person WHERE name > 'a limit' ORDER BY name").fetch_page(1)
        self.assertEqual(([person.name for person in first[0]], first[2]), (["ann"], True))
        self.assertEqual((ndb.gql("SELECT * FROM Person").fetch(2, offset=1, keys_only=True), ndb.gql("SELECT * FROM Person LIMIT 1").count()), (self.keys[1:3], 1))
        first, cursor, more = Person.gql("ORDER BY name").fetch_page(3)
        self.assertEqual((len(first), more, self.names(Person.gql("ORDER BY name"), start_cursor=cursor)), (3, True, ["dan"]))
        self.assertEqual([each.age for each in ndb.gql("SELECT age FROM Person").fetch()], [20, 20, 30, 40])
        with self.assertRaises(errors.BadQueryError):
            ndb.gql("SELECT * FROM Person WHERE a OR b").fetch()

    def test_a_stale_query(self):
        person = Person(id="new", name="new")
        person.put()
        self.assertEqual(Person.query(Person.name == "new").fetch(), [])
        self.client.settle()
        self.assertEqual(Person.query(Person.name == "new").fetch(), [person])

    def test_a_missing_index_is_told(self):
        with self.assertRaises(errors.NeedIndexError) as caught:
            Person.query(Person.tags == "x").order(Person.name).fetch()
        self.assertIn("- kind: Person\n  properties:\n  - name: tags\n  - name: name\n", str(caught.exception))

    def test_queries_that_are_refused(self):
        for query, error in ((Person.query(Person.age > 1, Person.name > "a"), errors.BadRequestError),
                             (Person.query(Person.name.IN(list("abcdef")), Person.age.IN(list(range(6)))), errors.BadArgumentError)):
            with self.assertRaises(error):
                query.fetch()
        for work, error in ((lambda: Everything.text == "x", errors.BadFilterError), (lambda: Person.age == "x", errors.BadValueError),
                            (lambda: Person.query("x"), errors.BadArgumentError), (lambda: Person.query(distinct=True), TypeError)):
            with self.assertRaises(error):
                work()


if __name__ == "__main__":
    unittest.main()
