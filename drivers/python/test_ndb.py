"""Tests of `torfyllan.ndb`, against the server: keys, entities, values, modes of consistency, and imports.

    python3 drivers/python/test_ndb.py
"""
import datetime
import os
import sys
import threading
import unittest

sys.path.insert(0, os.path.dirname(os.path.abspath(__file__)))
from ndb_people import Address, Checked, Everything, Loose, Person, WithPeople
from torfyllan import Server, ndb
from torfyllan.ndb import datastore_errors as errors


class Keys(WithPeople):
    def test_parts_of_a_key(self):
        key = ndb.Key("Book", "main", Person, 7)
        self.assertEqual((key.kind(), key.id(), key.integer_id(), key.string_id()), ("Person", 7, 7, None))
        self.assertEqual((key.parent(), key.root(), key.parent().parent()), (ndb.Key("Book", "main"), ndb.Key("Book", "main"), None))
        self.assertEqual(ndb.Key("Step", 1, parent=key).root(), ndb.Key("Book", "main"))
        self.assertEqual((key.pairs(), key.flat()), ((("Book", "main"), ("Person", 7)), ("Book", "main", "Person", 7)))
        self.assertEqual((key.namespace(), repr(key)), ("", "Key('Book', 'main', 'Person', 7)"))
        self.assertEqual(ndb.Key(pairs=[("A", 1), ("B", "x")]), ndb.Key("B", "x", parent=ndb.Key("A", 1)))
        self.assertEqual(sorted([ndb.Key("A", "x"), ndb.Key("A", 12), ndb.Key("A", 2)]), [ndb.Key("A", 2), ndb.Key("A", 12), ndb.Key("A", "x")])

    def test_urlsafe(self):
        key = ndb.Key("Book", "må/in", "Person", 7, namespace="n")
        self.assertEqual({ndb.Key(urlsafe=key.urlsafe()), ndb.Key(urlsafe=key.urlsafe().encode())}, {key})
        self.assertEqual(key.urlsafe().decode(), key.urlsafe())
        self.assertNotRegex(key.urlsafe(), "[^A-Za-z0-9_-]")
        with self.assertRaises(errors.BadRequestError):
            ndb.Key(urlsafe="no key")

    def test_keys_that_are_none(self):
        for path in ((), ("A",), ("A", None, "B", 1)):
            with self.assertRaises(errors.BadArgumentError):
                ndb.Key(*path)
        for path in ((7, 7), ("A", 1.5), ("A", True)):
            with self.assertRaises(TypeError):
                ndb.Key(*path)
        for work in (lambda: ndb.Key("A", 0), lambda: ndb.Key("A", None).get()):
            with self.assertRaises(errors.BadRequestError):
                work()

    def test_namespaces(self):
        key = Person(name="a", namespace="tenant").put()
        Person(name="b").put()
        self.client.settle()
        self.assertEqual((key.namespace(), key.get().name), ("tenant", "a"))
        self.assertEqual(self.names(Person.query(namespace="tenant")), ["a"])
        self.assertEqual(Person.query(namespace="tenant").get(keys_only=True), key)
        self.assertEqual(self.names(Person.query()), ["b"])
        for space, other in (("tenant", key), ("tenant", ndb.Key(Person, "b")), (None, key), (None, ndb.Key(Person, "b"))):
            Everything(id="x", namespace=space, other=other, quiet="q").put()
            self.client.settle()
            self.context.clear_cache()
            found = Everything.query(namespace=space).get()
            self.assertEqual((found.other, found.key), (other, ndb.Key(Everything, "x", namespace=space)))
            self.assertEqual(Everything.query(Everything.other == other, namespace=space).get(keys_only=True), found.key)
            self.context.clear_cache()
            self.assertEqual(found.key.get().other, other)


class Entities(WithPeople):
    def test_put_get_delete(self):
        key = Person(name="ann", parent=ndb.Key("Team", "x")).put()
        self.context.clear_cache()
        found = key.get()
        self.assertEqual((found.name, found.age, found.key, found.key.parent()), ("ann", 0, key, ndb.Key("Team", "x")))
        self.assertEqual(Person.get_by_id(key.id(), parent=ndb.Key("Team", "x")), found)
        key.delete()
        self.assertIsNone(key.get())
        self.context.clear_cache()
        self.assertIsNone(key.get())

    def test_multi(self):
        keys = ndb.put_multi([Person(id=n, name=str(n)) for n in range(1, 4)])
        self.context.clear_cache()
        self.assertEqual([each.name for each in ndb.get_multi(keys)], ["1", "2", "3"])
        ndb.delete_multi(keys[:2])
        self.context.clear_cache()
        self.assertEqual([each and each.name for each in ndb.get_multi(keys)], [None, None, "3"])
        with self.assertRaises(errors.BadValueError):
            ndb.put_multi([Person(id="new"), Checked()])
        self.assertIsNone(Person.get_by_id("new"))

    def test_get_or_insert(self):
        first = Person.get_or_insert("ann", age=3)
        with self.other_request():
            self.assertEqual(Person.get_or_insert("ann", age=4).age, 3)
        self.assertEqual((first.age, first.key), (3, ndb.Key(Person, "ann")))
        with self.assertRaises(TypeError):
            Person.get_or_insert(7)

    def test_allocate_ids(self):
        first, last = Person.allocate_ids(size=3)
        self.assertEqual(last, first + 2)
        self.assertEqual(Person(id=last, name="x").put().id(), last)
        self.assertEqual(Person(name="y").put().id(), last + 1)
        with self.assertRaises(NotImplementedError):
            Person.allocate_ids(max=7)

    def test_an_id_that_was_not_drawn(self):
        with self.assertRaises(errors.BadRequestError) as caught:
            Person(id=2**60).put()
        self.assertIn("IdNotIssued", str(caught.exception))

    def test_the_async_names(self):
        key = Person(id="a", name="ann").put_async().get_result()
        self.assertEqual((key.get_async().get_result().name, Person.get_by_id_async("a").get_result().name), ("ann", "ann"))
        self.assertEqual(Person.get_or_insert_async("b", name="bob").get_result().name, "bob")
        self.assertEqual([future.get_result().name for future in ndb.get_multi_async([key])], ["ann"])
        self.assertEqual([future.get_result().id() for future in ndb.put_multi_async([Person(id="c")])], ["c"])
        self.client.settle()
        query = Person.query().order(Person.key)
        self.assertEqual([len(query.fetch_async(2).get_result()), query.count_async().get_result(), query.get_async().get_result().name], [2, 3, "ann"])
        self.assertEqual(query.fetch_page_async(1).get_result()[2], True)
        first, last = Person.allocate_ids_async(2).get_result()
        self.assertEqual(last - first, 1)
        self.assertIsNone(key.delete_async().get_result())
        for future in ndb.delete_multi_async([ndb.Key(Person, "b")]):
            future.check_success()
        self.assertEqual([ndb.transaction_async(lambda: 7).get_result(), key.get()], [7, None])
        failed = Checked().put_async()
        self.assertIsInstance(failed.get_exception(), errors.BadValueError)
        with self.assertRaises(errors.BadValueError):
            failed.get_result()

    def test_hooks(self):
        told = []

        class Hooked(ndb.Model):
            def _pre_put_hook(self):
                told.append("before put")

            def _post_put_hook(self, future):
                told.append(future.get_result().kind())

            @classmethod
            def _pre_get_hook(cls, key):
                told.append(f"before get {key.id()}")

            @classmethod
            def _post_get_hook(cls, key, future):
                told.append(f"got {future.get_result()}")

            @classmethod
            def _pre_delete_hook(cls, key):
                told.append("before delete")

            @classmethod
            def _post_delete_hook(cls, key, future):
                told.append(f"deleted {future.done()}")

            @classmethod
            def _pre_allocate_ids_hook(cls, size, max, parent):
                told.append(size)

            @classmethod
            def _post_allocate_ids_hook(cls, size, max, parent, future):
                told.append(future.done())

        Hooked(id=1).put()
        ndb.delete_multi([ndb.Key(Hooked, 1)])
        ndb.Key(Hooked, 1).get()
        Hooked.allocate_ids(2)
        self.assertEqual(told, ["before put", "Hooked", "before delete", "deleted True", "before get 1", "got None", 2, True])

    def test_the_cache_of_a_context(self):
        person = Person(id="a", name="ann")
        person.put()
        with self.other_request():
            other = Person.get_by_id("a")
            other.name = "changed"
            other.put()
        self.assertIs(Person.get_by_id("a"), person)
        self.assertEqual(Person.get_by_id("a", use_cache=False).name, "changed")
        ndb.get_context().set_cache_policy(lambda key: False)
        self.assertEqual(person.key.get(use_memcache=False).name, "changed")
        with self.assertRaises(TypeError):
            person.key.get(use_cash=False)
        person.key.delete()
        ndb.get_context().set_cache_policy(None)

    def test_a_context_is_of_its_thread(self):
        caught = []

        def run():
            try:
                Person.query().fetch()
            except RuntimeError as error:
                caught.append(str(error))

        thread = threading.Thread(target=run)
        thread.start()
        thread.join()
        self.assertIn("ndb.use(server.client())", caught[0])


class Values(WithPeople):
    def test_every_property_comes_back(self):
        values = dict(
            text="lång", packed="x" * 9000, quiet="q" * 2000, number=-(2**63), truth=True, moment=datetime.datetime(2026, 11, 27, 1, 2, 3, 4),
            day=datetime.date(2026, 11, 27), time=datetime.time(1, 2, 3, 4), other=ndb.Key(Person, "ann"), blob=b"\xff" * 2000, found=b"\xfe",
            json={"a": [1.5, None, "ö"]}, pickle={1, 2}, home=Address(city="Lund", street="Stora"),
            homes=[Address(city="Lund", street="A"), Address(city=None, street="B"), Address(city="Umeå")],
            local=Person(name="bob", tags=["x"]),
        )
        key = Everything(**values).put()
        self.context.clear_cache()
        found = key.get()
        for name, value in values.items():
            self.assertEqual(getattr(found, name), value, name)
            self.assertIs(type(getattr(found, name)), type(value), name)
        self.assertEqual(found.shout, "Q" * 9)

    def test_absent_values(self):
        key = Everything().put()
        self.context.clear_cache()
        found = key.get()
        self.assertEqual((found, found.home, found.homes, found.json, found.moment), (Everything(key=key), None, [], None, None))

    def test_lists(self):
        key = Person(tags=["one"]).put()
        person = key.get()
        person.tags.append("two")
        person.put()
        self.context.clear_cache()
        self.assertEqual(key.get().tags, ["one", "two"])
        with self.assertRaises(errors.BadValueError):
            person.tags = "one"
        with self.assertRaises(ValueError):
            ndb.StringProperty(repeated=True, required=True)

    def test_values_that_a_property_refuses(self):
        wrong = dict(text=1, number="1", truth=1, moment=datetime.date(2026, 1, 1), day=datetime.datetime(2026, 1, 1), time=1, other="k", blob="x",
                     home=Person(), homes=Address())
        for name, value in wrong.items():
            with self.assertRaises(errors.BadValueError, msg=name):
                setattr(Everything(), name, value)
        for name, value in (("other", ndb.Key("Team", 1)), ("other", ndb.Key(Person, None)), ("moment", datetime.datetime.now(datetime.timezone.utc))):
            with self.assertRaises(errors.BadValueError):
                setattr(Everything(), name, value)
        with self.assertRaises(errors.BadValueError):
            Person(age=2**63).put()
        for work in (lambda: Person(nme="x"), lambda: Person(put="x")):
            with self.assertRaises((AttributeError, TypeError)):
                work()
        with self.assertRaises(NotImplementedError):
            type("Odd", (ndb.Model,), {"long": ndb.TextProperty(indexed=True), "__module__": __name__})

    def test_checks_of_a_property(self):
        checked = Checked(who="ann", colour="red", even=5, upper="abc")
        self.assertEqual((checked.even, checked.upper, Checked.who._verbose_name), (4, "abc", "Who it is"))
        for name, value in (("colour", "green"), ("upper", "abcd")):
            with self.assertRaises(errors.BadValueError):
                setattr(checked, name, value)
        key = checked.put()
        self.assertEqual(self.client.get(key.to_driver()).entity["upper"], "ABC")
        self.context.clear_cache()
        self.assertEqual(key.get().upper, "abc!")
        with self.assertRaises(errors.BadValueError) as caught:
            Checked().put()
        self.assertIn("who", str(caught.exception))

    def test_auto_now(self):
        checked = Checked(who="ann")
        checked.put()
        made, changed = checked.made, checked.changed
        checked.put()
        self.assertEqual(checked.made, made)
        self.assertGreater(checked.changed, changed)
        self.assertLess(abs(datetime.datetime.now(datetime.timezone.utc).replace(tzinfo=None) - made), datetime.timedelta(seconds=60))

    def test_computed(self):
        key = Everything(quiet="ann").put()
        self.client.settle()
        self.assertEqual(Everything.query(Everything.shout == "ANN").get(keys_only=True), key)
        with self.assertRaises(ndb.ComputedPropertyError):
            key.get().shout = "x"

    def test_refused_properties(self):
        for refused, word in ((ndb.FloatProperty, "IntegerProperty"), (ndb.GeoPtProperty, "latitude"), (ndb.UserProperty, "id"), (ndb.BlobKeyProperty, "text")):
            odd = type("Odd", (ndb.Model,), {"value": refused(), "__module__": __name__})
            self.assertIsNone(odd().put().get().value)
            value = {ndb.FloatProperty: 1.5, ndb.GeoPtProperty: ndb.GeoPt(1, 2), ndb.UserProperty: object(), ndb.BlobKeyProperty: ndb.BlobKey("b")}[refused]
            with self.assertRaises(errors.BadValueError) as caught:
                odd(value=value).put()
            self.assertIsInstance(caught.exception, NotImplementedError)
            self.assertIn("Odd.value", str(caught.exception))
            self.assertIn(word, str(caught.exception))

    def test_to_dict_and_populate(self):
        person = Person(key=ndb.Key(Person, "a"))
        person.populate(name="ann", tags=["x"])
        self.assertEqual(person.to_dict(), {"name": "ann", "age": 0, "tags": ["x"], "active": True})
        self.assertEqual((person.to_dict(include=["name"]), person.to_dict(exclude=["tags", "age"])), ({"name": "ann"}, {"name": "ann", "active": True}))
        nested = Everything(home=Address(city="Lund"), homes=[Address(city="Umeå")]).to_dict(include=["home", "homes"])
        self.assertEqual(nested, {"home": {"city": "Lund", "street": None}, "homes": [{"city": "Umeå", "street": None}]})
        with self.assertRaises(ndb.KindError):
            person.key = ndb.Key("Team", 1)
        with self.assertRaises(errors.BadArgumentError):
            Person(key=ndb.Key(Person, 1), id=2)

    def test_expando(self):
        loose = Loose(name="ann", age=7, tags=["one"], note=None)
        loose.when = datetime.datetime(2026, 1, 1)
        del loose.note
        key = loose.put()
        self.context.clear_cache()
        found = key.get()
        self.assertEqual((found.age, found.tags, found.when), (7, ["one"], datetime.datetime(2026, 1, 1)))
        self.client.settle()
        self.assertEqual(Loose.query(ndb.GenericProperty("age") == 7).get().key, key)
        with self.assertRaises(AttributeError):
            found.note
        with self.assertRaises(errors.BadValueError):
            Loose(size=1.5).put()
        with self.assertRaises(errors.BadValueError):
            Loose(home={"city": "Lund"}).put()

    def test_what_the_class_does_not_know_is_kept(self):
        key = Loose(id="a", name="ann", old=[1, 2], one=["x"]).put()

        class Newer(ndb.Model):
            name = ndb.StringProperty()

            @classmethod
            def _get_kind(cls):
                return "Loose"

        self.addCleanup(ndb.Model._kind_map.__setitem__, "Loose", Loose)
        self.context.clear_cache()
        newer = key.get()
        newer.name = "bob"
        newer.put()
        self.assertEqual(self.client.get(key.to_driver()).entity["old"], [1, 2])
        self.context.clear_cache()
        ndb.Model._kind_map["Loose"] = Loose
        self.assertEqual((key.get().name, key.get().one), ("bob", ["x"]))
        with self.assertRaises(ndb.KindError):
            self.client.put(ndb.Key("Strange", 1).to_driver())
            ndb.Key("Strange", 1).get()


class Modes(unittest.TestCase):
    """The server's modes of consistency, as ndb sees them."""

    def seen(self, **words):
        with Server(**words) as server, ndb.use(server.client()):
            seen = []
            for n in range(12):
                Person(id=f"p{n}", age=n).put()
                seen.append(Person.query(Person.age == n).count())
            return seen

    def test_the_modes(self):
        self.assertEqual((self.seen(), self.seen(consistency="strong")), ([0] * 12, [1] * 12))
        some = self.seen(consistency=0.5, seed=7)
        self.assertEqual((some, set(some)), (self.seen(consistency=0.5, seed=7), {0, 1}))


class Modules(unittest.TestCase):
    def test_the_imports_of_app_engine(self):
        ndb.install()
        from google.appengine.api import datastore_errors
        from google.appengine.datastore.datastore_query import Cursor
        from google.appengine.ext import ndb as installed

        self.assertIs(installed, ndb)
        self.assertIs(datastore_errors.TransactionFailedError, errors.TransactionFailedError)
        self.assertIs(Cursor, ndb.Cursor)

    def test_a_server_is_wanted(self):
        with self.assertRaises(RuntimeError):
            Person(name="x").put()
        with self.assertRaises(TypeError):
            ndb.use("server")


if __name__ == "__main__":
    unittest.main()
