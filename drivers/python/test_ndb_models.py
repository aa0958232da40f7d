"""Tests of keys, classes of models, and queries of `torfyllan.ndb` beyond `test_ndb.py`, and of the testbed.

    python3 drivers/python/test_ndb_models.py
"""
import base64
import copy
import datetime
import os
import pathlib
import pickle
import sys
import tempfile
import unittest

sys.path.insert(0, os.path.dirname(os.path.abspath(__file__)))
from ndb_case import WithServer
from torfyllan import ndb
from torfyllan.ndb import datastore_errors as errors
from torfyllan.ndb import datastore_stub_util, namespace_manager, polymodel, testbed


class Item(ndb.Model):
    name = ndb.StringProperty()
    n = ndb.IntegerProperty()
    colour = ndb.StringProperty()


class Size(ndb.Model):
    name = ndb.StringProperty()
    price = ndb.IntegerProperty()


class Thing(ndb.Model):
    sizes = ndb.StructuredProperty(Size, repeated=True)
    n = ndb.IntegerProperty(default=0)


class Animal(polymodel.PolyModel):
    name = ndb.StringProperty()

    def sound(self):
        return None


class Cat(Animal):
    lives = ndb.IntegerProperty(default=9)

    def sound(self):
        return "meow"


class Lion(Cat):
    @classmethod
    def _class_name(cls):
        return "Leo"


class Keys(WithServer):
    def test_texts_that_app_engine_made(self):
        """As App Engine's documentation and its applications have them."""
        for text, app, path in (("agVoZWxsb3IPCxIHQWNjb3VudBiZiwIM", "hello", ("Account", 34201)), ("agR0ZXN0cg4LEgRCb29rIgRtYWluDA", "test", ("Book", "main"))):
            key = ndb.Key(urlsafe=text)
            self.assertEqual((key.app(), key.flat(), key.urlsafe()), (app, path, text))

    def test_both_ways(self):
        for key in (ndb.Key("Book", "må/in", "Person", 7), ndb.Key("A", 2**53, namespace="tenant"), ndb.Key("A", "x", "B", None)):
            self.assertEqual({ndb.Key(urlsafe=key.urlsafe()), ndb.Key(urlsafe=key.urlsafe().encode()), ndb.Key(serialized=key.serialized()),
                              ndb.Key(urlsafe=key.urlsafe() + "==")}, {key})
            self.assertNotRegex(key.urlsafe(), "[^A-Za-z0-9_-]")
            self.assertIn(b"testbed-test", base64.urlsafe_b64decode(key.urlsafe() + "=="))
        for text in ("no key", "", "agVoZWxsb3I", "agVoZWxsb3IPCxIHQWNjb3VudBiZiwI!", "ö"):
            with self.assertRaises(errors.BadRequestError):
                ndb.Key(urlsafe=text)

    def test_keys_of_another_application(self):
        mine, other = ndb.Key("Book", 1), ndb.Key("Book", 1, app="s~shop")
        self.assertEqual((mine.app(), other.app(), mine == other, other.parent(), ndb.Key("A", 1, parent=other).app()), ("testbed-test", "s~shop", False, None, "s~shop"))
        self.assertEqual(ndb.Key(urlsafe=other.urlsafe()), other)
        self.assertEqual((ndb.Key("Book", 1, app="testbed-test"), other < mine), (mine, True))
        for work in (other.get, other.delete, lambda: Item(parent=other).put()):
            with self.assertRaises(errors.BadRequestError) as caught:
                work()
            self.assertIn("s~shop", str(caught.exception))

    def test_copies(self):
        key = ndb.Key("Book", "main", "Person", 7, namespace="tenant")
        for each in (copy.copy(key), copy.deepcopy(key), pickle.loads(pickle.dumps(key))):
            self.assertEqual((each, hash(each)), (key, hash(key)))
        item = Item(id="a", name="x")
        again = pickle.loads(pickle.dumps(item))
        self.assertEqual((again, again.key), (item, item.key))

    def test_the_namespace_of_a_request(self):
        self.assertEqual(namespace_manager.get_namespace(), "")
        namespace_manager.set_namespace("tenant")
        key = Item(id="a", name="tenant's").put()
        self.client.settle()
        self.assertEqual((key.namespace(), Item.query().count(), Item.get_by_id("a").name), ("tenant", 1, "tenant's"))
        self.assertEqual((Item.query(namespace="").count(), ndb.Key("Item", "a", namespace="").get()), (0, None))
        with self.other_request():
            self.assertEqual((namespace_manager.get_namespace(), Item.query().count()), ("", 0))
        self.assertEqual(namespace_manager.get_namespace(), "tenant")
        self.assertEqual(Item.query(ancestor=key).get(), key.get())
        namespace_manager.set_namespace(None)
        self.assertEqual((namespace_manager.get_namespace(), namespace_manager.google_apps_namespace(), Item.query().count()), ("", "", 0))
        with self.assertRaises(errors.BadValueError):
            namespace_manager.set_namespace("a b")
        with self.assertRaises(ValueError):
            ndb.Key("A", 1, parent=key, namespace="other")
        with self.assertRaises(TypeError):
            Item.query(ancestor=key, namespace="other")


class PolyModels(WithServer):
    def setUp(self):
        super().setUp()
        ndb.put_multi([Animal(id="a", name="any"), Cat(id="c", name="kit"), Lion(id="l", name="leo", lives=1)])
        self.client.settle()
        self.context.clear_cache()

    def test_classes_of_a_kind(self):
        names = ("Animal", "Cat", "Leo")
        self.assertEqual((Animal._get_kind(), Lion._get_kind(), Lion._class_key(), Lion(name="x").class_), ("Animal", "Animal", names, list(names)))
        for query, expected in ((Animal.query(), ["any", "kit", "leo"]), (Cat.query(), ["kit", "leo"]), (Lion.query(), ["leo"]), (Cat.query(Cat.name == "leo"), ["leo"]),
                                (Animal.query(Animal.class_ == "Cat"), ["kit", "leo"])):
            self.assertEqual([each.name for each in query], expected)
        found = ndb.Key("Animal", "l").get()
        self.assertEqual((type(found), found.sound(), found.lives), (Lion, "meow", 1))
        self.assertEqual([type(each) for each in Animal.query()], [Animal, Cat, Lion])
        self.assertEqual(self.client.get(found.key.to_driver()).entity["class"], ["Animal", "Cat", "Leo"])
        self.assertEqual(Cat.get_by_id("c").to_dict(), {"name": "kit", "lives": 9, "class_": ["Animal", "Cat"]})
        with self.assertRaises(TypeError):
            found.class_ = ["Animal"]

    def test_a_class_that_is_not_known(self):
        entity = self.client.get(ndb.Key("Animal", "l").to_driver()).entity
        entity["class"] = ["Animal", "Dog"]
        self.client.put(entity)
        found = ndb.Key("Animal", "l").get()
        self.assertEqual((type(found), found.class_, found.name), (Animal, ["Animal", "Dog"], "leo"))
        found.put()
        self.assertEqual(self.client.get(found.key.to_driver()).entity["class"], ["Animal", "Dog"])
        self.assertEqual(self.client.get(found.key.to_driver()).entity["lives"], 1)


class Queries(WithServer):
    indexes = """\
indexes:
- kind: Item
  properties: [{name: colour}, {name: n}]
- kind: Item
  properties: [{name: n, direction: desc}, {name: colour}]
- kind: Item
  properties: [{name: n}, {name: colour}]
"""

    def setUp(self):
        super().setUp()
        ndb.put_multi(Item(id=name, name=name, n=n, colour=colour) for name, n, colour in
                      (("a", 1, "red"), ("b", 2, "blue"), ("c", 1, "red"), ("d", 2, "red"), ("e", 1, "blue")))
        self.client.settle()

    def test_distinct(self):
        query = Item.query(projection=["colour"], distinct=True)
        self.assertEqual(([each.colour for each in query], query.count(), query.is_distinct, query.group_by), (["blue", "red"], 2, True, ("colour",)))
        self.assertEqual([each.colour for each in query.fetch(1, offset=1)], ["red"])
        both = Item.query(projection=[Item.colour, Item.n], distinct=True)
        self.assertEqual([(each.colour, each.n) for each in both], [("blue", 1), ("blue", 2), ("red", 1), ("red", 2)])
        turned = both.order(-Item.n)
        self.assertEqual([(each.colour, each.n) for each in turned], [("blue", 2), ("red", 2), ("blue", 1), ("red", 1)])
        self.assertEqual([(each.n, each.colour) for each in Item.query(Item.n > 1, projection=[Item.n, Item.colour], distinct=True)], [(2, "blue"), (2, "red")])
        grouped = Item.query(projection=[Item.colour, Item.n], group_by=[Item.colour])
        self.assertEqual(([(each.colour, each.n) for each in grouped], grouped.is_distinct), ([("blue", 1), ("red", 1)], False))
        self.assertEqual([each.colour for each in Item.query(Item.n == 1, projection=["colour"], distinct=True)], ["blue", "red"])
        pages, cursor, more = [], None, True
        while more:
            page, cursor, more = both.fetch_page(1, start_cursor=cursor)
            pages += [(each.colour, each.n) for each in page]
        self.assertEqual(pages, [("blue", 1), ("blue", 2), ("red", 1), ("red", 2)])
        for query in (Item.query(projection=[Item.colour, Item.n], group_by=[Item.n]), Item.query(ndb.OR(Item.n == 1, Item.n == 2), projection=["colour"], distinct=True),
                      Item.query(projection=["colour"], distinct=True).order(Item.n), Item.query(Item.n > 0, projection=["colour"], distinct=True)):
            with self.assertRaises(errors.BadRequestError):
                query.fetch()
        for words in ({"distinct": True}, {"distinct": True, "projection": ["n"], "group_by": ["n"]}):
            with self.assertRaises(TypeError):
                Item.query(**words)

    def test_keys_in_filters_and_orders(self):
        key = ndb.Key(Item, "b")
        self.assertEqual([each.name for each in Item.query(Item._key > key)], ["c", "d", "e"])
        self.assertEqual([each.name for each in Item.query(Item._key >= key).order(Item._key).fetch(2)], ["b", "c"])
        self.assertEqual(Item.query(Item._key.IN([key, ndb.Key(Item, "a")])).fetch(keys_only=True), [key, ndb.Key(Item, "a")])
        item = Item(id="x")
        self.assertEqual((item._key, item.key, item._has_complete_key()), (ndb.Key(Item, "x"),) * 2 + (True,))
        item._key = ndb.Key(Item, "y")
        self.assertEqual(item.key.id(), "y")
        del item.key
        self.assertEqual((item.key, item.has_complete_key()), (None, False))
        self.assertEqual([each.name for each in Item.query(ndb.FilterNode("__key__", "=", key))], ["b"])

    def test_whole_elements_of_a_repeated_structure(self):
        for id_, sizes in ((1, (("s", 1), ("l", 2))), (2, (("s", 2), ("l", 1))), (3, (("s", 2),)), (4, ())):
            Thing(id=id_, n=id_, sizes=[Size(name=name, price=price) for name, price in sizes]).put()
        self.client.settle()
        query = Thing.query(Thing.sizes == Size(name="s", price=2))
        self.assertEqual((query.fetch(keys_only=True), query.count(), [each.n for each in query.fetch(1, offset=1)]), ([ndb.Key(Thing, 2), ndb.Key(Thing, 3)], 2, [3]))
        first, cursor, more = query.fetch_page(1)
        second, last, end = query.fetch_page(1, start_cursor=cursor)
        self.assertEqual(([each.n for each in (*first, *second)], more, end), ([2, 3], True, False))
        either = Thing.query(Thing.sizes.IN([Size(name="s", price=2), Size(name="l", price=2)]))
        self.assertEqual([each.n for each in either], [2, 3, 1])
        self.assertEqual(Thing.query(Thing.sizes == Size(name="s", price=2), Thing.sizes == Size(name="l", price=1)).count(), 1)
        with self.assertRaises(errors.BadArgumentError):
            Thing.query(Thing.sizes == Size(name="s", price=2), projection=["n"]).fetch()

    def test_iterators(self):
        query = Item.query().order(Item.key)
        results = query.iter(produce_cursors=True)
        seen = []
        while results.has_next():
            seen.append(results.next().name)
            if seen == ["a", "b"]:
                before, after = results.cursor_before(), results.cursor_after()
        self.assertEqual((seen, results.has_next_async().get_result(), results.probably_has_next()), (list("abcde"), False, False))
        self.assertEqual(([each.name for each in query.fetch(start_cursor=before)], [each.name for each in query.fetch(start_cursor=after)]), (list("bcde"), list("cde")))
        self.assertEqual(next(query.iter(start_cursor=after)).name, "c")
        with self.assertRaises(StopIteration):
            next(results)
        for each in (query.iter(produce_cursors=True), query.iter()):
            with self.assertRaises(errors.BadArgumentError):
                each.cursor_after()
        self.assertEqual((query.count(start_cursor=after), query.fetch(keys_only=True, start_cursor=after)), (3, [ndb.Key(Item, name) for name in "cde"]))

    def test_words_of_google_cloud(self):
        """Arguments that `google.cloud.ndb` has for a query."""
        query = ndb.Query(kind=Item, order_by=["-n", Item.colour], offset=1, limit=3)
        self.assertEqual(([each.name for each in query], [each.name for each in query.fetch(1)], query.order(Item.key).default_options.limit), (list("dea"), ["d"], 3))
        self.assertEqual(ndb.Query(kind="Item", keys_only=True, order_by=["__key__"], limit=1).fetch(), [ndb.Key("Item", "a")])
        self.assertEqual([each.colour for each in ndb.Query(kind="Item", projection=["colour"], distinct_on=["colour"])], ["blue", "red"])
        self.assertEqual(ndb.transaction(lambda: ndb.transaction(ndb.in_transaction, join=True)), True)
        with self.assertRaises(NotImplementedError):
            ndb.Key.from_old_key

    def test_statements(self):
        Item(id="x", name="it's", n=7, colour="red", parent=ndb.Key("Box", 1)).put()
        self.client.settle()
        for query, expected in (
            (Item.gql("WHERE name IN :1", ["d", "a", "none"]), "da"), (Item.gql("WHERE name IN ('d', :who)", who="a"), "da"), (Item.gql("WHERE n != 1 AND n < :1", 5), "bd"),
            (Item.gql("where colour = 'red' order by n limit 1, 2"), "cd"), (Item.gql("ORDER BY __key__ LIMIT 2 OFFSET 1"), "ab"), (Item.gql("WHERE __key__ = KEY('Item', 'b')"), "b"),
            (Item.gql("WHERE __key__ = KEY(:1)", ndb.Key("Item", "b").urlsafe()), "b"), (ndb.gql('SELECT * FROM "Item" WHERE "n" = 1 AND colour = :1', "blue"), "e"),
            (Item.gql("WHERE n = 1").filter(Item.colour == "red").order(Item.key), "ac"), (Item.gql("WHERE n IN (2, 1)").order(Item.n), "acebd"),
            (Item.gql("WHERE ANCESTOR IS :box AND name = 'it''s'", box=ndb.Key("Box", 1)), ["it's"]), (Item.gql("WHERE ANCESTOR IS KEY('Box', 1)"), ["it's"]),
        ):
            self.assertEqual([each.name for each in query], list(expected), query)
        self.assertEqual(Item.gql("WHERE n = 2 LIMIT 1").fetch(5), Item.query(Item.n == 2).fetch())
        self.assertEqual([each.colour for each in ndb.gql("SELECT DISTINCT colour FROM Item")], ["blue", "red"])
        page, cursor, more = Item.gql("WHERE n = 1").fetch_page(2)
        self.assertEqual(([each.name for each in page], more, [each.name for each in Item.gql("WHERE n = 1").fetch(start_cursor=cursor)]), (["a", "c"], True, ["e"]))
        query = ndb.gql("SELECT __key__ FROM Item WHERE n = :1")
        self.assertEqual((query.bind(2).fetch(), query.bind(2).kind, query.kind), ([ndb.Key("Item", "b"), ndb.Key("Item", "d")], "Item", "Item"))

    def test_dates_in_statements(self):
        class Dated(ndb.Model):
            at = ndb.DateTimeProperty()
            day = ndb.DateProperty()
            time = ndb.TimeProperty()

        key = Dated(at=datetime.datetime(2014, 5, 1, 12, 30), day=datetime.date(2014, 5, 1), time=datetime.time(8)).put()
        self.client.settle()
        for text in ("at = DATETIME(2014, 5, 1, 12, 30)", "at > DATETIME('2014-05-01 12:00:00')", "day = DATE(2014, 5, 1)", "day < DATE('2014-05-02')",
                     "time = TIME(8, 0)", "time >= TIME('07:59:59')"):
            self.assertEqual(Dated.gql(f"WHERE {text}").fetch(keys_only=True), [key], text)

    def test_statements_that_are_refused(self):
        for work, error, told in (
            (lambda: ndb.gql("SELECT * FROM Item WHERE n ="), errors.BadQueryError, "ends too early"), (lambda: ndb.gql("SELECT * FROM Item WHERE n = 1 OR n = 2"), errors.BadQueryError, "OR"),
            (lambda: ndb.gql("SELECT * FROM Item WHERE n = :1"), errors.BadQueryError, ":1"), (lambda: ndb.gql("SELECT * FROM Item WHERE n = :1").filter(Item.n == 1), errors.BadArgumentError, "lacks"),
            (lambda: Item.gql("WHERE n = :1", [1]), errors.BadArgumentError, "one value"), (lambda: Item.gql("WHERE n IN :1", 1), errors.BadArgumentError, "list"),
            (lambda: Item.gql("WHERE n = 1.5"), errors.BadValueError, "int"), (lambda: ndb.gql("SELECT * FROM None WHERE n = 1.5"), ndb.NotStoredError, "floats"),
            (lambda: Item.gql("WHERE name = USER('x')"), NotImplementedError, "users"), (lambda: Item.gql("WHERE n = DATE('x')"), errors.BadQueryError, "DATE('x')"),
            (lambda: Item.gql("WHERE ANCESTOR IS :1", None), errors.BadArgumentError, "ancestor"), (lambda: Item.gql("WHERE ANCESTOR IS NULL"), errors.BadQueryError, "NULL"),
            (lambda: ndb.gql("SELECT DISTINCT * FROM Item"), errors.BadArgumentError, "DISTINCT"), (lambda: ndb.gql("SELECT nme FROM Item"), ndb.InvalidPropertyError, "nme"),
            (lambda: ndb.gql("SELECT * FROM Item WHERE order = 1"), errors.BadQueryError, "order"),
        ):
            with self.assertRaises(error) as caught:
                work().fetch()
            self.assertIn(told, str(caught.exception))

    def test_filters_by_their_parts(self):
        node = ndb.FilterNode("n", "=", 2)
        self.assertEqual((node, hash(node) == hash(Item.n == 2), repr(node)), (Item.n == 2, True, "FilterNode('n', '=', 2)"))
        self.assertEqual([each.name for each in ndb.Query(kind="Item", filters=ndb.AND(node, ndb.FilterNode("colour", "in", ["red"])))], ["d"])
        for work, error in ((lambda: ndb.FilterNode("n", "==", 2), errors.BadArgumentError), (lambda: ndb.FilterNode("n", "in", 2), errors.BadArgumentError),
                            (lambda: Item.query(ndb.FalseNode()).fetch(), errors.BadQueryError), (lambda: ndb.FilterNode("n", "=", {}), ndb.NotStoredError)):
            with self.assertRaises(error):
                work()


class FuzzyDate:
    """As in App Engine's documentation on properties of one's own."""

    def __init__(self, first, last=None):
        self.first, self.last = first, last or first

    def __eq__(self, other):
        return (self.first, self.last) == (other.first, other.last)


class FuzzyDateModel(ndb.Model):
    first = ndb.DateProperty()
    last = ndb.DateProperty()


class FuzzyDateProperty(ndb.StructuredProperty):
    def __init__(self, **words):
        super().__init__(FuzzyDateModel, **words)

    def _validate(self, value):
        assert isinstance(value, FuzzyDate)

    def _to_base_type(self, value):
        return FuzzyDateModel(first=value.first, last=value.last)

    def _from_base_type(self, value):
        return FuzzyDate(value.first, value.last)


class MaybeFuzzyDateProperty(FuzzyDateProperty):
    def _validate(self, value):
        if isinstance(value, datetime.date):
            return FuzzyDate(value)

    def _from_base_type(self, value):
        return value.first if value.first == value.last else value


class Person(ndb.Model):
    born = FuzzyDateProperty()
    moved = MaybeFuzzyDateProperty(repeated=True)


class Named(ndb.MetaModel):
    """A class of classes of the application's own."""

    def __init__(cls, name, bases, classdict):
        super().__init__(name, bases, classdict)
        cls.told = f"{name}: {', '.join(cls._properties)}"


class Values(WithServer):
    def test_properties_of_the_application_that_stand_on_structures(self):
        day, other = datetime.date(1732, 2, 22), datetime.date(1799, 12, 14)
        key = Person(born=FuzzyDate(day, other), moved=[day, FuzzyDate(day, other)]).put()
        self.assertEqual(self.client.get(key.to_driver()).entity["born.first"].date(), day)
        self.context.clear_cache()
        found = key.get()
        self.assertEqual((found.born, found.moved), (FuzzyDate(day, other), [day, FuzzyDate(day, other)]))
        self.client.settle()
        for query in (Person.query(Person.born.first == day), Person.query(Person.born == FuzzyDate(day, other)), Person.query(Person.moved == day),
                      Person.query(Person.moved.last > day)):
            self.assertEqual(query.get(keys_only=True), key)
        self.assertEqual(Person.query(Person.moved == FuzzyDate(other)).count(), 0)

    def test_a_structure_that_was_added_to_the_list(self):
        thing = Thing()
        thing.sizes.append({"name": "s", "price": 1})
        self.assertEqual(self.client.get(thing.put().to_driver()).entity["sizes.price"], 1)
        thing.sizes.append(7)
        with self.assertRaises(errors.BadValueError):
            thing.put()

    def test_a_class_of_classes(self):
        made = Named("Made", (ndb.Model,), {"n": ndb.IntegerProperty(), "__module__": __name__})
        self.assertEqual((made.told, made(n=1).put().kind()), ("Made: n", "Made"))

    def test_keys_of_a_local_structure(self):
        class Bag(ndb.Model):
            kept = ndb.LocalStructuredProperty(Size, keep_keys=True)
            plain = ndb.LocalStructuredProperty(Size, repeated=True, compressed=True)

        size = Size(id="s", name="x", price=1)
        key = Bag(kept=size, plain=[size]).put()
        self.context.clear_cache()
        self.assertEqual((key.get().kept, key.get().plain), (size, [Size(name="x", price=1)]))

    def test_types_of_json_and_compressed_texts(self):
        class Doc(ndb.Model):
            words = ndb.JsonProperty(json_type=dict)
            text = ndb.CompressedTextProperty()

        key = Doc(words={"a": 1.5}, text="x" * 9000).put()
        self.context.clear_cache()
        self.assertEqual((key.get().words, key.get().text), ({"a": 1.5}, "x" * 9000))
        self.assertLess(len(self.client.get(key.to_driver()).entity["text"]), 200)
        with self.assertRaises(errors.BadValueError):
            Doc(words=[1])


class Testbeds(unittest.TestCase):
    def setUp(self):
        self.bed = testbed.Testbed()
        self.bed.activate()

    def tearDown(self):
        if self.bed._active:
            self.bed.deactivate()

    def seen(self):
        counts = []
        for n in range(12):
            Item(id=f"i{n}", n=n).put()
            counts.append(Item.query(Item.n == n).count())
        return counts

    def test_each_policy(self):
        policies = datastore_stub_util
        self.bed.init_memcache_stub()
        for policy, expected in ((None, {1}), (policies.MasterSlaveConsistencyPolicy(), {1}), (policies.PseudoRandomHRConsistencyPolicy(probability=0), {0}),
                                 (policies.PseudoRandomHRConsistencyPolicy(probability=1), {1}), (policies.TimeBasedHRConsistencyPolicy(), {0}),
                                 (policies.PseudoRandomHRConsistencyPolicy(probability=0.5, seed=7), {0, 1})):
            self.bed.init_datastore_v3_stub(consistency_policy=policy)
            self.assertEqual(Item.query().count(), 0)
            self.assertEqual(set(self.seen()), expected, policy)
            self.bed.client.settle()
            self.assertEqual(Item.query().count(), 12)
        self.bed.init_datastore_v3_stub(consistency_policy=policies.PseudoRandomHRConsistencyPolicy(0.5, 7))
        first = self.seen()
        self.bed.init_datastore_v3_stub(consistency_policy=policies.PseudoRandomHRConsistencyPolicy(0.5, 7))
        self.assertEqual(self.seen(), first)
        for given in (2, True, "x"):
            with self.assertRaises(TypeError):
                policies.PseudoRandomHRConsistencyPolicy(given)

    def test_the_end_of_a_test(self):
        self.bed.init_datastore_v3_stub()
        Item(id="a").put()
        self.bed.setup_env(app_id="shop", current_version_id="v1", overwrite=True)
        self.assertEqual((ndb.Key("A", 1).app(), os.environ["CURRENT_VERSION_ID"]), ("shop", "v1"))
        self.bed.deactivate()
        self.assertEqual((ndb.Key("A", 1).app(), os.environ.get("CURRENT_VERSION_ID")), ("testbed-test", None))
        with self.assertRaises(RuntimeError):
            ndb.get_context()
        for work in (self.bed.deactivate, self.bed.init_datastore_v3_stub, self.bed.setup_env):
            with self.assertRaises(testbed.NotActivatedError):
                work()
        self.bed.activate()
        self.bed.init_all_stubs()
        self.assertIsNone(Item.get_by_id("a"))

    def test_the_index_file(self):
        query = Item.query(Item.colour == "red").order(Item.n)
        self.bed.init_datastore_v3_stub()
        with self.assertRaises(errors.NeedIndexError) as caught:
            query.fetch()
        with tempfile.TemporaryDirectory() as folder:
            entry = str(caught.exception).partition("\n\n")[2].partition("\n\n")[0]
            pathlib.Path(folder, "index.yaml").write_text(f"indexes:\n{entry}\n", encoding="utf-8")
            self.bed.init_datastore_v3_stub(root_path=folder)
            Item(colour="red", n=1, name="found").put()
            self.assertEqual([each.name for each in query.fetch()], ["found"])

    def test_modules_by_their_names(self):
        ndb.install()
        from google.appengine.api import namespace_manager as manager
        from google.appengine.datastore import datastore_stub_util as stubs
        from google.appengine.ext import testbed as beds

        self.assertIs(beds.Testbed, testbed.Testbed)
        self.assertIs(stubs.PseudoRandomHRConsistencyPolicy, datastore_stub_util.PseudoRandomHRConsistencyPolicy)
        self.assertIs(manager.get_namespace, namespace_manager.get_namespace)


if __name__ == "__main__":
    unittest.main()
