"""Tests of the queries of `torfyllan.cloud`: filters and their combinations, attributes, iterators, counts, and what is refused.

    python3 drivers/python/test_cloud_queries.py
"""
import os
import random
import sys
import unittest

HERE = os.path.dirname(os.path.abspath(__file__))
sys.path.insert(0, HERE)
from cloud_case import WithServer
from torfyllan import cloud
from torfyllan.cloud import aggregation, helpers
from torfyllan.cloud.query import And, Or, PropertyFilter


class Queries(WithServer):
    def setUp(self):
        super().setUp()
        self.tasks(1, 2, 3, 4, 5, 6)

    def test_and_and_or(self):
        for filters, expected in (
            ([Or([PropertyFilter("n", "=", 5), PropertyFilter("n", "=", 2)])], [2, 5]),
            ([Or([PropertyFilter("n", "<", 3), PropertyFilter("n", ">", 4)])], [1, 2, 5, 6]),
            ([Or([PropertyFilter("n", "<", 4), PropertyFilter("n", "<", 3)])], [1, 2, 3]),
            ([And([PropertyFilter("even", "=", True), PropertyFilter("n", "=", 4)])], [4]),
            ([("even", "=", True), Or([PropertyFilter("n", "=", 4), PropertyFilter("n", "=", 5)])], [4]),
            ([Or([And([PropertyFilter("even", "=", True), PropertyFilter("n", "=", 2)]), PropertyFilter("n", "IN", [5, 6])])], [2, 5, 6]),
            ([("n", "NOT_IN", [5, 2, 3])], [1, 4, 6]), ([("n", "NOT_IN", [3]), ("even", "=", True)], [2, 4, 6]), ([("n", "NOT_IN", [3]), ("n", ">", 2)], [4, 5, 6]),
            ([("__key__", "NOT_IN", [self.client.key("Task", "t2")])], [1, 3, 4, 5, 6]),
            ([Or([PropertyFilter("n", "=", 1), Or([PropertyFilter("n", "=", 2), PropertyFilter("even", "=", True)])])], [1, 2, 4, 6]),
        ):
            self.assertEqual(self.numbers(filters=filters), expected, filters)
        either = [Or([PropertyFilter("even", "=", True), PropertyFilter("n", "=", 3)])]
        self.assertEqual((self.numbers(filters=either, order=["-n"]), self.numbers(filters=either, order=["-n"], offset=1, limit=2)), ([6, 4, 3, 2], [4, 3]))
        query = self.client.query(kind="Task", filters=either, order=["-n"])
        query.keys_only()
        self.assertEqual([(entity.key.name, dict(entity)) for entity in query.fetch(limit=2)], [("t6", {}), ("t4", {})])
        query = self.client.query(kind="Task", filters=[Or([PropertyFilter("n", "<", 2), PropertyFilter("n", ">", 5)])], projection=["n"])
        self.assertEqual([dict(entity) for entity in query.fetch()], [{"n": 1}, {"n": 6}])

    def test_or_of_properties_with_several_values(self):
        self.client.put_multi([self.made("Many", "a", v=[1, 9]), self.made("Many", "b", v=[4, 5]), self.made("Many", "c", v=[2, 7])])
        self.connection.settle()

        def names(order, *filters):
            query = self.client.query(kind="Many", filters=[Or([PropertyFilter(*each) for each in filters])], order=order)
            return [entity.key.name for entity in query.fetch()]

        self.assertEqual(names(["v"], ("v", ">", 4), ("v", ">", 8)), ["b", "c", "a"])
        self.assertEqual(names(["-v"], ("v", "<", 3), ("v", "<", 5)), ["b", "c", "a"])
        self.assertEqual(names([], ("v", "=", 9), ("v", "=", 2)), ["a", "c"])
        self.assertEqual((names(["v"], ("v", "=", 9), ("v", "=", 5)), names(["-v"], ("v", "=", 9), ("v", "=", 5))), (["b", "a"], ["a", "b"]))
        self.assertEqual((names(["-v"], ("v", "IN", [2, 4]), ("v", "=", 9)), names(["v"], ("v", "!=", 1), ("v", "=", 1))), (["a", "b", "c"], ["a", "c", "b"]))
        self.assertEqual(names([], ("__key__", ">", self.client.key("Many", "b")), ("v", "=", 1)), ["a", "c"])

    def test_or_gives_what_the_server_gives_for_in_and_unequal(self):
        drawn = random.Random(71)
        self.client.put_multi([self.made("Any", f"k{n:02}", v=[drawn.randrange(6) for _ in range(drawn.randrange(1, 4))], w=drawn.randrange(3)) for n in range(40)])
        self.connection.settle()
        for turn in range(80):
            values = drawn.sample(range(6), drawn.randrange(2, 5))
            order, also = drawn.choice([[], ["v"], ["-v"]]), drawn.choice([[], [("w", "=", 1)]])
            if turn % 4 == 3:
                served, merged, also = ("v", "!=", values[0]), PropertyFilter("v", "NOT_IN", values[:1]), []
            elif turn % 2:
                served, merged = ("v", "IN", values), Or([PropertyFilter("v", "=", value) for value in values])
            else:
                served, merged = ("v", "!=", values[0]), Or([PropertyFilter("v", "<", values[0]), PropertyFilter("v", ">", values[0])])
            if order == ["-v"] and not turn % 2:
                also = []
            window = {"offset": drawn.randrange(3), "limit": drawn.choice([None, 1, 5])}
            found = [[entity.key.name for entity in self.client.query(kind="Any", filters=[one, *also], order=order).fetch(**window)] for one in (served, merged if isinstance(merged, Or) else tuple(merged._branches()[0][0]))]
            self.assertEqual(found[0], found[1], (served, also, order, window))

    def test_combinations_that_are_refused(self):
        for filters, words in (
            ([Or([PropertyFilter("n", "<", 3), PropertyFilter("even", "=", True)])], {}),
            ([Or([PropertyFilter("n", "=", 1), PropertyFilter("n", "=", 2)])], {"projection": ["even"], "order": ["n"]}),
            ([Or([PropertyFilter("n", "=", n), PropertyFilter("n", "=", n + 100)]) for n in range(5)], {}),
            ([Or([PropertyFilter("n", "NOT_IN", list(range(20))), PropertyFilter("n", "NOT_IN", list(range(20)))])], {}), ([("n", "NOT_IN", list(range(30)))], {}),
        ):
            with self.assertRaises(cloud.InvalidArgument):
                self.numbers(filters=filters, **words)
        either = self.client.query(kind="Task", filters=[Or([PropertyFilter("n", "=", 1), PropertyFilter("n", "=", 2)])])
        page = either.fetch(limit=1)
        list(page)
        for work in (lambda: page.next_page_token, lambda: list(either.fetch(start_cursor="AAAA"))):
            with self.assertRaises(cloud.InvalidArgument):
                work()
        for work in (lambda: Or([]), lambda: And([]), lambda: PropertyFilter("n", "==", 1), lambda: PropertyFilter("", "=", 1), lambda: PropertyFilter("n", "IN", "ab"), lambda: PropertyFilter("n", "NOT_IN", []),
                     lambda: either.add_filter(PropertyFilter("n", "=", 1)), lambda: either.add_filter("n", filter=PropertyFilter("n", "=", 1))):
            with self.assertRaises(ValueError):
                work()
        with self.assertRaises(TypeError):
            either.add_filter(filter=("n", "=", 1))

    def test_a_filter_on_the_key(self):
        query = self.client.query(kind="Task")
        query.key_filter(self.client.key("Task", "t4"), ">")
        self.assertEqual([entity["n"] for entity in query.fetch()], [5, 6])
        query = self.client.query(kind="Task")
        query.key_filter(self.client.key("Task", "t4"))
        self.assertEqual([entity["n"] for entity in query.fetch()], [4])
        keys = [self.client.key("Task", name) for name in ("t5", "t2")]
        self.assertEqual(self.numbers(filters=[("__key__", "IN", keys)]), [2, 5])

    def test_attributes(self):
        query = self.client.query(kind="Task", projection="n", order="n")
        self.assertEqual((query.projection, query.order, query.distinct_on, query.filters, query.project), (["n"], ["n"], [], [], "torfyllan"))
        with self.assertRaises(NotImplementedError) as caught:
            query.distinct_on = ["n"]
        self.assertIn("into a set", str(caught.exception))
        with self.assertRaises(NotImplementedError):
            query.distinct_on = "n"
        query.distinct_on = []
        for name in ("orders", "limit", "filters", "project", "projections"):
            with self.assertRaises(AttributeError):
                setattr(query, name, ["n"])
        query.kind, query.namespace, query.ancestor = "Other", "tenant", self.client.key("A", 1)
        self.assertEqual((query.kind, query.namespace, query.ancestor), ("Other", "tenant", self.client.key("A", 1)))
        del query.ancestor
        self.assertIsNone(query.ancestor)
        for name, value, error in (("kind", 1, TypeError), ("namespace", None, ValueError), ("ancestor", "a", TypeError), ("order", [1], TypeError), ("projection", [1], TypeError)):
            with self.assertRaises(error):
                setattr(query, name, value)
        self.assertEqual(query.order, ["n"])

    def test_metadata_is_refused(self):
        for kind in ("__kind__", "__namespace__", "__property__", "__Stat_Total__"):
            with self.assertRaises(NotImplementedError) as caught:
                self.client.query(kind=kind)
            self.assertIn("metadata", str(caught.exception))
            query = self.client.query()
            with self.assertRaises(NotImplementedError):
                query.kind = kind

    def test_equal_cursors_compare_equal(self):
        tokens = []
        for _ in range(2):
            found = self.client.query(kind="Task", order=["n"]).fetch(limit=2)
            list(found)
            tokens.append(found.next_page_token)
        self.assertEqual((tokens[0], len(set(tokens)), type(tokens[0])), (tokens[1], 1, bytes))

    def test_iterators(self):
        query = self.client.query(kind="Task", order=["n"])
        found = query.fetch(limit=4)
        self.assertEqual((found.num_results, found.page_number, found.max_results, found.client), (0, 0, 4, self.client))
        self.assertEqual([next(found)["n"], next(found)["n"], found.num_results, found.page_number], [1, 2, 2, 1])
        self.assertEqual(([entity["n"] for entity in found._taken], found.num_results), ([3, 4], 4))
        with self.assertRaises(StopIteration):
            next(found)
        for again in (iter, lambda taken: taken.pages):
            with self.assertRaises(ValueError):
                again(found)
        found = query.fetch(limit=4)
        page = next(found.pages)
        self.assertEqual((page.num_items, page.remaining, next(page)["n"], page.remaining, found.num_results), (4, 4, 1, 3, 4))
        self.assertEqual(query.fetch(start_cursor=found.next_page_token).next_page_token, found.next_page_token)
        empty = self.client.query(kind="None").fetch()
        self.assertEqual(([page.num_items for page in empty.pages], empty.next_page_token), ([0], None))
        shown, token = [], None
        while True:
            found = query.fetch(limit=4, start_cursor=token)
            shown.append([entity["n"] for entity in next(found.pages)])
            token = found.next_page_token
            if token is None:
                break
        self.assertEqual(shown, [[1, 2, 3, 4], [5, 6]])

    def test_counts(self):
        query = self.client.query(kind="Task", filters=[("n", ">", 2)])
        found = self.client.aggregation_query(query).count(alias="all").count().fetch()
        self.assertEqual([[(each.alias, each.value) for each in results] for results in found], [[("all", 4), ("property_2", 4)]])
        self.assertEqual((found.num_results, found.next_page_token), (1, None))
        counted = aggregation.AggregationQuery(self.client, query).add_aggregations([aggregation.CountAggregation(alias="n")])
        self.assertEqual((next(counted.fetch())[0].value, counted.namespace, counted.project), (4, None, "torfyllan"))
        either = self.client.query(kind="Task", filters=[Or([PropertyFilter("n", "=", 1), PropertyFilter("n", "=", 2)])])
        self.assertEqual(next(self.client.aggregation_query(either).count().fetch())[0].value, 2)
        self.client.put(self.made("Task", "t7", n=7))
        self.assertEqual(next(counted.fetch())[0].value, 4)
        with self.assertRaises(ValueError):
            self.client.aggregation_query(query).fetch()
        with self.assertRaises(TypeError):
            self.client.aggregation_query(query).add_aggregation("count")

    def test_values_that_are_not_stored(self):
        for value, told in ((1.5, "floats"), (helpers.GeoPoint(1.5, 2.0), "places"), ({"a": 1}, "embedded"), (cloud.Entity(), "embedded"), ([1, 1.5], "floats")):
            with self.assertRaises(NotImplementedError) as caught:
                self.client.put(self.made("Task", "a", v=value))
            self.assertIn(f"v: {told}", str(caught.exception))
        with self.assertRaises(NotImplementedError):
            self.numbers(filters=[("v", "=", 1.5)])
        with self.assertRaises(ValueError):
            self.client.put(self.made("Task", "a", v={1}))
        self.assertEqual((helpers.GeoPoint(1.5, 2.0), len({helpers.GeoPoint(1.5, 2.0), helpers.GeoPoint(1.5, 2.0)})), (helpers.GeoPoint(1.5, 2.0), 1))


if __name__ == "__main__":
    unittest.main()
