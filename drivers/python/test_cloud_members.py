"""Walks the table of the Cloud client's members, and that of `google.api_core`, against the façade, and checks the tables of docs/python.md.

    python3 drivers/python/test_cloud_members.py
"""
import os
import pathlib
import sys
import tempfile
import unittest
from unittest import mock

HERE = os.path.dirname(os.path.abspath(__file__))
sys.path.insert(0, HERE)
import member_tables
from member_walk import Walk
from torfyllan import Server, cloud
from torfyllan.cloud import aggregation, api_clients, api_exceptions, api_retry, helpers, query
from torfyllan.cloud.iterator import Page
from torfyllan.cloud.members import API_CORE, TABLE
from torfyllan.members import NoSuchName, NotThere, Table, expanded, page_table, refused, without_effect, works


class CloudMembers(Walk, unittest.TestCase):
    table, module = TABLE, cloud
    own = ("Aborted", "Conflict", "exceptions", "FailedPrecondition", "install", "InvalidArgument", "Key.to_driver", "query_profile", "use")

    @classmethod
    def setUpClass(cls):
        cls.server = Server().start()
        cls.addClassCleanup(cls.server.kill)

    def setUp(self):
        self.client = cloud.Client(self.server.client(namespace=self.id().rpartition(".")[2]))
        self.key = self.client.key("Task", "a")
        entity = cloud.Entity(self.key)
        entity["n"] = 1
        self.client.put(entity)

    def samples(self):
        asked = self.client.query(kind="Task")
        counted = self.client.aggregation_query(asked).count()
        condition = query.PropertyFilter("n", "=", 1)
        return {
            "Client": self.client, "Key": self.key, "Entity": cloud.Entity(self.key), "Batch": self.client.batch(), "Transaction": self.client.transaction(),
            "Query": asked, "query.Iterator": asked.fetch(), "query.Page": next(asked.fetch().pages), "query.PropertyFilter": condition,
            "query.And": query.And([condition]), "query.Or": query.Or([condition]), "query.BaseFilter": query.BaseFilter(),
            "query.BaseCompositeFilter": query.BaseCompositeFilter("AND", [condition]), "helpers.GeoPoint": helpers.GeoPoint(1.5, 2.5),
            "aggregation.AggregationQuery": counted, "aggregation.AggregationResultIterator": counted.fetch(),
            "aggregation.AggregationResult": aggregation.AggregationResult("a", 1), "aggregation.BaseAggregation": aggregation.BaseAggregation("a"),
            "aggregation.CountAggregation": aggregation.CountAggregation("a"),
        }

    def calls(self):
        client, key, partial, entity = self.client, self.key, self.client.key("Task"), cloud.Entity(self.key)

        def put(words):
            value = words.pop("value", 1)
            made = cloud.Entity(key)
            made["value"] = value
            client.put(made, **words)

        def began(words, call):
            transaction = client.transaction()
            if call != "begin":
                transaction.begin()
            try:
                getattr(transaction, call)(**words)
            finally:
                transaction.rollback() if call == "begin" and transaction.id else None

        def batch_commit(words):
            batch = client.batch()
            batch.begin()
            batch.commit(**words)

        def read(words, call, what):
            transaction = client.transaction()
            if "transaction" in words:
                transaction.begin()
                words = {"transaction": transaction}
            try:
                getattr(client, call)(what, **words)
            finally:
                transaction.rollback() if transaction.id else None

        def add_filter(words):
            if "operator" in words:
                words = {"property_name": "n", "value": 1, **words}
            elif "filter" not in words:
                words = {"property_name": "n", "operator": "=", "value": 1, **words}
            client.query(kind="Task").add_filter(**words)

        counted = client.aggregation_query(client.query(kind="Task")).count()
        return {
            "Client": lambda words: cloud.Client(**words),
            "Client.get": lambda words: read(words, "get", key), "Client.get_multi": lambda words: read(words, "get_multi", [key]),
            "Client.put": put, "Client.put_multi": lambda words: client.put_multi([entity], **words),
            "Client.delete": lambda words: client.delete(key, **words), "Client.delete_multi": lambda words: client.delete_multi([key], **words),
            "Client.allocate_ids": lambda words: client.allocate_ids(partial, 1, **words),
            "Client.reserve_ids": lambda words: client.reserve_ids(client.key("Task", 5), 2, **words),
            "Client.reserve_ids_sequential": lambda words: client.reserve_ids_sequential(client.key("Task", 5), 2, **words),
            "Client.reserve_ids_multi": lambda words: client.reserve_ids_multi([client.key("Task", 5)], **words),
            "Client.query": lambda words: client.query(**{"kind": "Task", **words}), "Client.key": lambda words: client.key("Task", 1, **words),
            "Client.entity": lambda words: client.entity(**words), "Client.transaction": lambda words: client.transaction(**words),
            "Client.aggregation_query": lambda words: client.aggregation_query(client.query(kind="Task"), **words),
            "Transaction": lambda words: cloud.Transaction(client, **words), "Key": lambda words: cloud.Key("Task", 1, **{"project": "p", **words}),
            "Entity": lambda words: cloud.Entity(**words), "Transaction.begin": lambda words: began(words, "begin"),
            "Transaction.commit": lambda words: began(words, "commit"), "Transaction.rollback": lambda words: began(words, "rollback"),
            "Batch.commit": batch_commit, "Query.fetch": lambda words: list(client.query(kind="Task").fetch(**words)),
            "Query.add_filter": add_filter, "Query.key_filter": lambda words: client.query(kind="Task").key_filter(key, **words),
            "aggregation.AggregationQuery.fetch": lambda words: list(counted.fetch(**words)),
            "aggregation.AggregationQuery.count": lambda words: counted.count(**words),
            "Key.to_legacy_urlsafe": lambda words: key.to_legacy_urlsafe(**words),
        }

    def values(self):
        first = self.client.query(kind="Task").fetch(limit=1)
        list(first)
        return {
            "read_time": 1, "explain_options": 1, "distinct_on": ["n"], "credentials": 1, "client_info": 1, "client_options": {}, "database": "d", "_http": 1,
            "_use_grpc": True, "project": "p", "eventual": True, "timeout": 5.0, "deferred": [], "missing": [], "begin_later": True, "read_only": True,
            "limit": 1, "retry": api_retry.Retry(timeout=1.0), "transaction": True, "namespace": "n", "kind": "Task", "ancestor": self.key,
            "filters": [("n", "=", 1)], "projection": ["n"], "order": ["n"], "key": self.key, "exclude_from_indexes": ["n"], "parent": self.key,
            "filter": query.PropertyFilter("n", "=", 1), "client": self.client, "offset": 0, "start_cursor": first.next_page_token, "end_cursor": None,
            "operator": ">", "alias": "all", "location_prefix": "s~", "Key(namespace)": "n", "Client.put(value=GeoPoint)": helpers.GeoPoint(1.5, 2.5),
        }

    def test_names_of_modules_keep_their_sentence_where_they_are_imported(self):
        for code in ("from torfyllan.cloud.query_profile import ExplainOptions", "from torfyllan.cloud.helpers import entity_to_protobuf",
                     "from torfyllan.cloud.aggregation import SumAggregation"):
            with self.assertRaises(ImportError) as caught:
                exec(code, {})
            self.assertIsInstance(caught.exception, NoSuchName)
        with self.assertRaises(ImportError):
            exec("from torfyllan.cloud import no_such_name", {})

    def test_a_mock_can_be_made_like_each_class(self):
        for kind in (cloud.Client, cloud.Key, cloud.Query, cloud.Batch, cloud.Transaction, Page):
            with self.subTest(kind.__name__):
                self.assertFalse(hasattr(mock.create_autospec(kind, instance=True), "no_such_name"))
        self.assertFalse(hasattr(self.key, "to_protobuf"))


class ApiCoreMembers(Walk, unittest.TestCase):
    table = API_CORE

    class module:
        __all__ = ("retry", "exceptions")
        retry, exceptions, client_options = api_retry, api_exceptions, api_clients

        class gapic_v1:
            client_info = api_clients

    own = ("retry", "exceptions")

    def samples(self):
        return {"retry.Retry": api_retry.Retry(), "exceptions.GoogleAPICallError": api_exceptions.Aborted("text")}

    def calls(self):
        return {"retry.Retry": lambda words: api_retry.Retry(**words)}

    def values(self):
        return {"predicate": api_retry.if_exception_type(ValueError), "initial": 1.0, "maximum": 2.0, "multiplier": 2.0, "timeout": 3.0, "deadline": 3.0,
                "on_error": print}


class Machinery(unittest.TestCase):
    TABLE = Table("a.library", [
        refused("ask for {a} instead", "Thing.{lost,gone}", "Thing.make(old)", "lost", "Thing.make(mode='x')"),
        without_effect("nothing is slow", "Thing.make(deadline)"), works("Thing", "Thing.make", "Thing.make(new)"),
    ])

    def test_names_that_braces_stand_for(self):
        self.assertEqual(list(expanded("A.{b,c}(d)")), ["A.b(d)", "A.c(d)"])
        self.assertEqual(list(expanded("{A,B}.{c,d}")), ["A.c", "A.d", "B.c", "B.d"])
        self.assertEqual(list(expanded("A.b(c={})")), ["A.b(c={})"])

    def test_what_a_call_and_a_module_answer(self):
        self.TABLE.refuse_words("Thing.make", {"deadline": 5, "old": None})
        for words, error in (({"old": 1}, NotThere), ({"other": 1}, TypeError)):
            with self.assertRaises(error):
                self.TABLE.refuse_words("Thing.make", words)
        self.TABLE.refuse_value("Thing.make", "mode", "y")
        with self.assertRaises(NotThere) as caught:
            self.TABLE.refuse_value("Thing.make", "mode", "x")
        self.assertEqual(str(caught.exception), "a.library: Thing.make(mode='x') isn't there: ask for {a} instead")
        with self.assertRaises(NoSuchName):
            self.TABLE.module_getattr("m")("lost")

    def test_tables_that_are_none(self):
        for rows in ([works("A"), works("A")], [refused("", "A")]):
            with self.assertRaises(ValueError):
                Table("a.library", rows)

    def test_a_walk_that_finds_what_is_wrong(self):
        class Thing:
            def make(self, new=None):
                pass

        class wrong:
            __all__ = ("Thing", "more")

        wrong.Thing, wrong.more, table = Thing, 1, self.TABLE

        class Case(Walk, unittest.TestCase):
            table, module = self.TABLE, wrong

            def samples(self):
                return {"Thing": Thing()}

            def calls(self):
                return {"Thing.make": lambda words: Thing().make(**words)}

            def values(self):
                return {"old": 1, "deadline": 1, "new": 1}

        ran = unittest.TestResult()
        unittest.defaultTestLoader.loadTestsFromTestCase(Case).run(ran)
        found = {(str(test).partition("[")[2].partition("]")[0] or test.id().rpartition(".")[2]) for test, _ in ran.failures + ran.errors}
        self.assertEqual(found, {"Thing.lost", "Thing.gone", "Thing.make(old)", "lost", "Thing.make(mode='x')", "Thing.make(deadline)",
                                 "test_the_table_has_each_public_name_of_the_facade"})
        self.assertEqual(len(table.of("refused")), 5)

    def test_the_page_has_the_tables_as_they_are(self):
        self.assertEqual(member_tables.main(["--check"]), 0)
        lines = page_table(self.TABLE).splitlines()
        self.assertEqual(lines, [
            "| In `a.library` | Here |", "|---|---|",
            "| `lost, gone, make(mode='x')` of `Thing`; `old=` of `Thing.make`; `lost` | refused: ask for {a} instead |",
            "| `deadline=` of `Thing.make` | without effect: nothing is slow |", "", "| Of | Works as in the library |", "|---|---|",
            "| the module | `Thing` |", "| `Thing` | `make(new=)` |",
        ])

    def test_a_stale_table_is_told_and_mended(self):
        with tempfile.TemporaryDirectory() as folder:
            page = pathlib.Path(folder, "page.md")
            page.write_text("# P\n<!-- members: cloud -->\nold\n<!-- end of members -->\nrest\n", encoding="utf-8")
            with mock.patch("builtins.print"):
                self.assertEqual(member_tables.main(["--check"], page.parent), 1)
                self.assertEqual(page.read_text(encoding="utf-8").count("old"), 1)
                self.assertEqual((member_tables.main([], page.parent), member_tables.main(["--check"], page.parent)), (0, 0))
                self.assertEqual(page.read_text(encoding="utf-8"), f"# P\n<!-- members: cloud -->\n{page_table(TABLE)}<!-- end of members -->\nrest\n")
                page.write_text("# P\n", encoding="utf-8")
                self.assertEqual((member_tables.main([], page.parent), member_tables.main(["--chek"], page.parent)), (1, 2))


if __name__ == "__main__":
    unittest.main()
