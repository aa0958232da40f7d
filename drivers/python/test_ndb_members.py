"""Walks the table of ndb's members against the façade.

    python3 drivers/python/test_ndb_members.py
"""
import os
import sys
import unittest

sys.path.insert(0, os.path.dirname(os.path.abspath(__file__)))
from member_walk import Walk
from torfyllan import Server, ndb
from torfyllan.members import NoSuchName


class Sample(ndb.Model):
    n = ndb.IntegerProperty()


class Loose(ndb.Expando):
    pass


class Members(Walk, unittest.TestCase):
    table, module = ndb.TABLE, ndb
    own = ("datastore_errors", "install", "Key.to_driver", "NotStoredError", "use", "wsgi_middleware", "Context.adopt", "Context.hooked", "Context.write",
           "testbed.Testbed.client", "FilterNode.branches", "FilterNode.parts", "Node.branches", "ConjunctionNode.branches", "DisjunctionNode.branches",
           "FalseNode.branches", "AND.branches", "OR.branches", "datastore_stub_util.BaseHighReplicationConsistencyPolicy.consistency")

    @classmethod
    def setUpClass(cls):
        cls.server = Server().start()
        cls.addClassCleanup(cls.server.kill)

    def setUp(self):
        self.client = self.server.client(namespace=self.id().rpartition(".")[2])
        used = ndb.use(self.client)
        used.__enter__()
        self.addCleanup(used.__exit__, None, None, None)
        self.key = Sample(id="a", n=1).put()
        self.client.settle()
        self.bed = ndb.testbed.Testbed()
        self.bed.activate()
        self.addCleanup(self.bed.deactivate)

    def samples(self):
        query = Sample.query()
        return {
            "Key": self.key, "Model": Sample(), "Expando": Loose(), "Property": ndb.StringProperty("s"), "Query": query, "QueryIterator": query.iter(),
            "Cursor": ndb.Cursor(), "GqlQuery": ndb.gql("SELECT * FROM Sample"), "Context": ndb.get_context(), "Future": ndb.Future(),
            "MultiFuture": ndb.MultiFuture(), "QueueFuture": ndb.QueueFuture(), "GeoPt": ndb.GeoPt(1, 2), "testbed.Testbed": self.bed,
            "StructuredProperty": ndb.StructuredProperty(Sample, "s"), "Client": ndb.Client(), "ContextOptions": ndb.ContextOptions(),
        }

    def calls(self):
        key, context = self.key, ndb.get_context()

        def done(call):
            """The call, and where it gives a future, or several, their results."""
            def made(words):
                outcome = call(**words)
                for each in outcome if isinstance(outcome, list) else [outcome]:
                    if isinstance(each, ndb.Future):
                        each.check_success()
            return made

        def context_of(words):
            with ndb.use(self.client), ndb.Client().context(**words):
                pass

        def queried(name):
            def made(**words):
                query = Sample.query()
                if "start_cursor" in words or "end_cursor" in words:
                    cursor = query.fetch_page(1)[1]
                    words = {each: cursor if each.endswith("_cursor") else value for each, value in words.items()}
                if name.startswith("fetch_page"):
                    return getattr(query, name)(1, **words)
                return getattr(query, name)(*([lambda each: each] if name.startswith("map") else []), **words)
            return made

        def key_of(**words):
            path = [] if set(words) & {"flat", "pairs", "urlsafe", "serialized"} else ["Sample", "b"]
            return ndb.Key(*path, **words)

        def model_of(**words):
            return Sample(**({"id": 7, **words} if "parent" in words else words))

        def model_query(**words):
            return Sample.query(**({"projection": [Sample.n], **words} if "distinct" in words or "group_by" in words else words)).fetch()

        def in_transaction(name):
            if name.startswith("transaction_") or name == "transaction":
                return lambda **words: getattr(ndb, name)(lambda: 1, **words)
            return lambda **words: getattr(ndb, name)(**words)(lambda: 1)()

        found = {
            "Key": key_of, "Model": model_of, "Model.query": model_query, "Model.to_dict": Sample(n=1).to_dict, "Query": lambda **words: ndb.Query(**words),
            "Cursor": ndb.Cursor, "make_context": ndb.make_context, "Client": ndb.Client, "ContextOptions": lambda **words: Sample().put(options=ndb.ContextOptions(**words)),
            "non_transactional": lambda **words: ndb.non_transactional(**words)(lambda: 1)(),
            "testbed.Testbed.init_datastore_v3_stub": self.bed.init_datastore_v3_stub,
            "gql": lambda **words: [ndb.gql(f"SELECT * FROM Sample WHERE n = {name}(1, 2)") for name in words], "Context.get": lambda **words: context.get(key, **words), "Context.put": lambda **words: context.put(Sample(id="a", n=1), **words),
            "Context.delete": lambda **words: context.delete(ndb.Key("Sample", "z"), **words),
        }
        for name in ("put", "put_async"):
            found[f"Model.{name}"] = getattr(Sample(id="a", n=1), name)
            found[f"{name[:3]}_multi{name[3:]}"] = lambda name=name, **words: getattr(ndb, f"{name[:3]}_multi{name[3:]}")([Sample(id="a", n=1)], **words)
        for each in ("", "_async"):
            found[f"Model.get_by_id{each}"] = lambda each=each, **words: getattr(Sample, f"get_by_id{each}")("a", **words)
            found[f"Model.get_or_insert{each}"] = lambda each=each, **words: getattr(Sample, f"get_or_insert{each}")("a", **words)
            found[f"Model.allocate_ids{each}"] = lambda each=each, **words: getattr(Sample, f"allocate_ids{each}")(**{"size": 1, **words})
            found[f"Key.get{each}"] = getattr(key, f"get{each}")
            found[f"Key.delete{each}"] = getattr(ndb.Key("Sample", "z"), f"delete{each}")
            for name in ("get", "delete"):
                found[f"{name}_multi{each}"] = lambda name=name, each=each, **words: getattr(ndb, f"{name}_multi{each}")([ndb.Key("Sample", "z")], **words)
            for name in ("fetch", "get", "count", "map", "fetch_page"):
                found[f"Query.{name}{each}"] = queried(f"{name}{each}")
        found["Query.iter"] = lambda **words: list(queried("iter")(**words))
        for name in ("transaction", "transaction_async", "transactional", "transactional_async", "transactional_tasklet"):
            found[name] = in_transaction(name)
        for name in ("Property", "IntegerProperty", "StringProperty", "TextProperty", "BlobProperty", "JsonProperty", "PickleProperty", "DateProperty",
                     "DateTimeProperty", "TimeProperty", "KeyProperty", "GenericProperty", "UserProperty"):
            found[name] = getattr(ndb, name)
        found["LocalStructuredProperty"] = lambda **words: ndb.LocalStructuredProperty(Sample, **words)
        calls = {name: done(call) for name, call in found.items()}
        calls["Client.context"] = context_of
        return calls

    def test_an_argument_that_the_table_has_not_is_a_type_error(self):
        # A word that is no argument of these is a property's name, and an AttributeError as in App Engine.
        calls = self.calls()
        self.calls = lambda: {name: call for name, call in calls.items() if name not in ("Model", "Model.get_or_insert", "Model.get_or_insert_async", "gql")}
        super().test_an_argument_that_the_table_has_not_is_a_type_error()
        for name in ("Model", ):
            with self.assertRaises(AttributeError):
                calls[name]({"no_such_property": 1})

    def values(self):
        options, no_filters = ndb.ContextOptions(use_cache=True), Sample.n == 1
        quiet = dict.fromkeys((*ndb.ContextOptions._names, "batch_size", "prefetch_size", "hint", "global_cache", "global_cache_policy", "global_cache_timeout_policy"), None)
        return {
            **quiet, "use_cache": True, "use_datastore": True, "memcache_timeout": 5, "deadline": 5, "read_policy": ndb.EVENTUAL_CONSISTENCY, "force_writes": True,
            "use_memcache": False, "memcache_deadline": 5, "max_memcache_items": 5, "batch_size": 10, "prefetch_size": 10, "hint": ndb.QueryOptions.ORDER_FIRST,
            "id": 5, "key": ndb.Key("Sample", 5), "parent": ndb.Key("Book", 1), "namespace": "", "app": "testbed-test", "projection": (), "size": 2, "max": 7,
            "include": ["n"], "exclude": ["n"], "pairs": [("Sample", 1)], "flat": ["Sample", 1], "urlsafe": self.key.urlsafe(), "Cursor(urlsafe)": "AQ==", "serialized": self.key.serialized(),
            "reference": object(), "database": "other", "options": options, "context_options": options, "name": "x", "indexed": False, "repeated": True,
            "required": True, "default": "x", "choices": ["x"], "validator": lambda prop, value: None, "verbose_name": "X", "write_empty_list": True,
            "compressed": False, "GenericProperty(compressed)": True, "json_type": dict, "auto_now": True, "auto_now_add": True, "kind": "Sample", "keep_keys": True,
            "auto_current_user": True, "auto_current_user_add": True, "tzinfo": object(), "ancestor": None, "orders": [Sample.n], "filters": no_filters, "distinct": True,
            "group_by": ["n"], "order_by": ["-n"], "distinct_on": (), "join": True, "USER": 1, "GEOPT": 1, "read_only": True, "timeout": 5, "read_consistency": 1, "use_global_cache": False,
            "global_cache_timeout": 5, "default_options": ndb.QueryOptions(limit=1), "keys_only": True, "offset": 1, "limit": 1, "start_cursor": True, "end_cursor": True,
            "produce_cursors": True, "merge_future": None, "pass_batch_into_callback": True, "_cursor": "x", "_cursor_bytes": b"x", "xg": True, "retries": 0,
            "propagation": ndb.TransactionOptions.ALLOWED, "allow_existing": False, "conn": object(), "config": object(), "enable": True, "consistency_policy": None,
            "root_path": None, "auto_id_policy": "sequential", "use_sqlite": False, "save_changes": False, "require_indexes": False, "datastore_file": "/dev/null",
            "project": "shop", "Key(project)": "shop", "credentials": object(), "client_options": {}, "cache_policy": None, "legacy_data": True,
            "Query(group_by)": (), "Query(projection)": ["n"], "Model(projection)": ["n"], "Query(ancestor)": ndb.Key("Book", 1),
        }

    def test_names_of_a_module_can_be_imported_or_tell_why_not(self):
        ndb.install()
        from google.appengine.ext.ndb import blobstore, metadata, model, msgprop, query, stats, tasklets  # noqa: F401

        self.assertIs(model.StringProperty, ndb.StringProperty)
        self.assertIs(query.FilterNode, ndb.FilterNode)
        self.assertIs(tasklets.Future, ndb.Future)
        for work in (lambda: metadata.get_kinds, lambda: stats.GlobalStat, lambda: model.IndexProperty, lambda: __import__("google.appengine.ext.ndb", fromlist=["Index"]).Index):
            with self.assertRaises(NotImplementedError):
                work()
        with self.assertRaises(NoSuchName) as caught:
            from google.appengine.ext.ndb.msgprop import MessageProperty  # noqa: F401
        self.assertIn("BlobProperty", str(caught.exception))
        for module in (ndb, model, query, tasklets, metadata, ndb.testbed, ndb.namespace_manager):
            self.assertFalse(hasattr(module, "nobody_has_this"))


if __name__ == "__main__":
    unittest.main()
