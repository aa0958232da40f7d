"""Tests of futures, tasklets, options, contexts and transactions of `torfyllan.ndb`.

    python3 drivers/python/test_ndb_tasklets.py
"""
import os
import sys
import threading
import unittest

sys.path.insert(0, os.path.dirname(os.path.abspath(__file__)))
from ndb_case import WithServer
from torfyllan import Server, ndb
from torfyllan.ndb import datastore_errors as errors


class Thing(ndb.Model):
    n = ndb.IntegerProperty(default=0)


class Futures(unittest.TestCase):
    def test_one_that_is_set_later(self):
        future, called = ndb.Future("mine"), []
        future.add_callback(called.append, 1)
        future.add_immediate_callback(called.append, 2)
        future.add_done_callback(lambda done: called.append(done.get_result()))
        self.assertEqual((future.done(), future.running(), future.state, called), (False, True, ndb.Future.RUNNING, []))
        for wait in (future.wait, future.get_result, future.check_success, lambda: ndb.Future.wait_all([future]), lambda: ndb.Future.wait_any([future])):
            with self.assertRaises(RuntimeError) as caught:
                wait()
            self.assertIn("Deadlock", str(caught.exception))
        future.set_result(7)
        self.assertEqual((future.done(), future.get_result(), future.result(), future.state, called), (True, 7, 7, ndb.Future.FINISHING, [1, 2, 7]))
        future.add_callback(called.append, 3)
        self.assertEqual(called[-1], 3)
        with self.assertRaises(RuntimeError):
            future.set_result(8)

    def test_one_that_failed(self):
        future = ndb.Future()
        with self.assertRaises(TypeError):
            future.set_exception("x")
        future.set_exception(ZeroDivisionError("zero"))
        self.assertIsInstance(future.get_exception(), ZeroDivisionError)
        self.assertIsNone(future.get_traceback())
        try:
            future.check_success()
        except ZeroDivisionError:
            self.assertIsNotNone(future.get_traceback())
        else:
            self.fail("no exception")

    def test_waiting_for_several(self):
        done, open_one = ndb.Future(), ndb.Future()
        done.set_result(1)
        self.assertIs(ndb.Future.wait_any([open_one, done]), done)
        self.assertIsNone(ndb.Future.wait_any([]))
        self.assertIsNone(ndb.Future.wait_all(each for each in [done]))

    def test_lists_of_futures(self):
        several, first = ndb.MultiFuture(), ndb.Future()
        several.add_dependent(first)
        several.putq(2)
        several.complete()
        self.assertFalse(several.done())
        first.set_result(1)
        self.assertEqual(several.get_result(), [1, 2])
        with self.assertRaises(RuntimeError):
            several.putq(3)
        failed, broken = ndb.MultiFuture(), ndb.Future()
        failed.add_dependent(broken)
        failed.complete()
        broken.set_exception(ZeroDivisionError())
        self.assertIsInstance(failed.get_exception(), ZeroDivisionError)
        total = ndb.ReducingFuture(sum)
        for n in (1, 2, 3):
            total.putq(n)
        total.complete()
        self.assertEqual(total.get_result(), 6)

    def test_queues(self):
        for kind, expected in ((ndb.QueueFuture, [2, 1]), (ndb.SerialQueueFuture, [1, 2])):
            queue, first, second = kind(), ndb.Future(), ndb.Future()
            wanted = queue.getq()
            queue.add_dependent(first)
            queue.add_dependent(second)
            queue.complete()
            second.set_result(2)
            first.set_result(1)
            self.assertEqual([wanted.get_result(), queue.getq().get_result()], expected)
            self.assertIsInstance(queue.getq().get_exception(), EOFError)
            self.assertIsNone(queue.get_result())


class Tasklets(WithServer):
    def test_results(self):
        key = Thing(id="a", n=5).put()
        Thing(id="b", n=6).put()

        @ndb.tasklet
        def one(name):
            thing = yield ndb.Key(Thing, name).get_async()
            raise ndb.Return(thing.n)

        @ndb.tasklet
        def both():
            first, second = yield one("a"), one("b")
            third = yield [one("a")]
            return first + second + third[0]

        @ndb.tasklet
        def plain(n):
            if n:
                raise ndb.Return(n, n)
            return "plain"

        self.assertEqual((one("a").get_result(), both().get_result(), plain(0).get_result(), plain(1).get_result()), (5, 16, "plain", (1, 1)))
        self.assertEqual(ndb.synctasklet(lambda: key.get_async().get_result().n)(), 5)

        @ndb.synctasklet
        def nothing():
            yield key.get_async()
            raise ndb.Return()

        self.assertIsNone(nothing())

    def test_exceptions(self):
        seen = []

        @ndb.tasklet
        def failing():
            yield ndb.sleep(0)
            raise ZeroDivisionError("inside")

        @ndb.tasklet
        def catching():
            try:
                yield failing()
            except ZeroDivisionError as error:
                seen.append(str(error))
            yield failing()

        future = catching()
        self.assertIsInstance(future.get_exception(), ZeroDivisionError)
        self.assertEqual(seen, ["inside"])
        with self.assertRaises(ZeroDivisionError):
            future.get_result()

        @ndb.tasklet
        def wrong():
            yield 7

        with self.assertRaises(RuntimeError) as caught:
            wrong().get_result()
        self.assertIn("plain value", str(caught.exception))

    def test_one_that_waits(self):
        gate = ndb.Future("gate")

        @ndb.tasklet
        def waiting():
            first = yield gate
            second = yield gate
            raise ndb.Return(first + second)

        future = waiting()
        self.assertFalse(future.done())
        with self.assertRaises(RuntimeError):
            future.get_result()
        gate.set_result(4)
        self.assertEqual(future.get_result(), 8)

    def test_many_steps_take_no_stack(self):
        @ndb.synctasklet
        def counting():
            total = 0
            for n in range(5000):
                done = ndb.Future()
                done.set_result(1)
                total += yield done
            raise ndb.Return(total)

        self.assertEqual(counting(), 5000)

    def test_toplevel(self):
        Thing(id="a", n=1).put()
        inside = []

        @ndb.toplevel
        def request():
            inside.append(ndb.get_context())
            with self.other_request():
                Thing(id="a", n=2).put()
            thing = yield ndb.Key(Thing, "a").get_async()
            raise ndb.Return(thing.n)

        self.assertEqual((request(), Thing.get_by_id("a").n), (2, 1))
        self.assertIs(ndb.get_context(), self.context)
        self.assertIsNot(inside[0], self.context)

    def test_maps(self):
        keys = ndb.put_multi(Thing(id=n, n=n) for n in (1, 2, 3))
        self.client.settle()
        query = Thing.query().order(Thing.key)

        @ndb.tasklet
        def doubled(thing):
            again = yield thing.key.get_async()
            raise ndb.Return(again.n * 2)

        self.assertEqual((query.map(doubled), query.map_async(doubled, limit=2).get_result(), query.map(lambda thing: thing.n)), ([2, 4, 6], [2, 4], [1, 2, 3]))
        self.assertEqual((query.map(lambda key: key.id(), keys_only=True), query.map(None, keys_only=True)), ([1, 2, 3], keys))
        total = ndb.ReducingFuture(sum)
        self.assertEqual(query.map(doubled, merge_future=total), 12)
        self.assertEqual(ndb.get_context().map_query(query, doubled).get_result(), [2, 4, 6])

    def test_in_transactions(self):
        Thing(id="a", n=1).put()

        @ndb.tasklet
        def grow():
            thing = yield ndb.Key(Thing, "a").get_async()
            thing.n += 1
            yield thing.put_async()
            raise ndb.Return((thing.n, ndb.in_transaction()))

        self.assertEqual(ndb.transaction(grow), (2, True))
        self.assertEqual(ndb.transaction_async(grow).get_result(), (3, True))
        self.assertEqual(ndb.transactional(grow)(), (4, True))
        self.assertEqual(ndb.transactional_async(lambda: ndb.in_transaction())().get_result(), True)

        @ndb.transactional_tasklet(retries=0)
        def shrink():
            thing = yield ndb.Key(Thing, "a").get_async()
            thing.key.delete()

        self.assertIsNone(shrink().get_result())
        self.assertIsNone(Thing.get_by_id("a"))


class Contexts(WithServer):
    def test_set_and_made(self):
        Thing(id="a").put()
        made = ndb.make_default_context()
        ndb.set_context(made)
        self.assertIs(ndb.get_context(), made)
        self.assertFalse(made._cache)
        ndb.set_context(None)
        self.assertIsNot(ndb.get_context(), made)
        with self.other_request() as other:
            ndb.set_context(None)
            self.assertEqual(ndb.get_context().client, other.client)
        self.assertEqual(ndb.get_context().client, self.client)
        found = []

        def in_a_thread():
            ndb.set_context(self.context)
            found.append(Thing.get_by_id("a"))

        thread = threading.Thread(target=in_a_thread)
        thread.start()
        thread.join()
        self.assertEqual(len(found), 1)

    def test_calls_of_a_context(self):
        context = ndb.get_context()
        key = context.put(Thing(id="a", n=3)).get_result()
        self.assertEqual((context.get(key).get_result().n, context.transaction(lambda: key.get().n).get_result()), (3, 3))
        self.client.settle()
        self.assertEqual([thing.n for thing in context.iter_query(Thing.query())], [3])
        self.assertIsNone(context.delete(key, use_cache=False).get_result())
        self.assertIsNone(context.flush().get_result())

    def test_policies(self):
        context = ndb.get_context()
        self.assertEqual(context.get_namespace(), "")
        for name in ("cache", "memcache", "memcache_timeout", "global_cache", "global_cache_timeout", "datastore"):
            getattr(context, f"set_{name}_policy")(True)
            self.assertIs(getattr(context, f"get_{name}_policy")()(None), True)
            getattr(context, f"set_{name}_policy")(None)
            self.assertIsNone(getattr(context, f"get_{name}_policy")())

        class Quiet(ndb.Model):
            _use_cache = False
            _use_memcache = False
            _memcache_timeout = 60

        key = Quiet().put()
        self.assertIsNot(key.get(), key.get())
        told = (context.default_cache_policy(key), context.default_memcache_policy(key), context.default_memcache_timeout_policy(key), context.default_datastore_policy(key))
        self.assertEqual(told, (False, False, 60, None))
        context.set_cache_policy(lambda key: True)
        self.assertIs(key.get(), key.get())
        context.set_datastore_policy(lambda key: key.kind() != "Quiet")
        for work in (key.get, Quiet().put, key.delete, lambda: Thing().put(use_datastore=False)):
            with self.assertRaises(NotImplementedError) as caught:
                work()
            self.assertIn("nothing but the Datastore", str(caught.exception))
        Thing().put()

    def test_options(self):
        person = Thing(id="a", n=1)
        key = person.put(options=ndb.ContextOptions(use_cache=False, deadline=5))
        self.assertIsNot(key.get(), person)
        quiet = ndb.ContextOptions(use_cache=False)
        self.assertIsNot(key.get(options=quiet), key.get(options=quiet))
        self.assertIs(key.get(options=quiet, use_cache=True), key.get())
        self.assertEqual(Thing.get_or_insert("b", n=4, context_options=quiet).n, 4)
        self.client.settle()
        query = Thing.query(default_options=ndb.QueryOptions(keys_only=True, limit=1))
        self.assertEqual((query.fetch(), query.order(Thing.key).fetch(2), query.fetch(options=ndb.QueryOptions(limit=2))),
                         ([key], [key, ndb.Key(Thing, "b")], [key, ndb.Key(Thing, "b")]))
        merged = ndb.QueryOptions(ndb.QueryOptions(limit=1, offset=2), limit=3)
        self.assertEqual((merged.limit, merged.offset, merged.hint, merged.merge(ndb.QueryOptions(offset=4)).offset), (3, 2, None, 4))
        self.assertEqual((ndb.QueryOptions(limit=1), repr(quiet)), (ndb.QueryOptions(limit=1), "ContextOptions(use_cache=False)"))
        for work, error in ((lambda: ndb.ContextOptions(limit=1), TypeError), (lambda: key.get(options={"use_cache": False}), errors.BadArgumentError),
                            (lambda: quiet.limit, AttributeError), (lambda: Thing.query(default_options={"limit": 1}), errors.BadArgumentError)):
            with self.assertRaises(error):
                work()
        self.assertEqual(ndb.transaction(lambda: ndb.in_transaction(), options=ndb.TransactionOptions(xg=True, retries=0)), True)


class Propagation(WithServer):
    def test_each(self):
        options = ndb.TransactionOptions
        Thing(id="a", n=1).put()

        def inside(propagation, **words):
            return ndb.transaction(lambda: ndb.get_context(), propagation=propagation, **words)

        with self.assertRaises(errors.BadRequestError) as caught:
            inside(options.MANDATORY)
        self.assertIn("existing", str(caught.exception))
        for propagation in (options.NESTED, options.ALLOWED, options.INDEPENDENT, None):
            self.assertTrue(inside(propagation).in_transaction())

        def outer():
            here = ndb.get_context()
            self.assertIs(inside(options.MANDATORY), here)
            self.assertIs(inside(options.ALLOWED), here)
            for propagation in (options.NESTED, None):
                with self.assertRaises(errors.BadRequestError):
                    inside(propagation)
            other = inside(options.INDEPENDENT)
            self.assertTrue(other.in_transaction())
            self.assertIsNot(other, here)
            self.assertNotEqual(other.client.number, here.client.number)
            ndb.transaction(Thing(id="log").put, propagation=options.INDEPENDENT)
            raise ndb.Rollback()

        self.assertIsNone(ndb.transaction(outer))
        self.assertIsNotNone(Thing.get_by_id("log"))
        self.assertTrue(ndb.transactional(propagation=options.INDEPENDENT)(lambda: ndb.in_transaction())())
        for words in ({"propagation": 9}, {"retries": "x"}):
            with self.assertRaises(errors.BadArgumentError):
                ndb.transaction(lambda: 1, **words)
        with self.assertRaises(TypeError):
            ndb.transaction(lambda: 1, tries=2)


class Cloud(unittest.TestCase):
    """The names of google.cloud.ndb, and requests of a WSGI application."""

    def test_a_client_of_google_cloud(self):
        ndb.install()
        from google.cloud import ndb as cloud_ndb
        from google.cloud.ndb import exceptions

        self.assertIs(cloud_ndb, ndb)
        self.assertIs(exceptions.BadValueError, errors.BadValueError)
        client = cloud_ndb.Client(project="shop", credentials=None)
        self.assertEqual((client.project, client.namespace), ("shop", None))
        with self.assertRaises(RuntimeError) as caught, client.context():
            pass
        self.assertIn("ndb.use(server.client())", str(caught.exception))
        with Server() as server, ndb.use(server.client()) as outside:
            with client.context() as context:
                self.assertIs(ndb.get_context(), context)
                key = Thing(id="a", n=1).put()
            self.assertIsNot(outside.get(key).get_result(), None)
            with client.context(namespace="tenant", cache_policy=False):
                self.assertEqual((ndb.Key(Thing, "a").namespace(), Thing.get_by_id("a")), ("tenant", None))
                self.assertIsNot(Thing(id="t").put().get(), None)
            self.assertEqual(ndb.Key(Thing, "a").namespace(), "")
            own = ndb.Client(server.client(3), namespace="tenant")
            with own.context() as context:
                self.assertEqual((context.client.number, Thing.get_by_id("t").key.namespace()), (3, "tenant"))

            def beside():
                with client.context() as context:
                    return context.client.number

            self.assertNotEqual(ndb.transaction(beside), 0)
            with self.assertRaises(TypeError):
                ndb.Client(projekt="x")

    def test_requests_of_a_wsgi_application(self):
        closed = []

        class Body(list):
            def close(self):
                closed.append(ndb.get_context().client.number)

        def application(environ, start_response):
            start_response("200 OK", [])
            thing = Thing.get_or_insert("visits")
            thing.n += 1
            thing.put()
            return Body([str(thing.n).encode()])

        served = ndb.wsgi_middleware(application)
        with self.assertRaises(RuntimeError):
            served({}, lambda status, headers: None)
        answers = []

        def ask(app):
            answers.append(b"".join(app({}, lambda status, headers: answers.append(status))))

        with Server() as server, ndb.use(server.client()):
            ask(served)
            thread = threading.Thread(target=ask, args=(served,))
            thread.start()
            thread.join()
            ask(ndb.wsgi_middleware(application, server.client(2, namespace="other")))
            self.assertEqual(Thing.get_by_id("visits").n, 2)
        self.assertEqual(answers, ["200 OK", b"1", "200 OK", b"2", "200 OK", b"1"])
        self.assertEqual(len(closed), 3)
        self.assertNotIn(0, closed)


if __name__ == "__main__":
    unittest.main()
