"""Tests of the driver's edges: entities as dicts, rounds that refuse, threads, interrupts, several at once, logs, new starts, and consistency.

    python3 drivers/python/test_edges.py
"""
import copy
import io
import json
import os
import pathlib
import pickle
import signal
import subprocess
import sys
import tempfile
import textwrap
import threading
import time
import unittest

HERE = os.path.dirname(os.path.abspath(__file__))
sys.path.insert(0, HERE)
import torfyllan
from test_torfyllan import WithServer
from torfyllan import Blob, Entity, Key, Many, Server, ServerFailed, Text, TorfyllanError, Unindexed
from torfyllan.shards import FIRST_DRAWN, even_namespace, even_start, hash_of, key_bytes

TOP = pathlib.Path(HERE).parents[1]
# What a shell runs in the background ignores an interrupt, and so would what these tests start.
signal.signal(signal.SIGINT, signal.default_int_handler)


class Entities(unittest.TestCase):
    def test_an_entity_is_a_dict_of_its_properties(self):
        entity = Entity(Key("T", "a"), n=1, s="x")
        self.assertEqual((dict(entity), list(entity), len(entity), entity.get("z", 7)), ({"n": 1, "s": "x"}, ["n", "s"], 2, 7))
        entity["n"] = 6
        del entity["s"]
        self.assertEqual((entity, "s" in entity, {**entity}), (Entity(Key("T", "a"), n=6), False, {"n": 6}))
        self.assertTrue(Entity(Key("T", "a")))
        self.assertEqual(repr(Entity(Key("T", "a"), {"a b": 1})), "Entity(Key('T', 'a'), {'a b': 1})")

    def test_copies_and_pickles(self):
        entity = Entity(Key("T", "a", namespace="n"), tags=["x"], note=Unindexed(Text("y")), blob=Blob(b"1"))
        for again in (copy.copy(entity), entity.copy(), copy.deepcopy(entity), pickle.loads(pickle.dumps(entity))):
            self.assertEqual(again, entity)
            again["more"] = 1
            self.assertNotIn("more", entity)
        self.assertEqual(pickle.loads(pickle.dumps(Many([1]))), [1])
        self.assertIs(type(copy.deepcopy(entity)["blob"]), Blob)

    def test_keys(self):
        key = Key("A", 1, "B", "x", namespace="n")
        self.assertEqual((key.root, pickle.loads(pickle.dumps(key)), copy.deepcopy(key)), (Key("A", 1, namespace="n"), key, key))


class Shards(unittest.TestCase):
    def test_the_hash_is_the_servers(self):
        self.assertEqual([hash_of(text) for text in (b"", b"a", b"foobar")], [0xCBF29CE484222325, 0xAF63DC4C8601EC8C, 0x85944171F73967E8])
        self.assertEqual(key_bytes(Key("Task", "a")).hex(), "025461736b00012061000101")
        self.assertEqual(key_bytes(Key("T\0", 5, namespace="n")).hex(), "036e0001" + "025400ff0001" + "100000000000000005" + "01")
        with self.assertRaises(ValueError):
            torfyllan.shard_of(Key("T", None), 16)

    def test_each_group_is_applied_where_it_is_said_to_be(self):
        for shards in (1, 3, 16):
            with Server(shards=shards) as server:
                for space in ("", "tenant-7"):
                    client = server.client(namespace=space)
                    for key in (Key("T", "a"), Key("Täsk", "ö"), Key("T", 7, "U", "b"), Key("T\0", "\0\x01")):
                        client.settle()
                        before = client.settle().applied
                        client.put(key)
                        after = client.settle().applied
                        changed = [place for place, (one, other) in enumerate(zip(before, after)) if one != other]
                        self.assertEqual(changed, [client.shard_of(key)])

    def test_what_makes_tests_independent(self):
        for name in ("", "test_x[a/ä-1]", "x" * 300, "tests/test_a.py::T::t"):
            space = even_namespace(name)
            self.assertRegex(space, r"\A[A-Za-z0-9._-]{1,100}\Z")
            for shards in (1, 2, 4, 8, 16):
                for word in "abcdefgh":
                    self.assertEqual(torfyllan.shard_of(Key("T", word), shards, space), torfyllan.shard_of(Key("T", word), shards))
        start = FIRST_DRAWN
        for step in (1, 5, 70_000, 2**24, 2**40):
            start = even_start(start + step)
            for more in (0, 1, 255, 256, 4095, 65_535):
                self.assertEqual(torfyllan.shard_of(Key("T", start + more), 16), torfyllan.shard_of(Key("T", FIRST_DRAWN + more), 16))
        self.assertIsNone(even_start(2**63 - 1))


class Applying(WithServer):
    words = {"shards": 4}

    def test_apply_of_a_key_applies_its_shard_and_no_other(self):
        keys = [Key("T", n) for n in range(1, 200)]
        self.client.put_multi([Entity(key) for key in keys])
        key = keys[7]
        shard = self.client.shard_of(key)
        reply = self.client.apply(key)
        same = [one for one in keys if self.client.shard_of(one) == shard]
        self.assertEqual((reply.applied, bool(reply), reply.count, reply.shard), (True, True, len(same), shard))
        self.assertEqual(self.client.query("T", select="keys").results, same)
        again = self.client.apply(key)
        self.assertEqual((again.applied, bool(again), again.count), (False, False, len(same)))
        while self.client.apply(shard=(shard + 1) % 4):
            pass
        self.assertEqual(sum(self.client.query("T").applied), sum(self.client.shard_of(one) in (shard, (shard + 1) % 4) for one in keys))

    def test_truth_of_replies(self):
        put = self.client.put(Key("T", "a"))
        self.assertTrue(put and self.client.get(Key("T", "a")) and self.client.settle() and self.client.query("T"))
        self.assertFalse(self.client.get(Key("T", "b")) or self.client.query("U") or self.client.apply())
        self.assertEqual(self.client.query("T")[0].key, Key("T", "a"))
        with self.assertRaises(TypeError):
            len(put)


class Modes(unittest.TestCase):
    def test_strong(self):
        with Server(consistency="strong") as server:
            client, other = server.client(0), server.client(1)
            client.put(Key("T", "a"))
            self.assertEqual(len(client.query("T")), 1)
            client.put_multi([Entity(Key("T", n)) for n in range(1, 20)])
            with other.transaction(xg=True):
                other.delete(Key("T", "a"))
                other.put(Key("T", "b"))
                self.assertEqual(len(client.query("T")), 20)
            self.assertEqual(len(client.query("T")), 20)
            with server.round() as round:
                round.client(0).put(Key("U", 1))
                found = round.client(0).query("U")
                round.client(0).begin()
                round.client(0).put(Key("U", 2))
                round.client(0).commit()
                later = round.client(0).query("U")
            self.assertEqual((len(found.reply), len(later.reply), later.reply.unapplied), (1, 2, []))

    def seen(self, share, seed, namespace="", writes=100):
        with Server(consistency=share, seed=seed) as server:
            client = server.client(namespace=namespace)
            seen = []
            for n in range(1, writes):
                client.put(Key("T", f"n{n}"))
                seen.append([key.identifier for key in client.query("T", select="keys")])
            return seen

    def test_a_share(self):
        some = self.seen(0.3, 42)
        self.assertEqual(some, self.seen(0.3, 42))
        self.assertNotEqual(some, self.seen(0.3, 43))
        at_once = sum(f"n{n}" in found for n, found in enumerate(some, 1))
        # A write is also applied where a later one of its shard is.
        self.assertTrue(20 <= at_once <= 50, at_once)
        self.assertEqual(self.seen(0, 1, writes=10)[-1], [])
        self.assertEqual(len(self.seen(1.0, 1, writes=10)[-1]), 9)

    def test_a_share_of_drawn_ids_and_transactions(self):
        with Server(consistency=1.0) as server:
            client = server.client()
            with client.transaction(xg=True):
                for _ in range(5):
                    client.put(Key("T", None))
            self.assertEqual(len(client.query("T")), 5)
            with server.round() as round:
                for number in range(16):
                    round.client(number).put(Key("T", None))
                    round.client(number).begin()
            self.assertEqual(len(client.query("T", ancestor=Key("T", 1))), 0)
            server.client(3).rollback()
            self.assertEqual(len(server.client(3).query("T")), 21, "what waited for a client without a transaction")

    def test_draws_of_a_namespace_do_not_hang_on_others(self):
        with Server(consistency=0.5, seed=7) as server:
            alone, beside = [], server.client(namespace=even_namespace("other"))
            client = server.client(namespace=even_namespace("one"))
            for n in range(1, 40):
                beside.put(Key("T", f"m{n}"))
                client.put(Key("T", f"n{n}"))
                alone.append([write.keys[0].identifier for write in client.query("T").unapplied])
        with Server(consistency=0.5, seed=7) as server:
            client = server.client(namespace=even_namespace("one"))
            drawn = [server._consistency.draw(client.namespace) for _ in range(39)]
        self.assertTrue(all(f"n{n}" not in waiting for n, (waiting, at_once) in enumerate(zip(alone, drawn), 1) if at_once))

    def test_wrong_modes(self):
        for mode in ("weak", 1.5, -0.1, True, None):
            with self.assertRaises((ValueError, TypeError)):
                Server(consistency=mode)


class Lists(WithServer):
    def test_lists_of_one_stay_lists(self):
        key = Key("T", "a")
        self.client.put(key, tags=Many(["x"]), none=Many(), notes=Unindexed(Many(["n"])), plain=["x"])
        found = self.client.get(key).entity
        self.assertEqual((found["tags"], found["none"], found["notes"], found["plain"]), (["x"], [], Unindexed(["n"]), "x"))
        self.assertIs(type(found["tags"]), Many)
        self.assertEqual((found.many("plain"), found.many("tags"), found.many("absent"), found.many("notes")), (["x"], ["x"], [], ["n"]))
        self.client.put(key, tags="y")
        self.assertEqual(self.client.get(key).entity["tags"], ["y"])
        self.client.settle()
        self.assertEqual(self.client.query("T").results[0]["tags"], ["y"])
        self.assertEqual(self.client.gql("SELECT * FROM T")[0]["tags"], ["y"])
        self.assertEqual(self.client.gql("SELECT tags FROM T")[0]["tags"], "y")
        self.assertEqual(self.client.query("T", select=["tags"])[0].properties, {"tags": "y"})
        self.assertEqual(self.server.client(1, namespace="other").put(Key("T", "a"), tags=["z"]).key, Key("T", "a"))
        self.assertEqual(self.server.client(1, namespace="other").get(Key("T", "a")).entity["tags"], "z")

    def test_lists_that_a_server_is_told_of(self):
        with Server(many=["T.tags", "any", ("A.B", "c")]) as server:
            client = server.client()
            client.put(Key("T", "a"), tags="x", any=None, other=1)
            client.put(Key("A.B", "a"), c=1)
            self.assertEqual(client.get(Key("T", "a")).entity.properties, {"tags": ["x"], "any": [None], "other": 1})
            self.assertEqual(client.get(Key("A.B", "a")).entity.properties, {"c": [1]})
            client.put(Key("U", "a"), tags="x")
            self.assertEqual(client.get(Key("U", "a")).entity.properties, {"tags": "x"})
        with self.assertRaises(TypeError):
            Server(many="tags")


class Blocks(WithServer):
    def test_a_rollback_in_a_block_ends_it(self):
        with self.client.transaction():
            self.client.put(Key("T", "a"))
            self.client.rollback()
            with self.assertRaises(torfyllan.BlockEnded) as caught:
                self.client.put(Key("T", "b"))
            self.assertIn("has ended, by rollback: leave the block before the next put", str(caught.exception))
        self.assertIsNone(self.client.get(Key("T", "a")).entity)
        self.assertIsNone(self.client.get(Key("T", "b")).entity)

    def test_a_commit_in_a_block_ends_it(self):
        with self.client.transaction():
            self.client.put(Key("T", "a"))
            self.client.commit()
        self.assertIsNotNone(self.client.get(Key("T", "a")).entity)

    def test_a_transaction_is_one_of_the_number(self):
        self.server.client(0, namespace="other").begin()
        self.assertTrue(self.client.in_transaction)
        self.client.rollback()
        self.assertFalse(self.server.client(0, namespace="other").in_transaction)

    def test_several_at_once(self):
        entities = [Entity(Key("T", n), n=n) for n in range(1, 301)]
        self.assertEqual(self.client.put_multi(entities), [entity.key for entity in entities])
        self.assertEqual(self.client.get_multi([Key("T", 300), Key("T", 999), Key("T", 1)]), [entities[-1], None, entities[0]])
        self.client.delete_multi([Key("T", n) for n in range(1, 101)])
        self.client.settle()
        self.assertEqual((self.client.count("T"), self.client.count("T", filters=[("n", ">", 290)]), self.client.count("U")), (200, 10, 0))
        self.assertEqual(self.client.fetch("T", limit=2), entities[100:102])
        self.assertEqual((self.client.put_multi([]), self.client.get_multi([]), list(self.client.pages("U", size=3))), ([], [], []))
        with self.assertRaises(torfyllan.BadKey):
            self.client.put_multi([Entity(Key("T", "a")), Entity(Key("T", 0)), Entity(Key("T", "b"))])
        self.assertTrue(all(self.client.get_multi([Key("T", "a"), Key("T", "b")])))
        with self.client.transaction(xg=True):
            self.client.put_multi([Entity(Key("V", n)) for n in range(1, 26)])
        self.assertEqual(len(self.client.get_multi([Key("V", n) for n in range(1, 26)])), 25)

    def test_more_than_a_round_holds(self):
        from torfyllan.lines import rounds_of

        self.assertEqual(list(rounds_of([b"x"] * 2500, True)), [(0, 1000), (1000, 2000), (2000, 2500)])
        self.assertEqual(list(rounds_of([b"x" * 2**20] * 100, True)), [(0, 63), (63, 100)])
        self.assertEqual(list(rounds_of([b"x"] * 65_535, False)), [(0, 65_535)])
        for lines in ([b"x"] * 65_536, [b"x" * 2**20] * 64):
            with self.assertRaises(ValueError):
                list(rounds_of(lines, False))
        keys = self.client.put_multi([Entity(Key("T", n)) for n in range(1, 1203)])
        self.assertEqual((len(keys), len(self.client.get_multi(keys[-3:])), self.client.settle().applied), (1202, 3, [1202]))

    def test_pages(self):
        self.client.put_multi([Entity(Key("T", n), n=n % 7) for n in range(1, 51)])
        self.client.settle()
        pages = list(self.client.pages("T", size=20, orders=["-n"]))
        self.assertEqual([len(page) for page in pages], [20, 20, 10])
        self.assertEqual([one for page in pages for one in page], self.client.query("T", orders=["-n"]).results)
        by_offset = list(self.client.pages("T", size=10, filters=[("n", "in", [1, 2, 3])], offset=2))
        self.assertEqual([one for page in by_offset for one in page], self.client.query("T", filters=[("n", "in", [1, 2, 3])], offset=2).results)
        self.assertEqual([len(page) for page in self.client.pages("T", size=25, offset=3, select="keys")], [25, 22])


class Threads(unittest.TestCase):
    def test_sixteen_clients_may_be_sixteen_threads(self):
        with Server(shards=4) as server:
            faults = []

            def work(number):
                client = server.client(number)
                try:
                    for n in range(8):
                        client.run_in_transaction(lambda: self.add(client), tries=1000)
                        client.put(Key("Own", f"{number}-{n}"))
                except Exception as error:
                    faults.append(error)

            threads = [threading.Thread(target=work, args=(number,)) for number in range(16)]
            for thread in threads:
                thread.start()
            for thread in threads:
                thread.join()
            self.assertEqual(faults, [])
            client = server.client(0)
            self.assertEqual(client.get(Key("C", "c")).entity["n"], 128)
            self.assertEqual(server._journal.counts(), client.settle().applied)
            self.assertEqual(client.count("Own"), 128)

    def add(self, client):
        found = client.get(Key("C", "c")).entity
        client.put(Key("C", "c"), n=found["n"] + 1 if found else 1)


class Ends(unittest.TestCase):
    def run_script(self, text, wait_for, then):
        """Runs a script, does something when it has printed this, and gives its output, its standard error and its status."""
        clean = {**os.environ, "PYTHONPATH": HERE, "PYTHONDONTWRITEBYTECODE": "1"}
        command, pipe = [sys.executable, "-c", textwrap.dedent(text)], subprocess.PIPE
        script = subprocess.Popen(command, env=clean, stdout=pipe, stderr=pipe, text=True, start_new_session=True)
        said = script.stdout.readline()
        self.assertEqual(said.strip(), wait_for)
        then(script)
        out, errors = script.communicate(timeout=30)
        return out, errors, script.returncode

    def test_an_interrupt_ends_the_server_quietly(self):
        text = """
            import sys, time
            from torfyllan import Key, Server
            try:
                with Server() as server:
                    client = server.client()
                    with client.transaction():
                        client.put(Key("T", "a"))
                        print("ready", flush=True)
                        time.sleep(30)
            except KeyboardInterrupt:
                print(server.is_alive, flush=True)
            """
        # To the whole group, as a terminal does.
        out, errors, status = self.run_script(text, "ready", lambda script: os.killpg(script.pid, signal.SIGINT))
        self.assertEqual((out, errors, status), ("False\n", "", 0))

    def test_an_interrupt_in_the_middle_of_a_round(self):
        text = """
            import sys
            from torfyllan import Key, Server, ServerFailed
            silent = 'import sys, time; sys.stdin.readline(); print("{\\\\"line\\\\":1,\\\\"ok\\\\":\\\\"settle\\\\"}", flush=True); time.sleep(30)'
            server = Server(program=[sys.executable, "-c", silent]).start()
            print("ready", flush=True)
            try:
                server.client().settle()
            except KeyboardInterrupt:
                pass
            try:
                server.client().settle()
            except ServerFailed as failed:
                print(failed, server.is_alive, flush=True)
            """
        out, errors, status = self.run_script(text, "ready", lambda script: (time.sleep(0.5), os.killpg(script.pid, signal.SIGINT)))
        self.assertEqual((out, errors, status), ("the server was ended in the middle of a round, by KeyboardInterrupt False\n", "", 0))

    def test_a_script_that_never_stops_its_server_leaves_none_behind(self):
        text = """
            from torfyllan import Server
            server = Server().start()
            print(server._process.pid, flush=True)
            """
        command = [sys.executable, "-W", "ignore", "-c", textwrap.dedent(text)]
        script = subprocess.run(command, env={**os.environ, "PYTHONPATH": HERE}, capture_output=True, text=True)
        pid = int(script.stdout)
        for _ in range(100):
            if not os.path.exists(f"/proc/{pid}"):
                break
            time.sleep(0.05)
        self.assertFalse(os.path.exists(f"/proc/{pid}"))

    def test_what_a_slow_start_tells_goes_to_the_caller(self):
        slow = "import sys, time; print('ds_base: proved', file=sys.stderr, flush=True); time.sleep(1.0); sys.stdin.readline()"
        slow += "; print('{\"line\":1,\"ok\":\"settle\"}', flush=True); sys.stdin.read()"
        told = []
        with Server(program=[sys.executable, "-c", slow], tell=told.append):
            pass
        self.assertEqual(told, ["ds_base: proved\n"])


class Starts(unittest.TestCase):
    def setUp(self):
        folder = tempfile.TemporaryDirectory()
        self.addCleanup(folder.cleanup)
        self.folder = pathlib.Path(folder.name)

    def test_reset_starts_anew(self):
        with Server(indexes="indexes: []\n", many=["T.tags"]) as server:
            client = server.client()
            first = client.put(Key("T", None), tags="x").key
            client.begin()
            server.reset()
            self.assertFalse(client.in_transaction)
            self.assertIsNone(client.get(first).entity)
            again = client.put(Key("T", None), tags="x")
            self.assertEqual((again.key, again.commit), (first, 1))
            self.assertEqual(client.get(first).entity["tags"], ["x"])
            self.assertEqual(len(client.query("T").unapplied), 0)
            begun = time.monotonic()
            for _ in range(10):
                server.reset()
            self.assertLess((time.monotonic() - begun) / 10, 1.0)
        with self.assertRaises(TorfyllanError):
            server.reset()

    def test_a_log_is_replayed_by_run(self):
        log = self.folder / "a run.jsonl"
        index = "indexes:\n- {kind: T, properties: [{name: a}, {name: b}]}\n"
        with Server(indexes=index, shards=3, log=str(log), consistency="strong") as server:
            client = server.client(2, namespace="tenant")
            for n in range(5):
                client.put(Key("T", None), a=1, b=n)
            with self.assertRaises(torfyllan.BadKey):
                client.get(Key("T", 0))
            self.assertEqual(len(client.query("T", filters=[("a", "=", 1)], orders=["b"])), 5)
            server.reset()
            client.put(Key("T", "second"))
        replies = (self.folder / "a run.replies").read_text()
        self.assertEqual(len(replies.splitlines()), sum(bool(line) for line in log.read_text().splitlines()))
        self.assertEqual((self.folder / "a run.words").read_text().split("\n"), ["--shards", "3", "--appliers", "0", "--indexes", "a run.yaml", ""])
        self.assertIn("second", (self.folder / "a run.2.jsonl").read_text())
        if not os.path.exists(TOP / "crates" / "ds_server" / "out" / "ds_server"):
            self.skipTest("the repository has no built server, and a test builds none")
        for name, wanted in (("a run", replies), ("a run.2", (self.folder / "a run.2.replies").read_text())):
            ran = subprocess.run([TOP / "run", "--replay", self.folder / f"{name}.jsonl"], capture_output=True, text=True)
            self.assertEqual((ran.stdout, ran.returncode), (wanted, 0), ran.stderr)

    def test_a_log_is_whole_up_to_where_the_server_died(self):
        log = self.folder / "run.jsonl"
        server = Server(log=str(log)).start()
        server.client().put(Key("T", "a"))
        os.kill(server._process.pid, signal.SIGKILL)
        with self.assertRaises(ServerFailed):
            server.client().put(Key("T", "b"))
        self.assertEqual(len((self.folder / "run.replies").read_text().splitlines()), 2)
        self.assertIn('["T","b"]', log.read_text())

    def test_entities_are_dumped_and_loaded(self):
        values = {"n": 1, "s": ["x", "y"], "t": Text("long"), "b": b"\x00", "k": Key("T", "a"), "u": Unindexed("q")}
        file = self.folder / "entities.jsonl"
        with Server() as server:
            client = server.client(namespace="one")
            keys = client.put_multi([Entity(Key("T", None), values) for _ in range(3)] + [Entity(Key("U", "a", "V", 7))])
            server.client(1).put(Key("T", "elsewhere"))
            self.assertEqual(client.dump(str(file)), 4)
            only = io.StringIO()
            self.assertEqual(client.dump(only, "V"), 1)
            self.assertEqual(json.loads(only.getvalue()), {"key": [["U", "a"], ["V", 7]], "properties": {}})
        with Server() as server:
            client = server.client(namespace="two")
            self.assertEqual(client.load(str(file)), 4)
            self.assertEqual(client.get_multi(keys)[0], Entity(keys[0], values))
            self.assertEqual(client.count(), 4)
            self.assertGreater(client.put(Key("T", None)).key.identifier, max(key.identifier for key in keys[:3]))
            with self.assertRaises(ValueError) as caught:
                client.load(io.StringIO('{"key":[["T","a"]]}\n\n{"kee":1}\n'))
            self.assertIn("line 3 is no entity in JSON", str(caught.exception))


if __name__ == "__main__":
    unittest.main()
