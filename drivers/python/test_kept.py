"""Tests of servers that keep a file: restarts, kills, files that can't be served, audits, logs, and what the driver knows of what was found.

    python3 drivers/python/test_kept.py
"""
import io
import os
import pathlib
import pickle
import subprocess
import sys
import tempfile
import unittest

from by_pytest import HERE, TestByPytest
from kept_text import WHOLE, batch, kept, line, put
from torfyllan import Conflict, Entity, IdNotIssued, KeptFileError, Key, NotLegal, Server, ServerFailed, Text, dump_kept

TOP = HERE.parents[1]
QUIET = {"tell": lambda text: None}


class Kept(unittest.TestCase):
    def setUp(self):
        folder = tempfile.TemporaryDirectory()
        self.addCleanup(folder.cleanup)
        self.folder = pathlib.Path(folder.name)
        self.file = self.folder / "data.kept"

    def server(self, **words):
        return Server(kept=self.file, **{**QUIET, **words})


class Restarts(Kept):
    def test_what_was_committed_is_there_again(self):
        with self.server() as server:
            self.assertEqual(server.kept, str(self.file))
            client = server.client()
            drawn = client.put(Key("T", None), n=1).key
            client.put(Key("T", "a"), n=2, t=Text("\u00e9"))
            client.begin()
            client.put(Key("T", "open"), n=3)
        with self.server() as server:
            client = server.client()
            self.assertEqual([it["n"] for it in client.query("T")], [1, 2], "it is applied")
            self.assertEqual(client.get(Key("T", "open")).entity, None)
            self.assertEqual(client.put(Key("T", "b"), n=4).commit, 3)
            self.assertEqual(len(client.query("T").unapplied), 1, "what is written now isn't")
            self.assertGreater(client.put(Key("T", None), n=5).key.identifier, drawn.identifier)
            server.reset()
            self.assertEqual(sorted(it["n"] for it in client.query("T")), [1, 2, 4, 5])
            client.put(Key("T", "c"), n=6)
            server.kill()
        with self.server() as server:
            self.assertEqual(sorted(it["n"] for it in server.client().query("T")), [1, 2, 4, 5, 6])

    def test_the_driver_knows_what_was_found(self):
        """Conflicts, what queries miss, consistency and ids are told as over a file of its own, with commits numbered on."""
        with self.server(shards=4) as server:
            for n in range(20):
                server.client().put(Key("T", n + 1), n=n)
            server.client().allocate_ids(7)
        with self.server(shards=2, consistency=0.5, seed=3) as server:
            client, other = server.client(0), server.client(1)
            self.assertEqual((server._journal.last, sum(server._journal.counts()), server._steering.next_id), (20, 20, 2**52 + 7))
            self.assertTrue(server._steering.is_all_applied)
            with self.assertRaises(Conflict) as caught, client.transaction():
                client.get(Key("T", 1))
                other.put(Key("T", 1), n=7)
                client.put(Key("T", 1), n=8)
            self.assertEqual((caught.exception.commit, caught.exception.writer.client), (21, 1))
            for n in range(30, 40):
                client.put(Key("T", n), n=n)
            found = client.query("T")
            self.assertEqual(len(found) + len({write.commit for write in found.unapplied if write.commit > 21}), 30, "each write that isn't seen is told")
            with self.assertRaises(IdNotIssued) as caught:
                client.put(Key("T", 2**52 + 7))
            self.assertEqual(caught.exception.next, 2**52 + 7)

    def test_schedules_and_faults_work_over_it(self):
        with self.server() as server:
            server.client().put(Key("Seat", "1A"), by="")
        with self.server(conflicts=1.0, seed=7) as server:
            client = server.client()
            with self.assertRaises(Conflict), client.transaction():
                client.get(Key("Seat", "1A"))
                client.put(Key("Seat", "1A"), by="ann")

    def test_a_dump_without_a_server(self):
        with self.server() as server:
            for namespace in ("", "tenant"):
                client = server.client(namespace=namespace)
                client.put(Key("T", None), n=1, k=[Key("U", 1), Key("U", 1, namespace="other")])
                client.put_multi([Entity(Key("T", name), n=name) for name in ("b", "a")])
                client.delete(Key("T", "b"))
            for namespace in ("", "tenant"):
                for kind in (None, "T", "U"):
                    one, other = io.StringIO(), io.StringIO()
                    counts = server.client(namespace=namespace).dump(one, kind), dump_kept(self.file, other, kind, namespace=namespace)
                    self.assertEqual((counts[0], one.getvalue()), (counts[1], other.getvalue()))
            self.assertEqual(counts, (0, 0))


class Refused(Kept):
    def failed(self, **words):
        with self.assertRaises(KeptFileError) as caught:
            self.server(**words).start()
        return caught.exception

    def test_a_file_that_another_server_has(self):
        with self.server() as server:
            fault = self.failed()
            self.assertEqual((fault.status, str(fault)), (8, f"{self.file} is in use by another server: end that one, or give this one a file of its own"))
            server.client().put(Key("T", "a"))
        self.assertIsInstance(fault, ServerFailed)

    def test_a_damaged_file(self):
        content = kept(batch([line(1, [])])) [:-1] + b"\x01\x00"
        self.file.write_bytes(content)
        fault = self.failed()
        self.assertEqual((fault.status, fault.place, self.file.read_bytes()), (9, len(content) - 2, content))
        self.assertIn(f"is damaged at byte {len(content) - 2}, and unchanged: ./run --kept-journal", str(fault))
        again = pickle.loads(pickle.dumps(fault))
        self.assertEqual((str(again), again.status, again.place, again.commit), (str(fault), 9, len(content) - 2, None))

    def test_an_index_file_with_too_many_rows(self):
        lists = {"a": list(range(150)), "b": list(range(150))}
        self.file.write_bytes(kept(batch([line(1, []), line(2, [put([["T", 1]], **lists)])])))
        fault = self.failed(indexes="indexes:\n- kind: T\n  properties:\n  - name: a\n  - name: b\n")
        self.assertEqual((fault.status, fault.commit), (10, 2))
        self.assertIn("serve it with the index file under which it was put", str(fault))

    def test_a_folder_that_is_not_there(self):
        self.file = self.folder / "none" / "data.kept"
        with self.assertRaises(ServerFailed) as caught:
            self.server().start()
        self.assertIn(str(self.file), str(caught.exception))

    def test_arguments(self):
        for words, told in ((dict(kept=""), "kept is the name of a file, and not ''"), (dict(kept=b"x"), "kept is the name of a file, and not b'x'")):
            with self.assertRaisesRegex(ValueError, told):
                Server(**words)

    def test_a_program_that_keeps_nothing(self):
        """Where TORFYLLAN names another program than `run`, the repository's is taken, or what TORFYLLAN_KEPT names."""
        from torfyllan import process

        kept = {name: os.environ.pop(name, None) for name in ("TORFYLLAN", "TORFYLLAN_KEPT")}
        try:
            top = str(TOP / "run")
            for named, wanted in (({}, [top]), ({"TORFYLLAN": "/x/ds_server"}, [top]), ({"TORFYLLAN": "/x/run"}, ["/x/run"]), ({"TORFYLLAN": "/x/run --unproved"}, ["/x/run", "--unproved"]),
                                  ({"TORFYLLAN": "/x/run", "TORFYLLAN_KEPT": "/y/keeper"}, ["/y/keeper"])):
                os.environ.update(named)
                self.assertEqual(process.found_program("TORFYLLAN_KEPT"), wanted)
                for name in named:
                    del os.environ[name]
        finally:
            os.environ.update({name: value for name, value in kept.items() if value is not None})


class Recorded(Kept):
    def test_an_audit(self):
        with self.server(audit=True) as server:
            server.client().put(Key("T", None), n=1)
        with self.server(audit=True) as server:
            client = server.client()
            client.query("T")
            client.put(Key("T", None), n=2)
            server.reset()
            self.assertEqual(len(client.query("T")), 2)
            client.put(Key("T", None), n=3)
            for recorder in server._recorders:
                recorder._kept[1].seek(0)
                text = recorder._kept[1].read().replace(b'"n":1', b'"n":8')
                recorder._kept[1].seek(0)
                recorder._kept[1].write(text)
            with self.assertRaisesRegex(NotLegal, "^not legal: line"):
                server.stop()

    def test_a_page(self):
        """It shows what comes behind what was found: here commits 1 and 2, of which the query saw none."""
        page = self.folder / "run.html"
        with self.server(shards=2) as server:
            for n in range(1, 8):
                server.client().put(Key("Before", n))
        with self.server(shards=2, draw=page) as server:
            client = server.client()
            client.put(Key("Behind", 1))
            client.put(Key("Behind", 2))
            client.query("Behind")
        text = page.read_text()
        self.assertIn("run, behind 7 kept commits", text)
        self.assertNotIn("Before", text)
        self.assertNotIn("No reply tells", text)

    def test_a_log_is_served_once_more(self):
        log = self.folder / "run.jsonl"
        for n in (1, 2):
            with self.server(log=str(log), shards=1) as server:
                server.client().put(Key("T", None), n=n)
                server.client().settle()
                server.client().query("T")
        self.assertEqual((self.folder / "run.words").read_text().split()[:2], ["--kept", "run.kept"])
        before = self.file.read_bytes(), (self.folder / "run.kept").read_bytes()
        if subprocess.run([sys.executable, TOP / "drivers" / "build", "keeper", "--check"], capture_output=True).returncode:
            self.skipTest("the repository has no built server that keeps a file, and a test builds none")
        served = subprocess.run([TOP / "run", "--replay", log], capture_output=True, text=True)
        self.assertEqual((served.stdout, served.returncode), ((self.folder / "run.replies").read_text(), 0), served.stderr)
        self.assertEqual((self.file.read_bytes(), (self.folder / "run.kept").read_bytes()), before, "neither file is changed")


class ByPytest(TestByPytest):
    TEXT = """
def test_it(datastore_kept):
    before = datastore_kept.count("Run")
    datastore_kept.put(Key("Run", None), n=before)
    datastore_kept.server.reset()
    assert datastore_kept.count("Run") == before + 1
    print(f"runs: {before + 1}")
    datastore_kept.begin()

def test_another(datastore_kept, datastore):
    assert datastore.count("Run") == 0
    datastore_kept.put(Key("T", "a"))
    datastore_kept.server.kill()

def test_behind_a_kill(datastore_kept):
    assert datastore_kept.get(Key("T", "a")).entity is not None
"""

    def test_the_fixture(self):
        for runs in (1, 2):
            said, status = self.run_tests(self.TEXT, "-s", "--datastore-schedules", "5", ini="datastore_kept = data.kept\n")
            self.assertEqual((status, f"runs: {runs}" in said, "3 passed" in said), (0, True, True), said)
        self.assertEqual(dump_kept(self.folder / "data.kept", io.StringIO(), "Run"), 2)

    def test_without_a_file(self):
        said, status = self.run_tests("\ndef test_it(datastore_kept):\n    pass\n")
        self.assertIn("the fixture datastore_kept serves a file that the ini file names, as `datastore_kept = data.kept`", said)
        self.assertNotEqual(status, 0)

    def test_a_damaged_file(self):
        (self.folder / "data.kept").write_bytes(WHOLE[:50])
        said, status = self.run_tests("\ndef test_it(datastore_kept):\n    pass\n", ini="datastore_kept = data.kept\n")
        self.assertIn("is damaged at byte 0, and unchanged", said)
        self.assertNotEqual(status, 0)


if __name__ == "__main__":
    unittest.main()
