"""Tests of a second index file: what serves before and behind it, what goes on, and what is told where it can't serve.

    python3 drivers/python/test_second_indexes.py

The program is what TORFYLLAN_REINDEX names; where TORFYLLAN alone names one it can be another server, and these tests are skipped.
"""
import json
import os
import pathlib
import subprocess
import sys
import tempfile
import unittest

HERE = pathlib.Path(__file__).resolve().parent
sys.path.insert(0, str(HERE))
from test_plugin import PYTHON
from torfyllan import Conflict, IndexFileError, Key, MissingIndex, Server, ServerFailed, TorfyllanError

FIRST = "indexes:\n- kind: Task\n  properties:\n  - name: done\n  - name: due\n"
SECOND = "indexes:\n- kind: Task\n  properties:\n  - name: owner\n  - name: due\n"
NO_PROGRAM = bool(os.environ.get("TORFYLLAN")) and not os.environ.get("TORFYLLAN_REINDEX")


def due(client, name, value):
    """The names of the tasks with this value of this property, by the property `due`."""
    return [task.key.identifier for task in client.query("Task", filters=[(name, "=", value)], orders=["due"])]


@unittest.skipIf(NO_PROGRAM, "TORFYLLAN names a server, and TORFYLLAN_REINDEX no program that serves with a second index file")
class SecondIndexes(unittest.TestCase):
    def setUp(self):
        folder = tempfile.TemporaryDirectory()
        self.addCleanup(folder.cleanup)
        self.folder = pathlib.Path(folder.name)

    def server(self, **words):
        server = Server(**{"indexes": FIRST, "next_indexes": SECOND, **words}).start()
        self.addCleanup(server.kill)
        return server

    def test_from_the_call_on_the_second_file_serves(self):
        server = self.server(audit=bool(os.environ.get("TORFYLLAN_AUDIT")))
        client = server.client()
        client.put(Key("Task", "b"), done=True, owner="ann", due=2)
        client.put(Key("Task", "a"), done=True, owner="ann", due=3)
        client.settle()
        self.assertEqual(due(client, "done", True), ["b", "a"])
        with self.assertRaises(MissingIndex) as missing:
            due(client, "owner", "ann")
        self.assertIn("name: owner", missing.exception.index_yaml)
        self.assertFalse(server.serves_next_indexes)
        server.use_next_indexes()
        self.assertTrue(server.serves_next_indexes)
        self.assertEqual(due(client, "owner", "ann"), ["b", "a"])
        with self.assertRaises(MissingIndex):
            due(client, "done", True)
        server.use_next_indexes()
        client.put(Key("Task", "c"), owner="ann", due=1)
        client.settle()
        self.assertEqual(due(client, "owner", "ann"), ["c", "b", "a"])
        server.stop()

    def test_what_goes_on(self):
        server = self.server()
        first, second = server.client(), server.client(1)
        drawn = first.put(Key("Task", None), owner="ann", due=1).key
        first.put(Key("Task", "a"), owner="ann", due=2)
        second.begin()
        second.get(Key("Task", "a"))
        first.begin()
        first.put(Key("Task", "b"), owner="ann", due=3)
        self.assertEqual(len(first.server.client(2).query("Task")), 1, "before, the get alone has applied what it read")
        server.use_next_indexes()
        self.assertTrue(server._steering.is_all_applied)
        self.assertEqual(len(server.client(2).query("Task")), 2, "all is applied behind")
        self.assertEqual(first.commit().commit, 3)
        first.put(Key("Task", "a"), owner="ann", due=4)
        second.put(Key("Task", "a"), owner="bob", due=5)
        with self.assertRaises(Conflict) as conflict:
            second.commit()
        self.assertEqual(conflict.exception.writer.commit, 4)
        later = first.put(Key("Task", None), owner="ann", due=0).key
        self.assertEqual(later.identifier, drawn.identifier + 1)

    def test_a_reset_begins_before_the_change(self):
        server = self.server(after=30)
        client = server.client()
        server.use_next_indexes()
        self.assertEqual(due(client, "owner", "ann"), [])
        server.reset()
        self.assertFalse(server.serves_next_indexes)
        with self.assertRaises(MissingIndex):
            due(client, "owner", "ann")
        server.use_next_indexes()
        self.assertEqual(due(client, "owner", "ann"), [])

    def test_a_call_that_comes_too_late(self):
        server = self.server(after=5)
        for _ in range(4):
            with self.assertRaises(MissingIndex):
                due(server.client(), "owner", "ann")
        self.assertEqual(due(server.client(), "owner", "ann"), [], "the sixth round is the second file's")
        with self.assertRaisesRegex(TorfyllanError, "since round 5 ended, before this call: give the server a greater number of rounds, as after=10"):
            server.use_next_indexes()
        server = self.server(after=5)
        for _ in range(4):
            server.client().settle()
        server.use_next_indexes()
        self.assertEqual(due(server.client(), "owner", "ann"), [], "a call in time, when no round is left")

    def test_arguments(self):
        for after in (0, 10_000, True, "9", 1.5):
            with self.assertRaisesRegex(ValueError, "after is a number of rounds from 1 to 9,999"):
                Server(next_indexes=SECOND, after=after)
        with self.assertRaisesRegex(ValueError, "give that too, as next_indexes="):
            Server(after=3)
        with self.assertRaisesRegex(ValueError, "a server that keeps a file has one index file"):
            Server(next_indexes=SECOND, kept=self.folder / "data")
        with self.assertRaisesRegex(TorfyllanError, "there is no second index file: give one to the server, as next_indexes="):
            Server().use_next_indexes()
        with self.assertRaisesRegex(ServerFailed, "the server isn't running"):
            Server(next_indexes=SECOND).use_next_indexes()

    def test_a_wrong_second_file(self):
        wrong = self.folder / "next.yaml"
        for text, told in (
            ("indexes:\n- kind: T\n  order: yes\n", r"next\.yaml, line 3: order: yes"),
            ("indexes:\n- kind: T\n  properties:\n  - name: a\n  - name: a\n", r"next\.yaml, index file: line 5: - name: a\n    the property a stands twice"),
        ):
            wrong.write_text(text)
            with self.assertRaisesRegex(IndexFileError, told):
                self.server(next_indexes=wrong)
        with self.assertRaisesRegex(IndexFileError, "there is no index file"):
            self.server(next_indexes=self.folder / "none.yaml")

    def test_too_many_rows_are_told_by_their_commit(self):
        server = self.server(indexes=None, next_indexes="indexes:\n- kind: Task\n  properties:\n  - name: a\n  - name: b\n")
        client = server.client()
        client.put(Key("Task", "few"), a=1)
        client.put(Key("Task", "many"), a=list(range(100)), b=list(range(200)))
        with self.assertRaises(ServerFailed) as failed:
            server.use_next_indexes()
        self.assertRegex(str(failed.exception), r"under it an entity of the put of Key\('Task', 'many'\), commit 2 of client 0 at \S*test_second_indexes\.py:\d+ has more than 20,000 index rows")
        self.assertFalse(server.is_alive)

    def test_a_log_is_served_once_more(self):
        server = self.server(log=str(self.folder / "run.jsonl"), draw=self.folder / "run.html", after=9)
        server.client().put(Key("Task", "a"), owner="ann", due=1)
        server.use_next_indexes()
        due(server.client(), "owner", "ann")
        server.stop()
        words = (self.folder / "run.words").read_text().split()
        self.assertEqual(words[-4:], ["--next", "run.next.yaml", "--after", "9"])
        self.assertEqual((self.folder / "run.next.yaml").read_text(), SECOND)
        self.assertEqual(json.loads((self.folder / "run.about").read_text())["after"], 9)
        program = os.environ.get("TORFYLLAN_REINDEX")
        if program:
            # The program has its own words in front.
            ran = subprocess.run([program, *words[-4:], *words[:-4]], input=(self.folder / "run.jsonl").read_bytes(), capture_output=True, cwd=self.folder)
            self.assertEqual((ran.stdout, ran.returncode), ((self.folder / "run.replies").read_bytes(), 0), ran.stderr)
        page = (self.folder / "run.html").read_text(encoding="utf-8")
        self.assertIn("From here on the second index file serves", page)
        self.assertNotIn('"end_round', page)

    def test_entries_are_added_to_the_file_that_serves(self):
        first, second = self.folder / "first.yaml", self.folder / "second.yaml"
        first.write_text("indexes:\n")
        second.write_text("indexes:\n")
        server = self.server(indexes=first, next_indexes=second, auto_index=True)
        for name, file in (("done", first), ("owner", second)):
            with self.assertRaises(MissingIndex) as missing:
                due(server.client(), name, True)
            self.assertEqual(missing.exception.added_to, str(file))
            server.use_next_indexes()
        self.assertEqual([name in file.read_text() for file in (first, second) for name in ("done", "owner")], [True, False, False, True])


SUITE = '''
import pytest
from torfyllan import Key, MissingIndex

def found(datastore):
    return [task.key.identifier for task in datastore.query("Task", filters=[("owner", "=", "ann")], orders=["due"])]

@pytest.mark.parametrize("number", range(1, 4))
def test_with_both(datastore, number):
    datastore.put(Key("Task", number), owner="ann", due=1)
    with pytest.raises(MissingIndex):
        found(datastore)
    datastore.server.use_next_indexes()
    assert found(datastore) == [number]

def test_of_many_rounds(datastore):
    for number in range(30):
        datastore.put(Key("Task", number + 1), owner="ann", due=number)
    with pytest.raises(MissingIndex):
        found(datastore)

def test_of_one_that_is_fresh(fresh_datastore):
    with pytest.raises(MissingIndex):
        found(fresh_datastore)
    fresh_datastore.server.use_next_indexes()
    assert found(fresh_datastore) == []

def test_that_fails(datastore):
    datastore.put(Key("Task", 1), owner="ann", due=1)
    datastore.server.use_next_indexes()
    assert found(datastore) == [2]
'''


@unittest.skipIf(PYTHON is None, "there is no pytest")
@unittest.skipIf(NO_PROGRAM, "TORFYLLAN names a server, and TORFYLLAN_REINDEX no program that serves with a second index file")
class Fixtures(unittest.TestCase):
    def test_each_test_begins_with_the_first_file(self):
        with tempfile.TemporaryDirectory() as name:
            folder = pathlib.Path(name)
            (folder / "test_it.py").write_text(SUITE)
            (folder / "next.yaml").write_text(SECOND)
            (folder / "pytest.ini").write_text("[pytest]\ndatastore_next_indexes = next.yaml\ndatastore_after = 80\ndatastore_report = report\n")
            words = [PYTHON, "-m", "pytest", "-q", "-p", "no:cacheprovider", "-p", "torfyllan.pytest_plugin"]
            ran = subprocess.run(words, cwd=folder, capture_output=True, text=True, env={**os.environ, "PYTHONPATH": str(HERE), "PYTHONDONTWRITEBYTECODE": "1"})
            self.assertIn("1 failed, 5 passed", ran.stdout, ran.stdout + ran.stderr)
            logs = list((folder / "report").rglob("*.words"))
            self.assertEqual(len(logs), 1)
            words = logs[0].read_text().split()
            self.assertEqual(words[-4::2], ["--next", "--after"])
            self.assertTrue(logs[0].with_suffix(".next.yaml").is_file())
            # The test's own rounds count, as if it had been the first.
            asked = logs[0].with_suffix(".jsonl").read_text().split("\n\n")
            at = next(at for at, text in enumerate(asked) if '"query"' in text)
            self.assertEqual((int(words[-1]), "end_round" in asked[at - 1], "end_round" in asked[0]), (at - 1, True, False))


if __name__ == "__main__":
    unittest.main()
