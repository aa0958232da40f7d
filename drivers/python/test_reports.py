"""Tests of `datastore_report`: the page, the lines and the replay of a test that fails, and the index definitions of a run.

    python3 drivers/python/test_reports.py
"""
import json
import os
import pathlib
import re
import subprocess
import unittest

from by_pytest import HERE, TestByPytest
from torfyllan.index_use import IndexUse
from torfyllan.indexes import definitions_of

TOP = HERE.parents[1]

TESTS = """
def test_before(datastore):
    datastore.put(Key("Task", None))
    datastore.put(Key("Task", "b"))

def test_passes(datastore):
    datastore.put(Key("Task", "a"))

@pytest.mark.parametrize("name", ["a/b", "c"])
def test_fails(datastore, name):
    key = datastore.put(Key("Task", None), name=name).key
    datastore.put(Key("Other", "a"))
    datastore.apply(Key("Other", "a"))
    with datastore.transaction():
        datastore.get(key)
        datastore.put(key, n=2)
    datastore.settle()
    datastore.put(key, n=3)
    assert len(datastore.query("Task", filters=[("n", "=", 3)])) == 1

def test_fresh(fresh_datastore):
    fresh_datastore.put(Key("Task", "a"))
    assert False

def test_no_server():
    assert False
"""


class Reports(TestByPytest):
    def served(self, log):
        """The replies of a server that is given the lines of a log."""
        named = os.environ.get("TORFYLLAN")
        words = log.with_suffix(".words").read_text().split()
        with open(log, "rb") as lines:
            return subprocess.run([named or str(TOP / "run"), *words], stdin=lines, stdout=subprocess.PIPE).stdout.splitlines()

    def test_each_failing_test_has_its_page_and_lines(self):
        said, status = self.run_tests(TESTS, ini="datastore_report = out\n")
        self.assertEqual(status, 1, said)
        names = ["test_it.py-test_fails[a-b]", "test_it.py-test_fails[c]", "test_it.py-test_fresh"]
        files = sorted(path.name for path in (self.folder / "out").iterdir())
        self.assertEqual(files, sorted(f"{name}.{ending}" for name in names for ending in ("about", "html", "jsonl", "replies", "words")))
        self.assertEqual(said.count("- datastore report -"), 3)
        for name in names:
            self.assertIn(f"page:    out/{name}.html\nlines:   out/{name}.jsonl\n", said)
            self.assertRegex(said, rf"replay:  {re.escape(str(TOP / 'run'))} --replay '?out/{re.escape(name)}.jsonl")
            log = self.folder / "out" / f"{name}.jsonl"
            replies = [json.loads(line) for line in log.with_suffix(".replies").read_bytes().splitlines()]
            self.assertEqual(replies, [json.loads(line) for line in self.served(log)], "served once more, the lines have the same replies")
        page = (self.folder / "out" / "test_it.py-test_fails[c].html").read_text(encoding="utf-8")
        data = json.loads(page.split('<script type="application/json" id="run">')[1].split("</script>")[0])
        self.assertEqual([site for _, site in data["sites"]][0], "test_it.py:13")
        self.assertNotIn("test_fails", json.dumps([data["columns"]["label"], data["groups"], data["scopes"]]), "the test's namespace isn't named")

    def test_without_it_nothing_is_written(self):
        said, status = self.run_tests(TESTS)
        self.assertNotIn("datastore report", said)
        self.assertEqual(sorted(path.name for path in self.folder.iterdir()), ["pytest.ini", "test_it.py"])

    def test_a_schedule_has_its_page_in_any_case(self):
        text = "\ndef test_it(datastore):\n    datastore.put(Key('Task', None))\n    assert datastore.query('Task')\n"
        said, status = self.run_tests(text, "--datastore-schedules", "5", ini="datastore_consistency = strong\n", TMPDIR=str(self.folder))
        found = re.search(r"page:    (\S+)\n", said)
        self.assertTrue((self.folder / found.group(1)).stat().st_size > 10_000, said)
        line, commit = re.search(r"the query of Task in line (\d+), test_it.py:6, misses commit (\d+), put of Key\('Task', \d+\) by line \d+", said).groups()
        replies = [json.loads(reply) for reply in (self.folder / found.group(1)).with_suffix(".replies").read_bytes().splitlines()]
        query = next(reply for reply in replies if reply["line"] == int(line))
        self.assertEqual((query["ok"], query["results"], int(commit)), ("query", [], 1))

    def test_index_definitions_that_nothing_used_and_those_that_were_missing(self):
        (self.folder / "index.yaml").write_text(
            "indexes:\n- kind: T\n  properties: [{name: a}, {name: b, direction: desc}]\n- kind: T\n  properties: [{name: c}, {name: d}]\n"
        )
        text = """
def test_it(datastore):
    datastore.query("T", filters=[("a", "=", 1)], orders=["-b"])
    with pytest.raises(MissingIndex):
        datastore.query("U", filters=[("a", "=", 1)], orders=["-b"])
"""
        said, status = self.run_tests(text, ini="datastore_indexes = index.yaml\ndatastore_report = out\n")
        self.assertEqual(status, 0, said)
        unused, missing = said.split("that no query of these tests can use")[1].split("index definitions that were missing")
        self.assertIn("- kind: T\n  properties:\n  - name: c\n  - name: d\n", unused)
        self.assertNotIn("name: a", unused)
        self.assertIn("- kind: U\n  properties:\n  - name: a\n  - name: b\n    direction: desc\n", missing)


class Use(unittest.TestCase):
    def test_which_definitions_a_query_can_use(self):
        def query(**members):
            return {"op": "query", "kind": "T", **members}

        equal = [["a", "=", 1], ["b", "in", [1, 2]]]
        for asked, columns, ancestor, is_used in (
            (query(filters=equal, orders=[["c", "desc"]]), "a b -c", False, True),
            (query(filters=equal, orders=[["c", "desc"]]), "b a -c", False, True),
            (query(filters=equal, orders=[["c", "desc"]]), "a -c", False, True),
            (query(filters=equal, orders=[["c", "desc"]]), "a c", False, False),
            (query(filters=equal, orders=[["c", "desc"]]), "a d -c", False, False),
            (query(filters=equal, orders=[["c", "desc"]]), "a -c d", False, False),
            (query(filters=equal, orders=[["a", "asc"], ["c", "desc"]]), "a -c", False, True),
            (query(filters=[["a", "=", 1], ["c", ">", 1]]), "a c", False, True),
            (query(filters=[["a", "=", 1], ["c", ">", 1]]), "a -c", False, False),
            (query(filters=[["a", "=", 1]], orders=[["c", "asc"], ["__key__", "asc"]]), "a c", False, True),
            (query(filters=[["a", "=", 1]], orders=[["c", "asc"]]), "a c __key__", False, True),
            (query(filters=[["a", "=", 1]], select=["d", "c"]), "a c d", False, True),
            (query(filters=[["a", "=", 1]], select=["d", "c"]), "a c", False, False),
            (query(ancestor=[["T", 1]], orders=[["c", "asc"]]), "c", True, True),
            (query(orders=[["c", "asc"], ["d", "asc"]]), "c d", True, False),
            ({**query(filters=equal, orders=[["c", "desc"]]), "kind": "U"}, "a b -c", False, False),
            ({"op": "gql", "text": "SELECT * FROM T WHERE a = 1"}, "x y", False, True),
            ({"op": "gql", "text": "SELECT * FROM U WHERE a = 1"}, "x y", False, False),
        ):
            properties = ", ".join(f"{{name: {name.lstrip('-')}, direction: {'desc' if name[0] == '-' else 'asc'}}}" for name in columns.split())
            definitions = definitions_of(f"indexes:\n- {{kind: T, ancestor: {'yes' if ancestor else 'no'}, properties: [{properties}]}}\n")
            use = IndexUse()
            use.served(asked)
            with self.subTest(asked=asked, columns=columns):
                self.assertEqual(bool(use.used(definitions)), is_used)


if __name__ == "__main__":
    unittest.main()
