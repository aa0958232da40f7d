"""Tests of index files as people have them: what is read, what the server is given, and what a wrong line is told.

    python3 drivers/python/test_index_files.py
"""
import json
import os
import pathlib
import sys
import tempfile
import unittest

sys.path.insert(0, os.path.dirname(os.path.abspath(__file__)))
import torfyllan
from torfyllan import IndexFileError, Key, Server, indexes

PLAIN = "indexes:\n- kind: Task\n  ancestor: yes\n  properties:\n  - name: done\n  - name: due\n    direction: desc\n"

SAME = {
    "quoted names": "indexes:\n- kind: \"Task\"\n  ancestor: yes\n  properties:\n  - name: 'done'\n  - name: \"due\"\n    direction: \"desc\"\n",
    "ancestor: true": PLAIN.replace("yes", "true"),
    "ancestor: True": PLAIN.replace("yes", "True"),
    "ancestor: on": PLAIN.replace("yes", "on"),
    "keys in another order": "indexes:\n- properties:\n  - direction: asc\n    name: done\n  - direction: desc\n    name: due\n  ancestor: yes\n  kind: Task\n",
    "comments": "# All of them.\nindexes: # below\n\n# One.\n- kind: Task # its kind\n  ancestor: true\n  properties: # in order\n  - name: done\n  - name: due # date\n    direction: desc\n",
    "flow style": "indexes:\n- {kind: Task, ancestor: yes, properties: [{name: done}, {name: due, direction: desc}]}\n",
    "flow style over lines": "indexes: [\n  {kind: Task, ancestor: yes,\n   properties: [ # in order\n     {name: done},\n     {name: due, direction: desc},\n   ]},\n]\n",
    "flow properties": "indexes:\n- kind: Task\n  ancestor: yes\n  properties: [{name: done}, {direction: desc, name: 'due'}]\n",
    "JSON": '{"indexes": [{"kind": "Task", "ancestor": true, "properties": [{"name": "done"}, {"name": "due", "direction": "desc"}]}]}\n',
    "a document's marks": "---\n" + PLAIN + "...\n",
    "a directive": "%YAML 1.2\n---\n" + PLAIN,
    "a byte order mark": "\ufeff" + PLAIN,
    "carriage returns": "\ufeff" + PLAIN.replace("\n", "\r\n"),
    "indented": "indexes:\n\n  - kind: Task\n    ancestor: true\n    properties:\n      - name: done\n      - name: due\n        direction: desc\n",
    "a dash alone": "indexes:\n-\n  kind: Task\n  ancestor: true\n  properties:\n  -\n    name: done\n  -\n    name: due\n    direction: desc\n",
    "descending": PLAIN.replace("yes", "true").replace("desc", "descending"),
    "a quoted #": "indexes:\n- kind: Task\n  ancestor: true   # 'no' isn't meant\n  properties:\n  - name: 'done' # it's so\n  - name: due\n    direction: desc\n",
}

WRONG = {
    "indexes:\n- kind: T\n  order: yes\n": (3, "expected `kind:`, `ancestor:` or `properties:`, and not `order:`"),
    "indexes:\n- kind: T\n  properties:\n  - nam: a\n": (4, "expected `name:` or `direction:`, and not `nam:`"),
    "indexes:\n- kind: T\n  properties:\n  - name: a\n    direction: down\n": (5, "expected `asc` or `desc`, and not 'down'"),
    "indexes:\n- kind: T\n  ancestor: maybe\n  properties:\n  - name: a\n": (3, "expected `yes` or `no` without quotes, and not 'maybe'"),
    "indexes:\n- kind: T\n  ancestor: 'yes'\n  properties:\n  - name: a\n": (3, "without quotes"),
    "indexes:\n- kind: T\n": (2, "expected `properties:` with at least one `- name:`, for the kind T"),
    "indexes:\n- properties: [{name: a}]\n": (2, "expected an entry with `kind:`"),
    "indexes:\n- kind: 'a b'\n  properties: [{name: a}]\n": (2, "has a space, a quote or #"),
    "indexes:\n- kind: \"T\"\n  properties: [{name: a}, {name: a}]\n": (3, "the property a stands twice in one entry"),
    "indexes:\n- kind: \"__T__\"\n  properties: [{name: a}]\n": (2, "is reserved"),
    "indexes:\n- kind: \"T\"\n  properties: [{name: __key__}, {name: a}]\n": (3, "`__key__` stands last"),
    "indexes:\n- kind: T\n  properties: [{name: a}\n": (3, "a bracket that closes what is open"),
    "indexes:\n- kind: T\n  properties: [{name: a}}\n": (3, "expected a comma or ]"),
    "indexes:\n- kind: &x T\n  properties: [{name: a}]\n": (2, "an anchor, which an index file can't have"),
    "indexes:\n- kind: |\n    T\n": (2, "a text over several lines"),
    "indices:\n- kind: T\n": (1, "expected `indexes:`, and not `indices:`"),
    "- kind: T\n  properties: [{name: a}]\n# indexes:\n": (1, "expected `indexes:`"),
    "---\nindexes:\n---\nindexes:\n": (3, "several documents"),
    "indexes:\n- kind: T\n   properties:\n  - name: a\n": (3, "an indentation of 2 spaces"),
    "indexes:\n\t- kind: \"T\"\n": (2, "a tab in the indentation"),
    "indexes: yes\n": (1, "expected a list of entries below `indexes:`"),
}


class Reading(unittest.TestCase):
    def test_each_form_says_the_same(self):
        for name, text in SAME.items():
            self.assertEqual(indexes.written(indexes.definitions_of(text)), PLAIN, name)

    def test_files_without_entries(self):
        for text in ("", "# nothing\n", "indexes:\n", "indexes: []\n", "---\nindexes: ~\n"):
            self.assertEqual(indexes.written(indexes.definitions_of(text)), "indexes:\n")

    def test_a_wrong_line_is_told_with_what_was_expected(self):
        for text, (line, wanted) in WRONG.items():
            with self.assertRaises(IndexFileError, msg=text) as caught:
                indexes.definitions_of(text)
            self.assertEqual((caught.exception.line, wanted in str(caught.exception)), (line, True), f"{text}{caught.exception}")

    def test_the_servers_form_is_known(self):
        self.assertIsNone(indexes.server_fault(PLAIN))
        self.assertIsNone(indexes.server_fault("indexes:\n- kind: T\nproperties:\n- name: a\n"))
        for text in SAME.values():
            fault = indexes.server_fault(text.lstrip("\ufeff"))
            if text.strip("\ufeff").replace("\r", "") != PLAIN:
                self.assertIsNotNone(fault, text)
        self.assertEqual(indexes.server_fault("indexes:\n- kind: T\n"), (3, "`ancestor: yes` or `ancestor: no` or `properties:`"))

    def test_a_long_flow_file_is_read_in_one_pass(self):
        entries = ",\n".join(f"{{kind: K{n}, properties: [{{name: a}}, {{name: b}}]}}" for n in range(2000))
        self.assertEqual(len(indexes.definitions_of(f"indexes: [\n{entries}]\n")), 2000)


class Served(unittest.TestCase):
    def setUp(self):
        folder = tempfile.TemporaryDirectory()
        self.addCleanup(folder.cleanup)
        self.file = pathlib.Path(folder.name, "index.yaml")

    def serves(self, client):
        query = dict(ancestor=Key("Book", "b"), filters=[("done", "=", False)], orders=["-due"])
        return client.query("Task", **query).results

    def test_the_server_is_given_its_own_form(self):
        for name, text in SAME.items():
            self.file.write_bytes(text.encode())
            with Server(indexes=str(self.file)) as server:
                self.assertEqual(self.serves(server.client()), [], name)
        with Server(indexes=SAME["flow style"]) as server:
            self.assertEqual(self.serves(server.client()), [])
        with Server(indexes=self.file) as server:
            self.assertEqual(self.serves(server.client()), [])

    def test_what_the_server_refuses_shows_its_line(self):
        twice = "indexes:\n- kind: T\n  properties:\n  - name: a\n  - name: a\n"
        many = "indexes:\n" + "".join(f"- kind: K{n}\n  properties:\n  - name: a\n  - name: b\n" for n in range(201))
        cases = (
            (twice, 5, "line 5: - name: a\n    the property a stands twice in its entry"),
            ("indexes:\n- kind: __T__\n  properties:\n  - name: a\n", 2, "__T__ is reserved"),
            (many, 805, "one of more than 200"),
        )
        for text, line, wanted in cases:
            with self.assertRaises(IndexFileError) as caught:
                Server(indexes=text).start()
            self.assertEqual((caught.exception.line, wanted in str(caught.exception)), (line, True), str(caught.exception))

    def test_bytes_that_are_no_text(self):
        self.file.write_bytes(b"indexes:\n- kind: T\xff\n")
        with self.assertRaises(IndexFileError) as caught:
            Server(indexes=str(self.file)).start()
        self.assertIn("line 2: its bytes aren't UTF-8", str(caught.exception))

    def miss(self, client, *orders):
        with self.assertRaises(torfyllan.MissingIndex) as caught:
            client.query("Task", filters=[("done", "=", False)], orders=orders)
        return str(caught.exception)

    def test_a_missing_index_is_added_where_this_is_asked(self):
        for begin in (None, "", "indexes:", PLAIN, PLAIN.rstrip("\n"), SAME["indented"], SAME["comments"], SAME["flow properties"], "# mine\n"):
            if begin is None:
                self.file.unlink(missing_ok=True)
            else:
                self.file.write_text(begin)
            before = indexes.definitions_of(begin or "")
            with Server(indexes=str(self.file), auto_index=True) as server:
                client = server.client()
                said = self.miss(client, "-when")
                self.assertIn(f"the entry below was added to {self.file}: start the server anew", said)
                self.miss(client, "-when")
                self.miss(client, "who")
                after = indexes.definitions_of(self.file.read_text())
                self.assertEqual([one.meaning for one in after[: len(before)]], [one.meaning for one in before])
                self.assertEqual(len(after), len(before) + 2, begin)
                self.assertTrue(self.file.read_text().startswith(begin or ""), "what stood there stays as it was")
                server.reset()
                self.assertEqual(client.query("Task", filters=[("done", "=", False)], orders=["-when"]).results, [])

    def test_an_entry_is_added_in_the_style_of_the_file(self):
        for name, begin in (("JSON", SAME["JSON"]), ("flow style", SAME["flow style over lines"]), ("an empty list", "indexes: []\n")):
            self.file.write_text(begin)
            with Server(indexes=str(self.file), auto_index=True) as server:
                self.assertIn(f"the entry below was added to {self.file}", self.miss(server.client(), "-when"))
                self.miss(server.client(), "who")
            after = self.file.read_text()
            self.assertEqual(len(indexes.definitions_of(after)), len(indexes.definitions_of(begin)) + 2, name)
            if name == "JSON":
                json.loads(after)
        with self.assertRaises(ValueError):
            Server(indexes=PLAIN, auto_index=True)

    def test_nothing_is_added_unasked(self):
        self.file.write_text(PLAIN)
        with Server(indexes=str(self.file)) as server:
            self.assertIn("add this entry to the index file", self.miss(server.client(), "-when"))
        self.assertEqual(self.file.read_text(), PLAIN)


if __name__ == "__main__":
    unittest.main()
