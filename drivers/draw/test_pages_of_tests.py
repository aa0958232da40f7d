"""Tests of what a page shows of a test's run: who asked each line, what would have changed results, dates, what isn't drawn, and where all has its room.

    python3 drivers/draw/test_pages_of_tests.py
"""
import json
import os
import pathlib
import re
import subprocess
import sys
import tempfile
import unittest

HERE = pathlib.Path(__file__).resolve().parent
sys.path[:0] = [str(HERE), str(HERE.parent / "python")]
import asked
import keys
from journal import Run
from picture import Picture
from test_draw import CHROMIUM, Browser
from torfyllan import Key, Server


CONFTEST = """
import pytest
from torfyllan import Server

@pytest.fixture(scope="session")
def datastore_server():
    with Server(draw="run.html") as server:
        yield server
"""
TESTS = """
from torfyllan import Key

def test_first(datastore):
    datastore.put(Key("Task", "a"))
    datastore.query("Task")

def test_second(datastore):
    pass

def test_third(datastore):
    datastore.put(Key("Task", "b"))
    datastore.get(Key("Task", "a", namespace="tenant"))
"""


def pytest_in(folder):
    """pytest in this folder, by this Python or the system's; None where neither has it."""
    environment = {**os.environ, "PYTHONPATH": str(HERE.parent / "python"), "PYTHONDONTWRITEBYTECODE": "1"}
    for python in (sys.executable, "/usr/bin/python3"):
        if os.path.exists(python) and subprocess.run([python, "-c", "import pytest"], capture_output=True).returncode == 0:
            return subprocess.run([python, "-m", "pytest", "-q", "-p", "torfyllan.pytest_plugin", "-p", "no:cacheprovider"], cwd=folder, env=environment, capture_output=True, text=True)
    return None


def data_in(page):
    return json.loads(re.search(r'id="run">(.*?)</script>', pathlib.Path(page).read_text(encoding="utf-8"), re.S)[1])


class Told(unittest.TestCase):
    def setUp(self):
        folder = tempfile.TemporaryDirectory()
        self.addCleanup(folder.cleanup)
        self.addCleanup(keys.hide, [])
        self.folder = pathlib.Path(folder.name)

    def test_who_asked_each_line(self):
        with Server(draw=self.folder / "run.html") as server:
            server.client().put(Key("T", "a"))  # this line
            server.client().query("T")
        data = data_in(self.folder / "run.html")
        here = next(at for at, line in enumerate(pathlib.Path(__file__).read_text(encoding="utf-8").splitlines(), 1) if "# this line" in line)
        sites = {data["columns"]["line"][row]: site.rpartition(":")[2] for row, site in data["sites"]}
        self.assertEqual(sites, {3: str(here), 5: str(here + 1)})

    def test_settles_and_draws_of_the_driver_are_not_drawn(self):
        lines = b'{"op":"allocate_ids","count":1}\n\n{"op":"put","entity":{"key":[["T","a"]],"properties":{}}}\n\n{"op":"settle"}\n\n{"op":"get","key":[["T","a"]]}\n'
        replies = b'{"line":1,"ok":"allocate_ids","first":1}\n{"line":3,"ok":"put","commit":1,"key":[["T","a"]]}\n{"line":5,"ok":"settle","applied":[1]}\n{"line":7,"ok":"get","place":1,"entity":null}\n'
        data = Picture(Run(lines, replies), {"3": "test.py:3", "7": "test.py:4"}).data()
        self.assertEqual((data["columns"]["line"], data["counts"]), ([3, 7], [[1, [1]]]))
        self.assertIn("2 settles and draws of ids, which the driver asked itself, aren't drawn.", data["notes"])
        self.assertEqual(Picture(Run(lines, replies)).data()["columns"]["line"], [1, 3, 5, 7])
        self.assertEqual(Picture(Run(lines, replies), {"3": "a", "5": "b", "7": "c"}).data()["columns"]["line"], [3, 5, 7])

    def test_a_namespace_that_is_not_named(self):
        lines = b'{"op":"put","entity":{"key":["mine",["T","a"]],"properties":{}}}\n{"op":"get","key":["other",["T","a"]]}\n{"op":"query","kind":"T","namespace":"mine"}\n'
        replies = b'{"line":1,"ok":"put","commit":1,"key":["mine",["T","a"]]}\n{"line":2,"ok":"get","place":1,"entity":null}\n{"line":3,"ok":"query","applied":[0],"results":[]}\n'
        (self.folder / "run.jsonl").write_bytes(lines)
        (self.folder / "run.replies").write_bytes(replies)
        (self.folder / "run.about").write_text(json.dumps({"sites": {"1": "a.py:1"}, "namespace": "mine"}))
        for words, labels, scope in (([], ["T a", "other: T a", "T"], "T"), (["--about", "/dev/null"], ["mine: T a", "other: T a", "T"], "mine: T")):
            ran = subprocess.run([sys.executable, str(HERE), str(self.folder / "run.jsonl"), *words], capture_output=True, text=True, check=True)
            (self.folder / "run.html").write_text(ran.stdout, encoding="utf-8")
            data = data_in(self.folder / "run.html")
            self.assertEqual((sorted(data["columns"]["label"]), data["scopes"][data["queries"][0][1]][0]), (sorted(labels), scope))

    def test_a_query_is_stale_where_its_results_would_differ(self):
        with Server(draw=self.folder / "run.html", shards=2) as server:
            client = server.client()
            client.put(Key("T", "a"), n=1)
            client.put(Key("T", "b"), n=2)
            with client.transaction(xg=True):
                client.put(Key("T", "b"), n=3)
                client.delete(Key("T", "a"))
            client.query("T")
            client.query("T", filters=[("n", "=", 2)])
            client.query("T", filters=[("n", "=", 3)])
            client.gql("SELECT * FROM T WHERE n = 9")
        data = data_in(self.folder / "run.html")
        self.assertEqual([rest for _, _, *rest in data["queries"]], [[1, 3, 0, [3]], [0, 4, 0, []], [1, 3, 0, [3]], [4, 0, 0, None]])
        states = [data["states"][state] for state, op in zip(data["columns"]["state"], data["columns"]["op"]) if data["ops"][op] in ("query", "gql")]
        self.assertEqual(states, ["stale", "", "stale", "stale"])

    def test_a_hostile_query_is_no_fault(self):
        put = '{"op":"put","entity":{"key":[["T","a"]],"properties":{"n":{"a":1,"b":2}}}}\n'
        for query in ('{"op":"query","kind":"T","filters":[["n","=",1]]}', '{"op":"query","kind":"T","filters":7}', '{"op":"query","kind":"T","filters":[["n","in",4]]}', '{"op":"query","kind":"T","limit":[]}'):
            for results in ("[]", "[[]]", "[{}]", "7"):
                replies = '{"line":1,"ok":"put","commit":1,"key":[["T","a"]]}\n{"line":2,"ok":"query","applied":[0],"results":%s}\n' % results
                data = Picture(Run((put + query).encode(), replies.encode())).data()
                self.assertEqual(len(data["queries"]), 1)

    def test_rows_stand_below_the_name_of_their_test(self):
        (self.folder / "conftest.py").write_text(CONFTEST)
        (self.folder / "test_a.py").write_text(TESTS)
        ran = pytest_in(self.folder)
        if ran is None:
            self.skipTest("there is no pytest")
        self.assertEqual(ran.returncode, 0, ran.stdout)
        data = data_in(self.folder / "run.html")
        rows = [(data["ops"][op], re.sub(r"tenant-\w{10}-\w", "tenant", label)) for op, label in zip(data["columns"]["op"], data["columns"]["label"])]
        first, second = ("test", "test_a.py::test_first"), ("test", "test_a.py::test_third")
        self.assertEqual(rows, [first, ("put", "Task a"), ("query", "Task"), second, ("put", "Task b"), ("get", "tenant: Task a")])
        self.assertEqual([label for label, _ in data["scopes"]], ["all kinds", "Task", "all kinds", "Task"])
        self.assertIn([3, 1], [[at, sum(counts)] for at, counts in data["counts"]], "what the fixture applied before the test")
        self.assertEqual(len(data["sites"]), 4)

    def test_dates_are_dates(self):
        for number, told in ((0, "1970-01-01 00:00"), (1764201600000000, "2025-11-27 00:00"), (1764201601000001, "2025-11-27 00:00:01.000001"), (-1, "1969-12-31 23:59:59.999999"), (2**62, str(2**62)), ("x", "x")):
            _, _, label = asked.of_query({"kind": "T", "filters": [["due", "<", {"date": number}]]})
            self.assertEqual(label, f"T where due < {told}")


@unittest.skipUnless(CHROMIUM, "there is no chromium")
class InBrowser(unittest.TestCase):
    @classmethod
    def setUpClass(cls):
        cls.folder = tempfile.TemporaryDirectory()
        cls.file = pathlib.Path(cls.folder.name, "run.html")
        import datetime

        with Server(draw=cls.file) as server:
            clients = [server.client(number) for number in range(3)]
            for number in range(48):
                due = datetime.datetime(2026, 11, 1 + number % 28, tzinfo=datetime.timezone.utc)
                clients[number % 3].put(Key("Task", f"name-of-{number}"), due=due)
                if number % 7 == 3:
                    clients[number % 3].query("Task", filters=[("due", ">", due)])
        cls.browser = Browser()

    @classmethod
    def tearDownClass(cls):
        cls.browser.close()
        cls.folder.cleanup()

    def open(self, wide, high=860, place=""):
        self.browser.size(wide, high)
        self.browser.open(self.file, place)
        self.assertEqual(self.browser.faults(), [])

    def test_home_end_and_page_keys_choose_a_line(self):
        self.open(1400)
        rows = self.browser.run("ROWS")
        for key, row in (("End", rows - 1), ("Home", 0), ("PageDown", None), ("PageUp", 0), ("End", rows - 1), ("PageDown", rows - 1)):
            self.browser.key(key)
            chosen = self.browser.run("chosen")
            if row is None:
                self.assertTrue(10 < chosen < rows - 1, chosen)
            else:
                self.assertEqual(chosen, row, key)

    def test_the_line_that_asked_and_dates_stand_in_the_panel(self):
        self.open(1400)
        row = self.browser.run("col.label.findIndex(label => label.includes('due >'))")
        self.browser.run(f"choose({row})")
        panel = self.browser.run("byId('panel').innerText")
        self.assertRegex(panel, r"test_pages_of_tests\.py:\d+")
        self.assertRegex(panel, r"\d{16} 2026-11-\d\d 00:00 UTC")

    def test_what_has_its_room(self):
        """At each width headings of shards don't touch, the journal's is whole, and where labels fit hardly a key of the journal is cut."""
        for wide in (400, 700, 1000, 1400, 1900):
            with self.subTest(wide=wide):
                self.open(wide)
                told = self.browser.run("({xs: usedShards.map(shard => at.shards[shard].x), needs: needed(), at: {journal: at.journal, wide: at.journalWide, width: at.width, overview: at.overview}, words: at.words})")
                ends = [x + 18 for x in told["xs"]]
                self.assertGreater(len(ends), 12)
                self.assertTrue(all(end <= x for end, x in zip(ends, told["xs"][1:])), told["xs"])
                self.assertLessEqual(told["at"]["journal"] + 52, told["at"]["width"] - told["at"]["overview"])
                if wide >= 1400:
                    self.assertGreaterEqual(told["at"]["wide"], min(300, told["needs"]["labels"]))

    def test_on_a_phone_the_header_is_one_line(self):
        self.open(400, 800)
        self.assertLess(self.browser.run("document.querySelector('header').getBoundingClientRect().height"), 50)
        self.assertLessEqual(self.browser.run("document.documentElement.scrollWidth"), 400)


if __name__ == "__main__":
    unittest.main()
