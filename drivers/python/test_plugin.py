"""Tests of the fixtures for pytest: what they give, that outcomes don't depend on the order of tests, and that runs side by side share nothing.

    python3 drivers/python/test_plugin.py

They run pytest as a program, by this Python or by the system's, and are skipped where neither has it.
"""
import json
import os
import pathlib
import random
import subprocess
import sys
import tempfile
import unittest

HERE = pathlib.Path(__file__).resolve().parent
ORDERS = 4


def python_with(module):
    """A Python that has the module; None where there is none."""
    for python in (sys.executable, "/usr/bin/python3"):
        if os.path.exists(python) and subprocess.run([python, "-c", f"import {module}"], capture_output=True).returncode == 0:
            return python
    return None


PYTHON = python_with("pytest")

# What each test sees depends on which of its groups share a shard: it writes some, by name and by drawn id, reads others, and asks for all.
SUITE = '''
import json, os, pathlib
import pytest
from torfyllan import Key

@pytest.mark.parametrize("number", range(10))
def test_of(datastore, datastore_server, number):
    names = [f"{number}-{place}" for place in range(8)]
    drawn = []
    for name in names:
        datastore.put(Key("Named", name), n=1)
        drawn.append(datastore.put(Key("Drawn", None), n=name).key)
    for place in range(3):
        datastore.get(Key("Other", place + 1 + number))
        datastore.get(drawn[place])
    seen = [one.key.identifier for one in datastore.query("Named")], [one["n"] for one in datastore.query("Drawn")]
    shards = [datastore.shard_of(key) for key in drawn]
    if number % 3 == 0:
        datastore.begin()
        datastore.put(Key("Left", "open"))
    path = pathlib.Path(os.environ["SEEN"], f"{number}.json")
    path.write_text(json.dumps([seen, shards, 0 < len(seen[0]) < 8]))
'''


@unittest.skipIf(PYTHON is None, "there is no pytest")
class Plugin(unittest.TestCase):
    def setUp(self):
        folder = tempfile.TemporaryDirectory()
        self.addCleanup(folder.cleanup)
        self.folder = pathlib.Path(folder.name)

    def write(self, **files):
        for name, text in files.items():
            (self.folder / f"{name}.py").write_text(text, encoding="utf-8")

    def environment(self, **more):
        return {**os.environ, "PYTHONPATH": str(HERE), "PYTHONDONTWRITEBYTECODE": "1", **more}

    def start(self, *words, **more):
        command = [PYTHON, "-m", "pytest", "-p", "torfyllan.pytest_plugin", "-p", "no:cacheprovider", "-q", *words]
        return subprocess.Popen(command, cwd=self.folder, env=self.environment(**more), stdout=subprocess.PIPE, stderr=subprocess.STDOUT, text=True)

    def pytest(self, *words, **more):
        ran = self.start(*words, **more)
        return ran.communicate()[0], ran.returncode

    def seen(self, folder):
        return {path.stem: json.loads(path.read_text()) for path in sorted(folder.iterdir())}

    def run_in_order(self, numbers, name, *words):
        folder = self.folder / name
        folder.mkdir()
        said, status = self.pytest(*words, *(f"test_order.py::test_of[{number}]" for number in numbers), SEEN=str(folder))
        self.assertEqual(status, 0, said)
        return self.seen(folder)

    def test_outcomes_do_not_hang_on_the_order_of_tests(self):
        self.write(test_order=SUITE)
        first = self.run_in_order(range(10), "first")
        self.assertEqual(len(first), 10)
        self.assertTrue(any(partly for _, _, partly in first.values()), "no query saw a part: the suite would show nothing")
        for attempt in range(ORDERS):
            numbers = random.Random(attempt).sample(range(10), 10)
            self.assertEqual(self.run_in_order(numbers, f"order{attempt}"), first, numbers)
        self.assertEqual(self.run_in_order([7], "alone"), {"7": first["7"]})

    def test_an_outcome_does_not_hang_on_the_name_of_a_test(self):
        self.write(test_order=SUITE)
        first = self.run_in_order(range(10), "first")
        (self.folder / "test_order.py").rename(self.folder / "other.py")
        self.write(test_order=SUITE.replace("def test_of(", "def test_of_another_name("))
        folder = self.folder / "renamed"
        folder.mkdir()
        said, status = self.pytest("test_order.py", SEEN=str(folder))
        self.assertEqual((status, self.seen(folder)), (0, first), said)

    def test_runs_side_by_side_share_nothing(self):
        self.write(test_order=SUITE)
        folders = [self.folder / f"run{number}" for number in range(3)]
        for folder in folders:
            folder.mkdir()
        runs = [self.start("test_order.py", SEEN=str(folder)) for folder in folders]
        for run in runs:
            said = run.communicate()[0]
            self.assertEqual(run.returncode, 0, said)
        self.assertEqual([self.seen(folder) for folder in folders[1:]], [self.seen(folders[0])] * 2)

    def test_workers_share_nothing(self):
        if subprocess.run([PYTHON, "-c", "import xdist"], capture_output=True).returncode:
            self.skipTest("there is no pytest-xdist")
        self.write(test_order=SUITE)
        first = self.run_in_order(range(10), "first")
        self.assertEqual(self.run_in_order(range(10), "workers", "-n", "2"), first)

    def test_a_failing_test_says_what_was_not_applied(self):
        self.write(
            test_stale="""
                from torfyllan import Key

                def test_stale(datastore):
                    datastore.put(Key("Task", "a"))
                    assert datastore.query("Task").results != []

                def test_nothing_stale(datastore):
                    datastore.put(Key("Task", "a"))
                    datastore.query("Task")
                    datastore.settle()
                    datastore.query("Task")
                """.replace("\n                ", "\n")
        )
        said, status = self.pytest("test_stale.py")
        self.assertEqual(status, 1, said)
        self.assertIn("queries that saw less than was written", said)
        self.assertIn("test_stale.py:6: the query of Task has no ancestor; with what wasn't applied yet it would have found:", said)
        self.assertIn("put of Key('Task', 'a'), commit 1 of client 0 at test_stale.py:5", said)
        self.assertIn("1 failed, 1 passed", said)

    def test_a_refusal_shows_the_lines_of_the_test_alone(self):
        self.write(test_refused="from torfyllan import Key\n\ndef test_refused(datastore):\n    datastore.get(Key('T', 0))\n")
        said, status = self.pytest("test_refused.py")
        self.assertIn("BadKey: key: an id is 1 to", said)
        self.assertNotIn("client.py", said)

    def test_the_ini_file_gives_the_words(self):
        (self.folder / "pytest.ini").write_text("[pytest]\ndatastore_indexes = my.yaml\ndatastore_consistency = strong\ndatastore_shards = 2\ndatastore_auto_index = yes\n")
        self.write(
            test_words="""
                import pytest
                from torfyllan import Key, MissingIndex

                def test_strong(datastore):
                    datastore.put(Key("T", "a"), a=1, b=2)
                    assert len(datastore.query("T").applied) == 2
                    assert len(datastore.query("T")) == 1

                def test_missing(datastore):
                    with pytest.raises(MissingIndex) as caught:
                        datastore.query("T", filters=[("a", "=", 1)], orders=["-b"])
                    assert "was added to" in str(caught.value)

                def test_with_it(fresh_datastore):
                    assert fresh_datastore.put(Key("T", None), a=1, b=2).commit == 1
                    assert len(fresh_datastore.query("T", filters=[("a", "=", 1)], orders=["-b"])) == 1
                """.replace("\n                ", "\n")
        )
        said, status = self.pytest("test_words.py")
        self.assertEqual(status, 0, said)
        self.assertEqual((self.folder / "my.yaml").read_text(), "indexes:\n- kind: T\n  properties:\n  - name: a\n  - name: b\n    direction: desc\n")
        (self.folder / "pytest.ini").write_text("[pytest]\ndatastore_consistency = sometimes\n")
        said, status = self.pytest("test_words.py")
        self.assertIn("consistency is 'explicit', 'strong', or a share from 0 to 1, and not 'sometimes'", said)

    def test_a_fresh_server_begins_anew(self):
        self.write(
            test_fresh="""
                from torfyllan import Key

                def one(client):
                    reply = client.put(Key("T", None))
                    assert (reply.commit, reply.key.identifier) == (1, 2**52)

                def test_first(fresh_datastore):
                    one(fresh_datastore)

                def test_second(fresh_datastore, datastore):
                    datastore.put(Key("T", None))
                    one(fresh_datastore)
                """.replace("\n                ", "\n")
        )
        said, status = self.pytest("test_fresh.py")
        self.assertEqual(status, 0, said)

    def test_an_own_server_and_the_fixtures_of_a_conftest(self):
        self.write(
            conftest="""
                import pytest
                from torfyllan import Server, datastore

                @pytest.fixture(scope="session")
                def datastore_server():
                    with Server(shards=3) as server:
                        yield server
                """.replace("\n                ", "\n"),
            test_own="def test_own(datastore):\n    assert datastore.settle().applied == [0, 0, 0]\n",
        )
        command = [PYTHON, "-m", "pytest", "-p", "no:cacheprovider", "-q", "test_own.py"]
        ran = subprocess.run(command, cwd=self.folder, env=self.environment(), capture_output=True, text=True)
        self.assertEqual(ran.returncode, 0, ran.stdout + ran.stderr)


class Install(unittest.TestCase):
    def test_the_package_installs_by_its_path(self):
        """Into an environment of its own, from no registry; its fixtures are then there without a conftest."""
        with tempfile.TemporaryDirectory() as name:
            folder = pathlib.Path(name)
            made = subprocess.run([PYTHON or sys.executable, "-m", "venv", "--system-site-packages", str(folder / "venv")], capture_output=True, text=True)
            if made.returncode:
                self.skipTest("this Python makes no environments")
            python = str(folder / "venv" / "bin" / "python")
            for words in ([], ["-e"]):
                ran = subprocess.run([python, "-m", "pip", "install", "--no-index", "--force-reinstall", *words, str(HERE)], capture_output=True, text=True)
                self.assertEqual(ran.returncode, 0, ran.stdout + ran.stderr)
                where = "import torfyllan.process as process; print(process.found_program()[0])"
                server = {"TORFYLLAN": os.environ.get("TORFYLLAN", "")}
                clean = {name: value for name, value in os.environ.items() if name not in ("TORFYLLAN", "PYTHONPATH")}
                found = subprocess.run([python, "-c", where], cwd=name, env=clean, capture_output=True, text=True)
                self.assertEqual(found.stdout.strip(), str(HERE.parents[1] / "run"), found.stderr)
                if PYTHON is not None:
                    (folder / "test_it.py").write_text("def test_it(datastore):\n    assert datastore.settle().place == 0\n")
                    command = [python, "-m", "pytest", "-p", "no:cacheprovider", "-q", "test_it.py"]
                    ran = subprocess.run(command, cwd=name, env={**clean, **server}, capture_output=True, text=True)
                    self.assertEqual(ran.returncode, 0, ran.stdout + ran.stderr)


if __name__ == "__main__":
    unittest.main()
