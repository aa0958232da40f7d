"""Tests of how servers are started, ended and shared: by an installed package, behind a fork, behind a test that ended the server, and with an audit.

    python3 drivers/python/test_starts_and_ends.py
"""
import os
import pathlib
import stat
import subprocess
import sys
import tempfile
import textwrap
import unittest
import zipfile

from by_pytest import HERE, TestByPytest
from torfyllan import IndexFileError, Key, MissingIndex, NotLegal, Server, ServerFailed, auditing
from torfyllan.indexes import definitions_of

# An auditor that tells its progress, and finds no run legal.
AUDITOR = """#!/bin/bash
echo "building 1 of 2" >&2
echo "building 2 of 2" >&2
echo "$@" > "$(dirname "$0")/words"
echo "not legal: line 1"
exit 7
"""


class Installed(unittest.TestCase):
    def test_a_wheel_audits_and_draws_from_any_folder(self):
        """The package as a wheel holds it, in a folder of its own: it finds the repository that it was built in."""
        with tempfile.TemporaryDirectory() as folder:
            build = "import wheel_backend, sys; print(wheel_backend.build_wheel(sys.argv[1]))"
            name = subprocess.run([sys.executable, "-c", build, folder], cwd=HERE, capture_output=True, text=True, check=True).stdout.strip()
            with zipfile.ZipFile(os.path.join(folder, name)) as wheel:
                wheel.extractall(os.path.join(folder, "site"))
            script = """
                import pathlib
                from torfyllan import Server, Key, auditing, drawing
                print(auditing.PROGRAM, drawing.PROGRAM)
                with Server(draw="page.html") as server:
                    server.client().put(Key("T", "a"))
                print(pathlib.Path("page.html").stat().st_size > 10_000)
                """
            words = {**os.environ, "PYTHONPATH": os.path.join(folder, "site"), "PYTHONDONTWRITEBYTECODE": "1"}
            ran = subprocess.run([sys.executable, "-c", textwrap.dedent(script)], cwd=folder, env=words, capture_output=True, text=True)
            top = HERE.parents[1]
            self.assertEqual(ran.stdout, f"{top / 'run'} {top / 'drivers' / 'draw'}\nTrue\n", ran.stderr)

    def test_a_package_without_its_repository_says_what_to_do(self):
        for asked, told in ((dict(audit=True), "whose ./run --audit audits a run, isn't there"), (dict(draw="page.html"), "whose ./run --draw draws a page, isn't there")):
            with tempfile.TemporaryDirectory() as folder:
                subprocess.run(["cp", "-r", str(HERE / "torfyllan"), folder], check=True)
                script = f"from torfyllan import Server\nServer(**{asked!r}).start()"
                words = {**os.environ, "PYTHONPATH": folder, "PYTHONDONTWRITEBYTECODE": "1"}
                ran = subprocess.run([sys.executable, "-c", script], cwd=folder, env=words, capture_output=True, text=True)
                self.assertIn(told, ran.stderr)
                self.assertIn("pip install ./drivers/python", ran.stderr)


class Audited(unittest.TestCase):
    def setUp(self):
        folder = tempfile.TemporaryDirectory()
        self.addCleanup(folder.cleanup)
        self.top = pathlib.Path(folder.name)
        (self.top / "run").write_text(AUDITOR)
        os.chmod(self.top / "run", stat.S_IRWXU)
        kept, auditing.PROGRAM = auditing.PROGRAM, self.top / "run"
        self.addCleanup(setattr, auditing, "PROGRAM", kept)
        self.told = []

    def server(self):
        server = Server(audit=True, tell=self.told.append).start()
        server.client().put(Key("T", "a"))
        return server

    def test_its_progress_is_told(self):
        with self.assertRaisesRegex(NotLegal, "^not legal: line 1$"):
            self.server().stop()
        self.assertEqual(self.told, ["torfyllan audits the run that has ended:\n", "building 1 of 2\n", "building 2 of 2\n"])

    def test_kill_audits_too(self):
        server = self.server()
        with self.assertRaises(NotLegal):
            server.kill()
        server.kill()
        server.stop()

    def test_a_block_that_an_exception_ends(self):
        with self.assertRaises(NotLegal) as caught, Server(audit=True, tell=self.told.append):
            raise KeyError("mine")
        self.assertIsInstance(caught.exception.__cause__, KeyError)

    def test_an_unproved_server_is_audited_by_an_unproved_auditor(self):
        for ending, words in ((".unproved", True), ("", False)):
            program = self.top / f"server{ending}"
            named = os.environ.get("TORFYLLAN")
            if not named or not os.access(named, os.X_OK) or pathlib.Path(named).read_bytes()[:4] != b"\x7fELF":
                self.skipTest("TORFYLLAN names no program that can be copied")
            program.write_bytes(pathlib.Path(named).read_bytes())
            os.chmod(program, stat.S_IRWXU)
            with self.assertRaises(NotLegal), Server(audit=True, program=program, tell=self.told.append):
                pass
            self.assertEqual("--unproved" in (self.top / "words").read_text(), words)


class Words(unittest.TestCase):
    def test_words_of_wrong_types_are_told_by_a_sentence(self):
        server = Server()
        for make, told in (
            (lambda: server.client("a"), "clients are numbered from 0 to 15, and not 'a'"),
            (lambda: server.client(1.0), "clients are numbered from 0 to 15, and not 1.0"),
            (lambda: server.client(16), "clients are numbered from 0 to 15, and not 16"),
            (lambda: server.client(namespace=3), "a namespace is a str, and not 3"),
            (lambda: Server(shards="many"), "shards is 1 to 16, and not 'many'"),
            (lambda: Server(seed="x"), "seed is a whole number, and not 'x'"),
            (lambda: Server(timeout="long"), "timeout is a number of seconds, and not 'long'"),
            (lambda: Server(timeout=0), "timeout is a number of seconds, and not 0"),
        ):
            with self.subTest(told=told), self.assertRaises(ValueError) as caught:
                make()
            self.assertEqual(str(caught.exception), told)


@unittest.skipUnless(hasattr(os, "fork"), "there is no fork")
class Forked(unittest.TestCase):
    def test_a_fork_is_refused_and_leaves_the_server_alone(self):
        script = """
            import os, sys
            from torfyllan import Server, Key, ServerFailed
            server = Server().start()
            client = server.client()
            client.put(Key("T", "a"))
            if not os.fork():
                for work in (lambda: client.put(Key("T", "b")), server.reset):
                    try:
                        work()
                    except ServerFailed as failed:
                        print(str(failed).replace(str(os.getppid()), "P").replace(str(os.getpid()), "C"), flush=True)
                server.stop()
                server.kill()
                with Server() as own:
                    print(own.client().put(Key("T", "a")).commit, flush=True)
                sys.exit()
            os.wait()
            print(client.put(Key("T", "c")).commit, os.path.exists(server._folder.name))
            server.stop()
            """
        ran = subprocess.run([sys.executable, "-c", textwrap.dedent(script)], env={**os.environ, "PYTHONPATH": str(HERE)}, capture_output=True, text=True)
        told = "this server was started by the process P, of which this one, C, is a fork: start a server here too, by Server().start()\n"
        self.assertEqual(ran.stdout, f"{told}{told}1\n2 True\n", ran.stderr)


class AutoIndex(unittest.TestCase):
    def setUp(self):
        folder = tempfile.TemporaryDirectory()
        self.addCleanup(folder.cleanup)
        self.file = pathlib.Path(folder.name, "index.yaml")

    def test_an_entry_is_added_in_each_style(self):
        own = "{kind: T, properties: [{name: a}, {name: b, direction: desc}]}"
        block = "- kind: T\n  properties:\n  - name: a\n  - name: b\n    direction: desc\n"
        other = "{kind: Other, ancestor: yes, properties: [{name: x}]}"
        for before, after in (
            ("indexes: []\n", f"indexes:\n{block}"),
            ("indexes: []  # none yet\n", f"indexes:  # none yet\n{block}"),
            ("# mine\nindexes: null\n", f"# mine\nindexes:\n{block}"),
            ("indexes:\n", f"indexes:\n{block}"),
            ("", f"indexes:\n{block}"),
            (f"indexes: [{other}]\n", f"indexes: [{other}, {own}]\n"),
            (f"indexes: [\n  {other},\n]\n", f"indexes: [\n  {other}, {own}\n]\n"),
            (f"{{indexes: [{other}]}}", f"{{indexes: [{other}, {own}]}}"),
            (f"indexes:\n- {other}\n", f"indexes:\n- {other}\n{block}"),
        ):
            with self.subTest(before=before):
                self.file.write_text(before)
                with Server(indexes=self.file, auto_index=True) as server:
                    for _ in range(2):
                        with self.assertRaisesRegex(MissingIndex, "was added to"):
                            server.client().query("T", filters=[("a", "=", 1)], orders=["-b"])
                    server.reset()
                    self.assertEqual(len(server.client().query("T", filters=[("a", "=", 1)], orders=["-b"])), 0)
                self.assertEqual(self.file.read_text(), after)
                self.assertEqual(definitions_of(after)[-1].kind, "T")

    def test_a_key_before_another_property(self):
        with self.assertRaisesRegex(IndexFileError, "`__key__` stands last in an entry, or not at all"):
            Server(indexes="indexes:\n- kind: T\n  properties:\n  - name: __key__\n  - name: n\n").start()
        with self.assertRaisesRegex(IndexFileError, "the property n stands twice in its entry"):
            Server(indexes="indexes:\n- kind: U\n  properties:\n  - name: a\n  - name: __key__\n- kind: T\n  properties:\n  - name: n\n  - name: n\n").start()


class Shared(TestByPytest):
    def test_a_server_that_a_test_ended_is_started_anew_for_the_next(self):
        text = """
def test_first(datastore):
    datastore.put(Key("T", "a"))
    datastore.server.kill()

def test_second(datastore):
    assert datastore.put(Key("T", "a")).commit == 1
    assert len(datastore.query("T")) == 0

def test_third(datastore):
    assert datastore.put(Key("T", "a")).commit == 2
"""
        said, status = self.run_tests(text)
        self.assertEqual(status, 0, said)
        self.assertIn("3 passed, 1 warning", said)
        self.assertIn("the server that tests share had ended before this test (the server isn't running); it was started anew", said)

    def test_an_entry_that_was_added_serves_the_next_test(self):
        text = """
def test_first(datastore):
    datastore.put(Key("T", None), a=1, b=2)
    with pytest.raises(MissingIndex):
        datastore.query("T", filters=[("a", "=", 1)], orders=["-b"])

def test_second(datastore):
    datastore.put(Key("T", None), a=1, b=2)
    datastore.settle()
    assert len(datastore.query("T", filters=[("a", "=", 1)], orders=["-b"])) == 1
"""
        own = """
@pytest.fixture(scope="module", autouse=True)
def kept(datastore_server):
    datastore_server.client(namespace="kept").put(Key("Kept", "a"))
    yield
    assert datastore_server.client(namespace="kept").get(Key("Kept", "a"))
"""
        said, status = self.run_tests(text, ini="datastore_indexes = index.yaml\ndatastore_auto_index = yes\n")
        self.assertEqual(status, 0, said)
        os.remove(self.folder / "index.yaml")
        said, status = self.run_tests(own + text, ini="datastore_indexes = index.yaml\ndatastore_auto_index = yes\n")
        self.assertIn("1 failed, 1 passed", said, "what a fixture wrote is not thrown away for an index")

    def test_words_of_the_ini_file_that_are_none(self):
        for ini, told in (
            ("datastore_shards = many", "datastore_shards of the ini file is a whole number, and not 'many'"),
            ("datastore_seed = 1.5", "datastore_seed of the ini file is a whole number, and not '1.5'"),
            ("datastore_auto_index = perhaps", "datastore_auto_index of the ini file is yes or no, and not 'perhaps'"),
            ("datastore_shards = 17", "shards is 1 to 16, and not 17"),
        ):
            with self.subTest(ini=ini):
                said, status = self.run_tests("\ndef test_it(datastore):\n    pass\n", ini=ini + "\n")
                self.assertIn(told, said)
                self.assertNotEqual(status, 0)


if __name__ == "__main__":
    unittest.main()
