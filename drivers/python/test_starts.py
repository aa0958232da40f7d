"""Tests of what a start tells: of a build of which nothing is proved the first start of a program tells so, also past pytest's capture.

    python3 drivers/python/test_starts.py
"""
import os
import pathlib
import shlex
import subprocess
import sys
import tempfile
import unittest

HERE = pathlib.Path(__file__).resolve().parent
sys.path.insert(0, str(HERE))
from torfyllan.process import found_program

TOLD = "nothing is proved of this build of the server, which is some 150 times slower; ./run --prove makes the proved one, in about 31 minutes"
# A program that tells so, as `run` does, and then serves.
PROGRAM = "#!/bin/bash\necho '{told}' >&2\nexec {server} \"$@\"\n"
STARTS = """
from torfyllan import Server
for _ in range(3):
    with Server(shards=1) as server:
        server.client().settle()
"""
SUITE = """
from torfyllan import Key

def test_one(fresh_datastore):
    fresh_datastore.put(Key("T", "a"))

def test_two(fresh_datastore):
    assert fresh_datastore.get(Key("T", "a")).entity is None
"""


def python_with(module):
    """A Python that has the module; None where there is none."""
    for python in (sys.executable, "/usr/bin/python3"):
        if os.path.exists(python) and subprocess.run([python, "-c", f"import {module}"], capture_output=True).returncode == 0:
            return python
    return None


class Starts(unittest.TestCase):
    def setUp(self):
        folder = tempfile.TemporaryDirectory()
        self.addCleanup(folder.cleanup)
        self.folder = pathlib.Path(folder.name)
        program = self.folder / "program"
        program.write_text(PROGRAM.format(told=TOLD, server=" ".join(map(shlex.quote, found_program()))))
        program.chmod(0o755)
        self.environment = {**os.environ, "TORFYLLAN": str(program), "PYTHONPATH": str(HERE), "PYTHONDONTWRITEBYTECODE": "1"}

    def test_the_first_of_several_starts_tells_it(self):
        ran = subprocess.run([sys.executable, "-c", STARTS], env=self.environment, capture_output=True, text=True)
        self.assertEqual((ran.returncode, ran.stderr), (0, TOLD + "\n"))

    def test_pytest_shows_it(self):
        python = python_with("pytest")
        if python is None:
            self.skipTest("no pytest")
        (self.folder / "test_it.py").write_text(SUITE)
        (self.folder / "conftest.py").write_text('pytest_plugins = ["torfyllan.pytest_plugin"]\n')
        ran = subprocess.run([python, "-m", "pytest", "-q", "-p", "no:cacheprovider"], cwd=self.folder, env=self.environment, capture_output=True, text=True)
        self.assertEqual(ran.returncode, 0, ran.stdout)
        self.assertEqual((ran.stdout + ran.stderr).count(TOLD), 1, ran.stdout + ran.stderr)


if __name__ == "__main__":
    unittest.main()
