"""Runs pytest as a program, by this Python or by the system's, for the tests of the fixtures."""
import os
import pathlib
import subprocess
import sys
import tempfile
import unittest

HERE = pathlib.Path(__file__).resolve().parent


def python_with_pytest():
    """A Python that has pytest; None where there is none."""
    for python in (sys.executable, "/usr/bin/python3"):
        if os.path.exists(python) and subprocess.run([python, "-c", "import pytest"], capture_output=True).returncode == 0:
            return python
    return None


PYTHON = python_with_pytest()


@unittest.skipIf(PYTHON is None, "there is no pytest")
class TestByPytest(unittest.TestCase):
    """A test that runs pytest: `pytest` in a folder, `run_tests` on a text in a folder of its own, `self.folder`."""

    def setUp(self):
        folder = tempfile.TemporaryDirectory()
        self.addCleanup(folder.cleanup)
        self.folder = pathlib.Path(folder.name)

    def pytest(self, folder, *words, **more):
        """What pytest said, and its status."""
        environment = {**os.environ, "PYTHONPATH": str(HERE), "PYTHONDONTWRITEBYTECODE": "1", **more}
        command = [PYTHON, "-m", "pytest", "-p", "torfyllan.pytest_plugin", "-p", "no:cacheprovider", "-q", *words]
        ran = subprocess.run(command, cwd=folder, env=environment, capture_output=True, text=True)
        return ran.stdout + ran.stderr, ran.returncode

    def run_tests(self, text, *words, ini="", **more):
        """The same of the file test_it.py with this text, below lines that import pytest and all names of the package, and a pytest.ini."""
        (self.folder / "test_it.py").write_text("import pytest\nfrom torfyllan import *\n" + text, encoding="utf-8")
        (self.folder / "pytest.ini").write_text(f"[pytest]\n{ini}", encoding="utf-8")
        return self.pytest(self.folder, "test_it.py", *words, **more)
