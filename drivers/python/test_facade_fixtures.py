"""Tests of the fixtures `ndb_context` and `cloud_client`, by pytest itself, where it is installed.

    python3 drivers/python/test_facade_fixtures.py
"""
import os
import pathlib
import subprocess
import sys
import tempfile
import unittest

HERE = os.path.dirname(os.path.abspath(__file__))

CONFTEST = 'pytest_plugins = ["torfyllan.pytest_plugin"]\n'

TESTS = """\
from torfyllan import cloud, ndb

class Task(ndb.Model):
    n = ndb.IntegerProperty()

def test_a_context(ndb_context):
    Task(n=1).put()
    assert Task.query().count() == 0
    ndb_context.client.settle()
    assert Task.query().count() == 1

def test_another_namespace(ndb_context):
    ndb_context.client.settle()
    assert Task.query().count() == 0

def test_a_client(cloud_client):
    own = cloud.Client("project")
    entity = cloud.Entity(own.key("Task", 1))
    own.put(entity)
    assert cloud_client.get(entity.key) == entity

def test_no_block_is_left_open():
    try:
        ndb.get_context()
    except RuntimeError:
        return
    assert False
"""


def python_with_pytest():
    for python in (sys.executable, "/usr/bin/python3"):
        if os.path.exists(python) and subprocess.run([python, "-c", "import pytest"], capture_output=True).returncode == 0:
            return python
    return None


class Fixtures(unittest.TestCase):
    def test_each_fixture_by_pytest(self):
        python = python_with_pytest()
        if python is None:
            print("the fixtures of ndb and the Cloud client: not tried, since there is no pytest")
            self.skipTest("no pytest")
        with tempfile.TemporaryDirectory() as folder:
            pathlib.Path(folder, "conftest.py").write_text(CONFTEST, encoding="utf-8")
            pathlib.Path(folder, "test_fixtures.py").write_text(TESTS, encoding="utf-8")
            words = {**os.environ, "PYTHONPATH": HERE, "PYTHONDONTWRITEBYTECODE": "1"}
            ran = subprocess.run([python, "-m", "pytest", "-q", "-p", "no:cacheprovider", folder], capture_output=True, text=True, env=words)
        self.assertIn("4 passed", ran.stdout, ran.stdout + ran.stderr)
        self.assertNotIn("warning", ran.stdout, ran.stdout)

    def test_the_package_imports_no_pytest(self):
        code = "import sys, torfyllan.ndb, torfyllan.cloud; print([name for name in sys.modules if 'pytest' in name])"
        words = {**os.environ, "PYTHONPATH": HERE, "PYTHONDONTWRITEBYTECODE": "1"}
        ran = subprocess.run([sys.executable, "-c", code], capture_output=True, text=True, env=words)
        self.assertEqual((ran.stdout, ran.stderr), ("[]\n", ""))


if __name__ == "__main__":
    unittest.main()
