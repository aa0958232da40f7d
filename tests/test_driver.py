"""The driver by other Pythons that are here, and its types. Its own tests stand beside it, in drivers/python."""
import os
import shutil
import subprocess
import sys

from tests.case import TOP, Case, server

PYTHONS = ("python3.9", "python3.10", "python3.11", "python3.12", "python3.13", "python3.14", "pypy3")
VERSION = "import sys; print(sys.implementation.name, *sys.version_info[:2])"


def version_of(python):
    """Implementation and version of a Python; None where it doesn't run."""
    ran = subprocess.run([python, "-c", VERSION], capture_output=True, text=True) if shutil.which(python) else None
    return ran.stdout.strip() if ran and ran.returncode == 0 else None


class Driver(Case):
    def test_other_pythons(self):
        """The main tests of the driver by each, whose own version isn't the one of these tests."""
        tried = {version_of(sys.executable)}
        for python in PYTHONS:
            version = version_of(python)
            if version is None or version in tried:
                continue
            tried.add(version)
            environment = {**os.environ, "TORFYLLAN": server(), "PYTHONDONTWRITEBYTECODE": "1"}
            ran = subprocess.run([python, TOP / "drivers" / "python" / "test_torfyllan.py"], env=environment, capture_output=True, text=True)
            self.expect(f"the driver's main tests by {version}\n{ran.stderr[-1500:]}", ran.returncode, 0)
        if not self.tried:
            self.skipTest("no other Python from 3.9 on")

    def test_types(self):
        if not shutil.which("mypy"):
            self.skipTest("no mypy")
        words = ["mypy", "--config-file", "drivers/python/pyproject.toml", "--cache-dir", os.devnull, "drivers/python/torfyllan"]
        ran = subprocess.run(words, cwd=TOP, capture_output=True, text=True)
        self.expect(f"the types of the driver\n{ran.stdout[-3000:]}{ran.stderr}", ran.returncode, 0)
