"""Runs of the server that keeps a file, and what a kept file has."""
import os
import pathlib
import subprocess
import sys
import tempfile

from tests.case import SECONDS, TOP, WHOLE, WORDS, Case, Ran, keeper, run

sys.path[:0] = [str(TOP / "drivers" / "audit"), str(TOP / "drivers" / "python")]
import kept_text
from torfyllan.kept import KeptFile

SETTLE = b'{"op":"settle"}\n'


def sample(proved, unproved, whole):
    """How much of something is tried, by which build of the server is in use."""
    return whole if WHOLE else unproved if keeper().endswith(".unproved") else proved


def request(op, **members):
    """A line."""
    return (kept_text.text({"op": op, **members}) + "\n").encode()


def put(name, kind="T", **properties):
    """The line of a put."""
    return request("put", entity={"key": [[kind, name]], "properties": properties})


def read(content):
    """The commits that a file's bytes keep, the id counter, the place of its closed gate or of its damage, and whether it is damaged."""
    file = KeptFile(content)
    commits = list(file.journal())
    return commits, file.next, file.place, file.damaged


class Kept(Case):
    """Cases with a folder, in which the file `kept` is."""

    def setUp(self):
        folder = tempfile.TemporaryDirectory(prefix="kept-")
        self.addCleanup(folder.cleanup)
        self.folder = folder.name
        self.file = pathlib.Path(self.folder, "kept")

    def serve(self, text, words=WORDS, content=None, **how):
        """A run over the file, which has these bytes before, or is as it is."""
        if content is not None:
            self.file.write_bytes(content)
        return run(text, ["--kept", "kept", *words], of=keeper(), folder=self.folder, **how)

    def told(self, text, words=WORDS):
        """A run over the file as `./run --kept` ends in it, with its sentences on standard error."""
        command = [sys.executable, TOP / "drivers" / "kept", keeper(), "kept", *words]
        ran = subprocess.run(command, input=text, capture_output=True, cwd=self.folder, timeout=SECONDS)
        return Ran(ran.returncode, ran.stdout, ran.stderr)

    def begin(self, words=WORDS, **how):
        """A server over the file, which is talked to."""
        return subprocess.Popen([keeper(), "--kept", "kept", *words], stdin=subprocess.PIPE, stdout=subprocess.PIPE, stderr=subprocess.PIPE, cwd=self.folder, **how)


def seconds_of(run_it):
    """What a run gives, and the processor's seconds that it took, all its threads together."""
    before = os.times()
    found = run_it()
    after = os.times()
    return found, after.children_user + after.children_system - before.children_user - before.children_system
