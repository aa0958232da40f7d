"""Runs in which the outside fails: a library that is loaded before the C library, of tests/refused.c, refuses memory, reads, writes and files."""
import os
import shutil
import struct
import subprocess
import tempfile
import unittest

from tests.case import PLANTED, TOP, WORDS, Case, run, server

COUNTS = "memory refused reads writes loads read_bytes written_bytes after_read after_write after_load threads disk after_disk syncs".split()


class Refusing(Case):
    """Cases with such runs, in a folder with the library and an index file."""

    index = None

    @classmethod
    def setUpClass(cls):
        compiler = os.environ.get("CC") or shutil.which("cc") or shutil.which("gcc")
        if compiler is None:
            raise unittest.SkipTest("no C compiler")
        holder = tempfile.TemporaryDirectory(prefix="trials-")
        cls.addClassCleanup(holder.cleanup)
        cls.folder = holder.name
        cls.library = os.path.join(cls.folder, "refused.so")
        subprocess.run([compiler, "-O2", "-shared", "-fPIC", "-o", cls.library, str(TOP / "tests" / "refused.c"), "-ldl"], check=True)

    def run_refused(self, text, words=WORDS, of=None, how=None, **refused):
        """A run of the server, or of the program `of`, over these bytes that is refused these things: names of refused.c without their REFUSED_, in
        small letters, with their values. `how` has further arguments for `run`."""
        counts = os.path.join(self.folder, "counts")
        with open(counts, "wb") as file:
            file.write(bytes(8 * len(COUNTS)))
        environment = {**os.environ, "LD_PRELOAD": self.library, "REFUSED_PROGRAM": PLANTED or of or server(), "REFUSED_COUNTS": counts,
                       **{f"REFUSED_{name.upper()}": str(value) for name, value in refused.items()}}
        ran = run(text, words, self.index, of=of, folder=self.folder, env=environment, **how or {})
        with open(counts, "rb") as file:
            ran.counts = dict(zip(COUNTS, struct.unpack(f"{len(COUNTS)}Q", file.read())))
        if not ran.counts["memory"]:
            raise RuntimeError("the library of tests/refused.c counted no memory taken by the program: this can't be tried with it")
        return ran
