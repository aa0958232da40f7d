"""Tests of the audit of a talk, with an auditor that only pretends.

    python3 drivers/python/test_auditing.py
"""
import os
import pathlib
import stat
import tempfile
import unittest

from torfyllan import NotLegal, auditing

# It tells its words, and what the file NAME of the folder of the test says.
AUDITOR = """#!/bin/bash
folder=$(dirname "$0")
cp "$2" "$folder/lines"; cp "$3" "$folder/replies"; echo "${@:4}" > "$folder/words"
cat "$folder/verdict"
exit $(cat "$folder/status")
"""


class AuditTest(unittest.TestCase):
    def setUp(self):
        self.folder = tempfile.TemporaryDirectory()
        self.addCleanup(self.folder.cleanup)
        self.top = pathlib.Path(self.folder.name)
        (self.top / "run").write_text(AUDITOR)
        os.chmod(self.top / "run", stat.S_IRWXU)
        kept, auditing.PROGRAM = auditing.PROGRAM, self.top / "run"
        self.addCleanup(setattr, auditing, "PROGRAM", kept)

    def audited(self, verdict, status, answered=True):
        """The fault of a talk of one round, of which the auditor says this."""
        (self.top / "verdict").write_text(verdict)
        (self.top / "status").write_text(str(status))
        audit = auditing.Audit()
        audit.begin(["--shards", "4"], None)
        audit.asked(b'{"op":"settle"}\n\n')
        if answered:
            audit.answered([b'{"line":1}'])
        audit.end()
        return audit.fault

    def test_a_legal_run(self):
        self.assertIsNone(self.audited("legal\n", 0))
        self.assertEqual((self.top / "lines").read_text(), '{"op":"settle"}\n\n')
        self.assertEqual((self.top / "replies").read_text(), '{"line":1}\n')
        self.assertEqual((self.top / "words").read_text(), "--shards 4\n")

    def test_a_run_that_is_not_legal(self):
        fault = self.audited("not legal: line 1\nline  a\nreply b\n", 7)
        self.assertIsInstance(fault, NotLegal)
        self.assertEqual(str(fault), "not legal: line 1\nline  a\nreply b")

    def test_an_audit_that_fails(self):
        self.assertIsInstance(self.audited("", 6), NotLegal)

    def test_a_round_without_replies_is_not_audited(self):
        self.assertIsNone(self.audited("not legal: count\n", 7, answered=False))
        self.assertFalse((self.top / "lines").exists())


if __name__ == "__main__":
    unittest.main()
