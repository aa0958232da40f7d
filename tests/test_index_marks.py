"""Tests of `run` with an index file that begins with a byte order mark, as some editors write it: it is read as without one.

    ./test tests.test_index_marks
"""
import pathlib
import unittest

from tests.pretending import Runs

MARK = b"\xef\xbb\xbf"
FILE = b"indexes:\n- kind: T\n  properties:\n  - name: a\n"
# A program that shows the index file that it is given, and refuses one with a mark at its line.
SHOWS = """#!/bin/bash
while (($#)); do
    [[ $1 == --indexes ]] && file=$2
    shift
done
[[ $(head -c 3 "$file" | od -An -tx1) == " ef bb bf" ]] && { echo "index file: line 1" >&2; exit 2; }
grep -q bad "$file" && { echo "index file: line 3" >&2; exit 2; }
read -r line && cat "$file"
exit 0
"""


class Marks(Runs):
    def setUp(self):
        super().setUp()
        self.prove()
        (self.top / "crates" / "ds_server" / "out" / "ds_server").write_text(SHOWS)

    def served(self, content, **more):
        (self.top / "index.yaml").write_bytes(content)
        return self.run_with("--indexes", "index.yaml", **more)

    def test_a_mark_is_left_out(self):
        for content in (FILE, MARK + FILE):
            for more in ({}, {"LC_ALL": "C"}, {"LC_ALL": "C.UTF-8"}):
                out, status, errors = self.served(content, **more)
                self.assertEqual((out, status, errors), (FILE.decode().strip(), 0, ""))
        self.assertEqual(list(pathlib.Path(self.top).glob("tmp.*")), [])

    def test_files_of_few_bytes(self):
        for content, shown in ((b"", ""), (b"a", "a"), (MARK, "")):
            out, status, _ = self.served(content)
            self.assertEqual((out, status), (shown, 0), content)

    def test_a_fault_behind_a_mark_is_told_at_its_line(self):
        out, status, errors = self.served(MARK + FILE.replace(b"properties", b"bad"))
        self.assertEqual((out, status), ("", 2))
        self.assertIn("index.yaml, line 3: bad:", errors)

    def test_without_a_folder_for_copies(self):
        _, status, errors = self.served(MARK + FILE, TMPDIR=str(self.top / "nowhere"))
        self.assertEqual(status, 5)
        self.assertIn("no copy of 'index.yaml' without its byte order mark can be made; save the file without the mark", errors)
        self.assertEqual(self.served(FILE, TMPDIR=str(self.top / "nowhere"))[1], 0)


if __name__ == "__main__":
    unittest.main()
