"""Tests of what reads a kept file: its batches, where it is damaged, and which lines are those of commits.

    python3 drivers/python/test_kept_file.py
"""
import io
import os
import pathlib
import random
import re
import tempfile
import unittest

from kept_text import FIRST, LAST, ONE, RIGHT, T, THREE, WHOLE, WRONG, batch, delete, kept, line, put
from torfyllan import KeptFileError, dump_kept
from torfyllan.kept import KeptFile
from torfyllan.kept_lines import commit_in

SEED = int(os.environ.get("SEED", "46"))


def read(content):
    """Commits, counter, place, and whether it is damaged."""
    file = KeptFile(content)
    for _ in file.batches():
        pass
    return file.commits, file.next, file.place, file.damaged


class Files(unittest.TestCase):
    def test_files_without_a_batch(self):
        for content, damaged in ((b"", False), (b"\x01", False), (b"\x00", False), (b"\x00\x01\x01", False), (b"\x02\x01", False), (b"\x01\x00", True), (b"\x01\x01", True)):
            with self.subTest(content=content):
                self.assertEqual(read(content), (0, FIRST, 0, damaged))

    def test_a_file_cut_at_each_byte(self):
        """Three commits in one batch, alone and behind another one: all three or none, and damaged where some of the batch is there."""
        self.assertEqual(read(WHOLE), (3, FIRST + 1, len(WHOLE) - 1, False))
        front = batch([line(1, [])])
        behind = front + batch([ONE.replace('"commit":1', '"commit":2')])
        for cut in range(len(WHOLE)):
            self.assertEqual(read(WHOLE[:cut]), (0, FIRST, 0, cut > 1), cut)
        for cut in range(len(front), len(behind) + 1):
            self.assertEqual(read(behind[:cut]), (1 if cut > len(front) else 0, FIRST, len(front) if cut > len(front) else 0, cut != len(front) + 1), cut)
        self.assertEqual(read(behind + b"\x00"), (2, FIRST, len(behind), False))
        self.assertEqual(read(behind + b"\x01"), (2, FIRST, len(behind), False))
        self.assertEqual(read(behind + b"\x00" + WHOLE), (2, FIRST, len(behind), False))

    def test_the_line_that_the_design_shows(self):
        pages = pathlib.Path(__file__).resolve().parents[2] / "docs" / "design.md"
        shown = re.findall(r'^ {4}(\{"client":.*"writes":.*)$', pages.read_text(encoding="utf-8"), re.M)
        self.assertEqual(len(shown), 1)
        commit = commit_in(shown[0].encode(), 1)
        self.assertEqual(commit and (commit.touched, commit.writes), ([[[["T", "a"]], 0]], [put([["T", "a"]]), delete([["T", "b"]])]))

    def test_batches_that_may_not_follow(self):
        front = batch([ONE], FIRST + 5)
        two = line(2, [put([["T", FIRST + 6]])])
        for what, wrong in (
            ("no counter", batch([two], head="")),
            ("a counter that isn't the first line", batch([two], head=two)),
            ("a counter with a space", batch([], head='{"next": 4503599627370501}')),
            ("a counter with a zero in front", batch([], head='{"next":04503599627370501}')),
            ("a counter that falls", batch([], FIRST + 4)),
            ("a counter too great", batch([], LAST + 1)),
            ("no newline at all", b"\x01" + (27).to_bytes(8, "big") + b'{"next":4503599627370501}  '),
            ("a last line without its newline", batch([])[:8] + b"\x1e" + b'{"next":4503599627370501}\n{}{}'),
            ("an empty line", batch([""], FIRST + 5)),
            ("a commit number left out", batch([line(3, [])], FIRST + 5)),
            ("a commit number again", batch([line(1, [])], FIRST + 5)),
            ("an id that isn't drawn", batch([two], FIRST + 6)),
            ("an id in the middle that isn't drawn", batch([line(2, [delete([["T", FIRST + 6], ["U", 1]])])], FIRST + 6)),
            ("a place that is its own number", batch([line(2, [], touched=[[T, 2]])], FIRST + 5)),
            ("a conflict", batch([line(2, [], touched=[[T, 0]])], FIRST + 5)),
            ("a conflict within the batch", batch([line(2, [put([["V", 1]])]), line(3, [], touched=[[[["V", 1]], 1]])], FIRST + 5)),
            ("a length with one byte more", b"\x01" + (len(batch([], FIRST + 5)) - 8).to_bytes(8, "big") + batch([], FIRST + 5)[9:]),
        ):
            with self.subTest(what):
                self.assertEqual(read(kept(front, wrong)), (1, FIRST + 5, len(front), True))
        for what, right, commits, next_id in (
            ("no commit", batch([], FIRST + 5), 1, FIRST + 5),
            ("the greatest counter", batch([], LAST), 1, LAST),
            ("an id that is drawn in it", batch([two], FIRST + 7), 2, FIRST + 7),
            ("a touched group of another namespace", batch([line(2, [], touched=[[["n", *T], 0]])], FIRST + 5), 2, FIRST + 5),
            ("a touched key below a root, which is no group", batch([line(2, [], touched=[[[*T, ["U", 1]], 0]])], FIRST + 5), 2, FIRST + 5),
        ):
            with self.subTest(what):
                self.assertEqual(read(kept(front, right)), (commits, next_id, len(front) + len(right), False))

    def test_lines(self):
        for what, text in RIGHT:
            with self.subTest(what):
                self.assertIsNotNone(commit_in(text.encode(), 1))
        for what, text in WRONG:
            with self.subTest(what):
                self.assertIsNone(commit_in(text.encode("utf-8", "surrogatepass"), 1))
        self.assertIsNone(commit_in(b'{"client":0,"commit":1,"touched":[],"writes":[{"delete":[["T","\xff"]]}]}', 1))

    def test_random_bytes(self):
        """Whatever is in a file, it is read to its end or to a damage that isn't behind the whole batches in front."""
        print(f"seed {SEED}")
        draw = random.Random(SEED)
        for _ in range(300):
            content = bytearray(WHOLE if draw.random() < 0.8 else draw.randbytes(draw.randrange(200)))
            for _ in range(draw.randrange(1, 4)):
                if content:
                    content[draw.randrange(len(content))] = draw.choice((0, 1, 10, 34, draw.randrange(256)))
            commits, _, place, damaged = read(bytes(content))
            self.assertTrue(commits in (0, 3) and place <= len(content) and (not damaged or content[place] == 1), bytes(content))

    def test_its_entities(self):
        file = KeptFile(WHOLE)
        self.assertEqual(sorted(map(str, file.entities())), ["('', 'T', 'a')", "('', 'T', 'a', 'U', 1)", f"('', 'T', {FIRST})"])
        self.assertEqual((file.commits, KeptFile(WHOLE, trusting=True).entities(), KeptFile(WHOLE, trusting=True).count_entities()), (3, file.entities(), 3))

    def test_a_dump(self):
        with tempfile.TemporaryDirectory() as folder:
            name = os.path.join(folder, "data.kept")

            def dumped(content, **words):
                with open(name, "wb") as file:
                    file.write(content)
                lines = io.StringIO()
                return dump_kept(name, lines, **words), lines.getvalue()

            content = kept(batch([line(1, [put([["T", 2]], b=1, a={"key": ["n", ["T", 1]]}), put([["T", 10]]), put([["S", "x"]]), put(["n", ["T", 1]], k={"key": ["n", ["T", 1]]})])]))
            two = '{"key":[["T",2]],"properties":{"a":{"key":["n",["T",1]]},"b":1}}\n{"key":[["T",10]],"properties":{}}\n'
            self.assertEqual(dumped(content, kind="T"), (2, two))
            self.assertEqual(dumped(content), (3, '{"key":[["S","x"]],"properties":{}}\n' + two))
            self.assertEqual(dumped(content, namespace="n"), (1, '{"key":[["T",1]],"properties":{"k":{"key":[["T",1]]}}}\n'))
            self.assertEqual(dumped(b""), (0, ""))
            with self.assertRaisesRegex(KeptFileError, f"damaged at byte {len(content) - 1}, and unchanged: ./run --kept-journal") as caught:
                dumped(content[:-1] + b"\x01\x00")
            self.assertEqual((caught.exception.status, caught.exception.place), (9, len(content) - 1))
            with self.assertRaises(FileNotFoundError):
                dump_kept(name + "x", io.StringIO())


if __name__ == "__main__":
    unittest.main()
