"""Tests of the line across a page where the second index file of a run begins to serve.

    python3 drivers/draw/test_cut_page.py
"""
import json
import pathlib
import re
import subprocess
import sys
import tempfile
import unittest

HERE = pathlib.Path(__file__).resolve().parent
sys.path[:0] = [str(HERE)]
from journal import Run
from picture import Picture
from test_draw import CHROMIUM, Browser

FOLDER = HERE.parents[1] / "examples" / "reindex"
LABEL = "From here on the second index file serves"
NAME, ROUNDS = "transactions_go_on", 8


def run_of(name=NAME):
    return Run((FOLDER / f"{name}.jsonl").read_bytes(), (FOLDER / f"{name}.expected").read_bytes())


def rows_of(data):
    return [(data["ops"][op], line) for op, line in zip(data["columns"]["op"], data["columns"]["line"])]


class Cut(unittest.TestCase):
    def test_the_line_stands_before_the_first_later_round(self):
        for after, line in ((1, 9), (ROUNDS, 35), (10, 39)):
            data = Picture(run_of(), after=after).data()
            rows = rows_of(data)
            at = rows.index(("cut", line))
            self.assertEqual(rows[at + 1][1], line)
            self.assertTrue(all(number < line for _, number in rows[:at]) and all(number >= line for _, number in rows[at:]))
            self.assertEqual(data["columns"]["label"][at], LABEL)
        for after in (None, 11, 9_999):
            self.assertNotIn("cut", [op for op, _ in rows_of(Picture(run_of(), after=after).data())])

    def test_all_that_was_committed_is_applied_there(self):
        data = Picture(run_of(), after=ROUNDS).data()
        at = rows_of(data).index(("cut", 35))
        self.assertEqual(dict(map(tuple, ((row, tuple(counts)) for row, counts in data["counts"])))[at], (3, 1))
        self.assertEqual(sum(map(len, data["entries"])), 6, "commits behind it don't count")

    def test_it_stands_above_the_name_of_a_test_that_begins_there(self):
        rows = [op for op, _ in rows_of(Picture(run_of(), tests=[(35, "test_it", "")], after=ROUNDS).data())]
        at = rows.index("cut")
        self.assertEqual(rows[at : at + 3], ["cut", "test", "commit"])

    def test_lines_that_only_end_rounds_are_not_drawn(self):
        lines = b'{"op":"settle"}\n\n{"op":"end_round"}\n\n{"op":"end_round"}\n\n{"op":"end_round"}\n\n{"op":"settle"}\n\n'
        replies = b'{"applied":[0],"client":0,"line":1,"ok":"settle","place":0}\n'
        replies += b"".join(b'{"client":0,"error":3,"field":"op","line":%d,"name":"BadRequest"}\n' % line for line in (3, 5, 7))
        replies += b'{"applied":[0],"client":0,"line":9,"ok":"settle","place":0}\n'
        data = Picture(Run(lines, replies), after=3).data()
        self.assertEqual(rows_of(data), [("settle", 1), ("cut", 9), ("settle", 9)])
        self.assertEqual(data["notes"], ["3 lines that ask nothing and end rounds aren't drawn."])
        self.assertEqual(len(rows_of(Picture(Run(lines, replies)).data())), 5, "of a run with one index file they are lines as others")

    def test_the_words(self):
        with tempfile.TemporaryDirectory() as name:
            folder = pathlib.Path(name)
            (folder / "run.jsonl").write_bytes((FOLDER / f"{NAME}.jsonl").read_bytes())
            (folder / "run.replies").write_bytes((FOLDER / f"{NAME}.expected").read_bytes())
            for words, about, drawn in ((["--next", "next.yaml", "--after", "8"], None, True), ([], {"after": 8}, True), ([], {"after": "8"}, False), ([], None, False), (["--after", "0"], None, None)):
                (folder / "run.about").write_text(json.dumps(about or {}))
                ran = subprocess.run([sys.executable, HERE, folder / "run.jsonl", *words], capture_output=True, text=True)
                self.assertEqual((ran.returncode, LABEL in ran.stdout), (95, False) if drawn is None else (0, drawn), ran.stderr)


@unittest.skipUnless(CHROMIUM, "there is no chromium")
class InBrowser(unittest.TestCase):
    def test_the_line_is_drawn_and_told(self):
        with tempfile.TemporaryDirectory() as name:
            file, browser = pathlib.Path(name, "run.html"), Browser()
            self.addCleanup(browser.close)
            words = [FOLDER / f"{NAME}.jsonl", FOLDER / f"{NAME}.expected", "--shards", "2", "--after", str(ROUNDS)]
            file.write_bytes(subprocess.run([sys.executable, HERE, *words], capture_output=True, check=True).stdout)
            for wide in (500, 1400):
                browser.size(wide, 2600 if wide < 600 else 1400)
                browser.open(file)
                self.assertEqual(browser.faults(), [])
                row = browser.run("col.op.findIndex((_, row) => isCut(row))")
                count = len(run_of().lines)
                self.assertEqual(browser.run("ROWS - 1"), count, "a row beside those of the lines")
                self.assertIn(f"{count} lines", re.sub(r"\s+", " ", browser.run("byId('summary').innerText")))
                across = browser.run(f"""(() => {{
                    const scale = canvas.width / at.width, y = Math.round((rowY({row}) + H / 2 - 3) * scale), points = pen.getImageData(0, y, canvas.width, 1).data;
                    const wanted = ink.accent.match(/[0-9a-f]{{2}}/g).map(it => parseInt(it, 16));
                    let count = 0;
                    for (let i = 0; i < points.length; i += 4) if (wanted.every((it, at) => Math.abs(points[i + at] - it) < 30)) count++;
                    return count / canvas.width;
                }})()""")
                self.assertGreater(across, 0.25, "a line across")
                browser.run(f"choose({row})")
                panel = browser.run("byId('panel').innerText")
                self.assertIn(LABEL, panel)
                self.assertIn("before line 35", panel.lower())


if __name__ == "__main__":
    unittest.main()
