"""The lines of each examples/NAME.jsonl have the replies of NAME.expected, byte for byte.

The words are those of NAME.words, or those that ./run gives; NAME.yaml, where it is there, lies under the name index.yaml in the folder that the server
runs in.
"""
import os
import pathlib
import subprocess
import tempfile

from tests.case import EXAMPLES, TOP, Case, auditor, example, example_index, example_words, load_program, run


class Examples(Case):
    maxDiff = 4000

    def test_replies(self):
        for lines in sorted(EXAMPLES.glob("*.jsonl")):
            self.tried += 1
            with self.subTest(lines.stem):
                ran = run(example(lines.stem), example_words(lines.stem), example_index(lines.stem))
                self.assertEqual(ran.output.decode(), lines.with_suffix(".expected").read_text(encoding="utf-8"))
                self.assertEqual((ran.status, ran.errors), (0, ""))


class Run(Case):
    """`./run` itself and its tools, by the programs that are in use."""

    def ran(self, *words, text=b""):
        ran = subprocess.run([TOP / "run", *words], input=text, capture_output=True, env={**os.environ, "TORFYLLAN_AUDIT": auditor(), "TORFYLLAN_FILL": load_program()})
        return ran.returncode, ran.stdout.decode()

    def test_it_serves(self):
        if not list((TOP / "crates" / "ds_server" / "out").glob("*.built-from")):
            self.skipTest("no built server: TORFYLLAN names another")
        self.expect("./run < examples/first.jsonl", self.ran(text=example("first")), (0, (EXAMPLES / "first.expected").read_text(encoding="utf-8")))

    def test_it_audits(self):
        lines, replies = EXAMPLES / "first.jsonl", EXAMPLES / "first.expected"
        self.expect("./run --audit", self.ran("--audit", lines, replies), (0, "legal\n"))
        told = [line for line in lines.read_text(encoding="utf-8").splitlines()]
        with tempfile.TemporaryDirectory() as folder:
            changed = pathlib.Path(folder, "replies")
            changed.write_text(replies.read_text(encoding="utf-8").replace('"n":5', '"n":6'), encoding="utf-8")
            wrong = changed.read_text(encoding="utf-8").splitlines()[2]
            self.expect("./run --audit of a changed reply", self.ran("--audit", lines, changed), (7, f"not legal: line 3\nline  {told[2]}\nreply {wrong}\n"))

    def test_it_serves_a_load(self):
        self.expect("./run --fill 24", self.ran("--fill", "24"), (0, "items 24\nmatches 1\nlast 23\n"))
