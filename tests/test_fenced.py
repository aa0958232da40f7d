"""The fenced examples of README.md and of each page of docs/: what a block is answered is the block behind it.

    python3 -m tests.test_fenced --fill     writes what is answered into the pages, for whoever changes an example and reads it through

What a block is, its first word says:

    requests WORDS    lines for the server, with these words; `replies` behind it has what it answers, byte for byte
    python            a program with the driver, and a server where it makes none; `printed` behind it has what it prints
    sh                commands of bash in a folder where `run` is the repository's; `printed` behind it has what they print
    pytest WORDS      a file of tests, test_task.py, that pytest is given with these words; each line of the block `told`, which comes behind it with
                      words of the page between, is a line of what pytest prints, in this order
    a file's name     that file, which lies beside the examples behind it, up to the end of the section

The table of refusals has the numbers and names of the definition that the main theorem speaks of.
"""
import os
import pathlib
import re
import subprocess
import sys
import tempfile
import textwrap

from tests.case import TOP, Case, auditor, keeper, load_program, reindexer, run, server, with_defaults

sys.path.insert(0, str(TOP / "drivers" / "python"))
from by_pytest import PYTHON

PAGES = [TOP / "README.md", TOP / "CONTRIBUTING.md", *sorted((TOP / "docs").glob("*.md"))]
FENCE = re.compile(r"^```([^\n]*)\n(.*?)^```\n", re.M | re.S)
SECTION = re.compile(r"^## ", re.M)
ANSWERS = {"requests": "replies", "python": "printed", "sh": "printed", "pytest": "told"}
FILE = re.compile(r"[\w.]+\.\w+")
REFUSALS = TOP / "crates" / "ds_reply" / "specs" / "Refusals.antt"
DEFINED = re.compile(r'refused (\d+) \(codes "(\w+)"\)')
TABLE = re.compile(r"^\| Number \| Name \| Where \|\n\|[-|]+\|\n((?:\|.*\n)+)", re.M)


class Example:
    """A block, the one with what it is answered, and the files that lie beside it."""

    def __init__(self, page, block, behind, files):
        self.form, _, words = block.group(1).partition(" ")
        self.page, self.text, self.behind, self.words, self.files = page, block.group(2), behind, words.split(), dict(files)

    @property
    def place(self):
        return f"{self.page.name}: {self.text[:200]}"

    def answered(self):
        """What it is answered, and the status."""
        if self.form == "requests":
            ran = run(self.text.encode(), with_defaults(self.words), files=self.files)
            return ran.output.decode() + ran.errors, ran.status
        if self.form == "sh":
            return self.ran(["bash", "-c", self.text])
        if self.form == "pytest":
            self.files["test_task.py"] = self.text
            return self.ran([PYTHON, "-m", "pytest", "-p", "torfyllan.pytest_plugin", "-p", "no:cacheprovider", "-q", *self.words])
        code = self.text
        if "Server(" not in code and "testbed" not in code:
            code = f"from torfyllan import *\nserver = Server().start()\ntry:\n{textwrap.indent(code, '    ')}finally:\n    server.kill()\n"
        return self.ran([sys.executable, "-c", code])

    def ran(self, command):
        with tempfile.TemporaryDirectory(prefix="fenced-") as folder:
            for name, text in self.files.items():
                pathlib.Path(folder, name).write_text(text, encoding="utf-8")
            os.symlink(TOP / "run", os.path.join(folder, "run"))
            words = {"TORFYLLAN": server(), "PYTHONPATH": str(TOP / "drivers" / "python"), "PYTHONDONTWRITEBYTECODE": "1", "TMPDIR": folder}
            if "audit" in self.text or "audit" in "".join(self.files.values()):
                words["TORFYLLAN_AUDIT"] = auditor()
            if "kept" in self.text:
                words["TORFYLLAN_KEPT"] = keeper()
            if "next_indexes" in self.text:
                words["TORFYLLAN_REINDEX"] = reindexer()
            if "--fill" in self.text:
                words["TORFYLLAN_FILL"] = load_program()
            ran = subprocess.run(command, stdout=subprocess.PIPE, stderr=subprocess.STDOUT, text=True, cwd=folder, env={**os.environ, **words}, timeout=600)
            return ran.stdout, ran.returncode


def examples(page):
    """The examples of a page; a ValueError tells of a block that is none, or has no answer."""
    text = page.read_text(encoding="utf-8")
    sections = [it.start() for it in SECTION.finditer(FENCE.sub(lambda block: "\n" * len(block.group()), text))]
    blocks, files, ended = list(FENCE.finditer(text)), {}, 0
    for at, block in enumerate(blocks):
        if any(ended <= start < block.start() for start in sections):
            files = {}
        ended = block.end()
        form = block.group(1).partition(" ")[0]
        if form in ANSWERS:
            behind = blocks[at + 1] if at + 1 < len(blocks) else None
            if behind is None or behind.group(1) != ANSWERS[form]:
                raise ValueError(f"{page.name}: the block {block.group(2)[:80]!r} has no {ANSWERS[form]} behind it")
            yield Example(page, block, behind, files)
        elif FILE.fullmatch(form):
            files[form] = block.group(2)
        elif form not in ANSWERS.values() or not at or ANSWERS.get(blocks[at - 1].group(1).partition(" ")[0]) != form:
            raise ValueError(f"{page.name}: the block {block.group(2)[:80]!r} is no example: {form!r}")


def untold(told, said):
    """The first of these lines that isn't there, behind the one before it; None where all are. Rules beside a title, and times behind a count, don't count."""
    plain = lambda line: line.strip("=-_ ")
    lines = iter([plain(line) for line in said.splitlines()])
    return next((line for line in told.splitlines() if not any(plain(line) == other or other.startswith(f"{plain(line)} in ") for other in lines)), None)


def all_examples():
    return [example for page in PAGES for example in examples(page)]


class Fenced(Case):
    maxDiff = 4000

    def test_examples(self):
        for example in all_examples():
            if example.form != "pytest":
                self.tried += 1
                with self.subTest(example.place):
                    self.assertEqual(example.answered(), (example.behind.group(2), 0))

    def test_examples_of_pytest(self):
        if PYTHON is None:
            self.skipTest("there is no pytest")
        for example in all_examples():
            if example.form == "pytest":
                self.tried += 1
                with self.subTest(example.place):
                    said, status = example.answered()
                    self.assertIn(status, (0, 1), said)
                    self.assertIsNone(untold(example.behind.group(2), said), said)

    def test_what_is_no_example(self):
        """A block of another form, one without an answer, one whose answer is otherwise, and lines that aren't told in their order."""
        self.tried += 1
        with tempfile.TemporaryDirectory() as folder:
            page = pathlib.Path(folder, "page.md")
            for text in ("```rust\nx\n```\n", "```python\nx\n```\n", "```python\nx\n```\n```replies\n```\n", "```printed\n```\n"):
                page.write_text(text, encoding="utf-8")
                with self.assertRaises(ValueError):
                    list(examples(page))
            page.write_text("```a.yaml\nx\n```\n## B\n```python\nprint(1)\n```\n```printed\n2\n```\n", encoding="utf-8")
            (example,) = examples(page)
            self.assertEqual((example.files, example.answered()), ({}, ("1\n", 0)))
        self.assertEqual((untold("a\nb\n", "a\nc\nb\n"), untold("b\na\n", "a\nb\n"), untold("1 passed\n", "1 passed in 2s")), (None, "a", None))

    def test_refusals(self):
        defined = DEFINED.findall(REFUSALS.read_text(encoding="utf-8"))
        table = TABLE.search((TOP / "docs" / "protocol.md").read_text(encoding="utf-8"))
        told = [tuple(cell.strip() for cell in row.split("|")[1:3]) for row in table.group(1).splitlines()] if table else []
        self.tried += len(defined)
        self.assertEqual(told, defined)


def fill(page):
    """Writes into a page what its examples are answered, but for those of pytest, of which some lines are chosen."""
    text, pieces, done = page.read_text(encoding="utf-8"), [], 0
    for example in examples(page):
        if example.form == "pytest":
            continue
        answer, status = example.answered()
        if status:
            sys.exit(f"an example of {page.name} ended with status {status}:\n{example.text}answered\n{answer}")
        pieces += [text[done : example.behind.start(2)], answer]
        done = example.behind.end(2)
    page.write_text("".join([*pieces, text[done:]]), encoding="utf-8")


if __name__ == "__main__":
    if sys.argv[1:] != ["--fill"]:
        sys.exit(__doc__)
    for each in PAGES:
        fill(each)
