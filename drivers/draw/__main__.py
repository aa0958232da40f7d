"""Draws a run as a page: `./run --draw LINES [REPLIES] [--verdict FILE] [--title TEXT] [WORDS] > run.html`."""
import argparse
import gc
import json
import os
import re
import sys

import keys
from asked import number, read_json
from journal import Run
from page import page
from picture import Picture

WRONG_WORDS, FILE_FAULT = 95, 5


class Parser(argparse.ArgumentParser):
    """Tells what is wrong with the arguments, and ends with the status that `run` has for it."""

    def error(self, message):
        self.exit(WRONG_WORDS, f"draw: {message}\n{self.format_usage()}")


def arguments():
    parser = Parser("./run --draw", allow_abbrev=False, description="Writes a page that shows a run to standard output.")
    parser.add_argument("lines", metavar="LINES", help="the file of the requests")
    parser.add_argument("replies", metavar="REPLIES", nargs="?", help="the file of their replies; of run.jsonl it is run.replies, as the driver's log has it, if it isn't given")
    parser.add_argument("--verdict", metavar="FILE", help='what an auditor says: "legal", "not legal: line N", or the JSON {"verdict":"not legal","line":N,"expected":REPLY}')
    parser.add_argument("--title", metavar="TEXT", help="what stands above the page; the name of LINES if it isn't given")
    parser.add_argument("--about", metavar="FILE", help='JSON on a run of a test: {"sites":{"7":"test_task.py:5"},"namespace":NAME,"tests":[{"line":3,"name":NAME,"namespace":NAME}],"after":ROUNDS}: which place in its source asked each line, a namespace that the page doesn\'t name, and where each test begins; of run.jsonl it is run.about, if that is there')
    parser.add_argument("--shards", metavar="N", type=int, choices=range(1, 17), help="how many shards there were, 1 to 16; told by the replies if it isn't given")
    parser.add_argument("--after", metavar="N", type=int, choices=range(1, 10_000), help="behind how many rounds a second index file served, 1 to 9999: the page has a line there")
    for other in ("--indexes", "--next", "--appliers", "--window"):
        parser.add_argument(other, metavar="V", help="taken as the server takes it, and not needed")
    return parser.parse_args()


def content_of(name):
    try:
        with open(name, "rb") as file:
            return file.read()
    except OSError as error:
        print(f"draw: {name} can't be read: {error.strerror}", file=sys.stderr)
        sys.exit(FILE_FAULT)


def verdict_of(name):
    """A verdict as {"verdict": text, "line": number or None, "expected": what the reply should have been as a text, or None}. Of a text that isn't
    JSON it is the first line: behind it ./run --audit prints the line and its reply."""
    text = content_of(name).decode("utf-8", "replace").strip()
    said = read_json(text) or {"verdict": text.partition("\n")[0]}
    found = re.fullmatch(r"(legal)|not legal(?:: (?:line ([0-9]{1,15})|count|numbers|ids))?", str(said.get("verdict")))
    if not found:
        print(f'{name}: the verdict is neither "legal" nor "not legal"', file=sys.stderr)
        sys.exit(FILE_FAULT)
    expected = said.get("expected")
    expected = expected if expected is None or isinstance(expected, str) else json.dumps(expected, ensure_ascii=False)
    return {"verdict": found[0], "line": int(found[2]) if found[2] else number(said.get("line"), 1, 2**53), "expected": expected}


def tests_of(given):
    """The tests of a run as (first line, name, namespace); what is none is passed over."""
    found = [(number(it.get("line"), 1, 2**53), it.get("name"), it.get("namespace")) for it in given if isinstance(it, dict)] if isinstance(given, list) else []
    return [it for it in found if it[0] and isinstance(it[1], str) and isinstance(it[2], str)]


def main():
    words = arguments()
    gc.disable()  # nothing that is made here is given up before the end
    lines, replies = content_of(words.lines), content_of(words.replies or os.path.splitext(words.lines)[0] + ".replies")
    verdict = verdict_of(words.verdict) if words.verdict else None
    beside = os.path.splitext(words.lines)[0] + ".about"
    about_file = words.about or (beside if os.path.isfile(beside) else None)
    about = read_json(content_of(about_file).decode("utf-8", "replace")) if about_file else {}
    tests = tests_of(about.get("tests"))
    keys.hide([about.get("namespace"), *(namespace for _, _, namespace in tests)])
    after = words.after or number(about.get("after"), 1, 9_999)
    made = page({"title": words.title or os.path.basename(words.lines), "verdict": verdict, **Picture(Run(lines, replies, words.shards), about.get("sites"), tests, after).data()})
    try:
        print(made, end="", flush=True)
    except BrokenPipeError:
        os.dup2(os.open(os.devnull, os.O_WRONLY), sys.stdout.fileno())


if __name__ == "__main__":
    main()
