#!/usr/bin/env python3
"""Makes the tables of members in docs/python.md from those that the façades have.

    python3 drivers/python/member_tables.py            writes them into the pages
    python3 drivers/python/member_tables.py --check    fails where a page's table is stale

In a page of docs/, the table of a façade stands between `<!-- members: NAME -->` and `<!-- end of members -->`.
"""
import importlib
import os
import pathlib
import re
import sys

HERE = os.path.dirname(os.path.abspath(__file__))
sys.path.insert(0, HERE)
from torfyllan.members import page_table

DOCS = pathlib.Path(HERE).parents[1] / "docs"
MARKED = re.compile(r"^(<!-- members: (\w+) -->\n).*?^(<!-- end of members -->\n)", re.M | re.S)


def with_tables(text):
    """The page with the tables as they are to be, and the names of those that it has."""
    names = []

    def made(found):
        names.append(found.group(2))
        table = importlib.import_module(f"torfyllan.{found.group(2)}.members").TABLE
        return f"{found.group(1)}{page_table(table)}{found.group(3)}"

    return MARKED.sub(made, text), names


def main(words, docs=DOCS):
    """Checks or writes the pages; gives the status."""
    if words not in ([], ["--check"]):
        print("usage: member_tables.py [--check]", file=sys.stderr)
        return 2
    stale, found = [], []
    for page in sorted(docs.glob("*.md")):
        text = page.read_text(encoding="utf-8")
        made, names = with_tables(text)
        found += names
        if made == text:
            continue
        stale.append(page.name)
        if not words:
            page.write_text(made, encoding="utf-8")
    if words and stale:
        print(f"the tables of members in {', '.join(stale)} are stale: run python3 drivers/python/member_tables.py")
    if not found:
        print("no page has a table of members: its place is marked by <!-- members: cloud --> and <!-- end of members -->")
    return 1 if (words and stale) or not found else 0


if __name__ == "__main__":
    sys.exit(main(sys.argv[1:]))
