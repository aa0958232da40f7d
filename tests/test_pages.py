"""The pages, README.md and docs/*.md, against the sources: each fault is told with its page and line, and wrong citations of each form are refused.

What is checked:

- a link leads to a file that is there, and behind `#` to a heading of it;
- a crate is one of crates.txt, or one that is planned and isn't there;
- a path is a file or folder, where the endings .rt and .antt may be left out; `specs/X` in a section that is headed by a crate is that crate's;
- of `ds_x::f`, `f` is defined in the crate `ds_x`;
- `f` (`a`, `b`) cites the clauses a and b of a function f, or the laws a and b of a file f of specs or proofs; so does `a` of `f`, led by "clause",
  and `ds_x/specs/F` (`a`) the definition a of that file;
- a name in a section that is headed by a crate is defined there or in a crate that it uses, and any other name stands somewhere in the sources,
  but for those of a section that is headed "What isn't there";
- the table of crates in docs/design.md has the crates of crates.txt in their order, and so have the sections of docs/promises.md, without those of
  which nothing is weak;
- docs/promises.md tells how many mutants there are, in how many crates, and CONTRIBUTING.md lists each file of tests once;
- numbers that docs/protocol.md shares with ds_base/specs/Limits, and those that pages share with other sources, are those that stand there, and the statuses that `./run --help` tells are those
  of docs/protocol.md and docs/tools.md; the minutes of the gate that README.md tells are within a twentieth of those of drivers/build/times;
- a definition that a page prints, behind From `ds_x/specs/F`:, stands in that file, but for `pub` and the universe;
- a line of prose has one sentence, the glossary has at most 15 terms, and each page has at most its number of words, beside what is made from tables.
"""
import glob
import os
import re

from tests import case

TOP = str(case.TOP)
DESIGN, THEOREM, PROMISES, PROTOCOL = "docs/design.md", "docs/theorem.md", "docs/promises.md", "docs/protocol.md"
# How many words each page may have. A page that isn't here is a fault.
MOST_WORDS = {
    "README.md": 1_000, "CHANGELOG.md": 1_000, "CONTRIBUTING.md": 1_500, "docs/python.md": 4_500, PROTOCOL: 3_500, "docs/tools.md": 1_500, DESIGN: 3_000,
    THEOREM: 2_500, PROMISES: 2_500, "docs/DECISIONS.md": 2_800, "docs/measurements.md": 1_000,
}
MOST_TERMS = 15
LIMITS = "crates/ds_base/specs/Limits.antt"
# What stands before a number of docs/protocol.md, and what the number is there.
NUMBERS = [
    ("| bytes of a line |", "most_line_bytes"), ("| lines of a round |", "most_round_lines"), ("or those up to the", "most_round_bytes"),
    ("| bytes of the input |", "most_input_bytes"), ("each numbered from 0 to", "greatest_client"), ("| elements of a key |", "most_elements"),
    ("| an id, from 1 on |", "greatest_id"), ("The server draws ids from", "first_drawn_id"), ("| bytes of a kind or a key's name, from 1 on |", "most_name_bytes"),
    ("| bytes of a property's name or an indexed text |", "most_name_bytes"), ("| bytes of a namespace |", "most_namespace_bytes"),
    ("| an entity's size |", "greatest_entity_size"), ("| its index rows |", "most_index_rows"), ("| definitions of an index file |", "most_definitions"),
    ("| bytes of an index file |", "most_file_bytes"), ("| queries that `in` and `!=` stand for |", "most_branches"), ("| an `offset` or `limit` |", "most_results"),
    ("| groups of a transaction | 1, with `xg`", "most_groups"), ("with `\"xg\":true` up to", "most_groups"), ("| writes of a transaction |", "most_writes"),
    ("| commits |", "most_commits"), ('| `{"rating":n}` | 0 to', "greatest_rating"), ("`--shards` is 1 to", "most_shards"), ("`--appliers` 0 to", "most_appliers"),
    ("`--window` 1 to", "greatest_window"),
]
NUMBER = re.compile(r"2\^(?P<power>\d+)(?P<less> - 1)?|(?P<plain>\d[\d,_]*)")
# Numbers that other pages share with a source: the page, what stands before the number there, the source, and what stands before it in that.
SHARED = [
    ("docs/python.md", "or with `xg=True` up to", LIMITS, "most_groups ="), ("docs/python.md", "with more than", "crates/ds_session_reads/specs/Wide.antt", "most_scanned_by_one ="),
    ("docs/DECISIONS.md", "where its pass has seen more than", "crates/ds_session_reads/specs/Wide.antt", "most_scanned_by_one ="),
    ("docs/DECISIONS.md", "**An applier takes up to", "crates/ds_store_running/src/applying.rt", "const MOST_AT_ONCE: u64 ="),
    ("docs/measurements.md", "ten queries of two equalities, fails above", "tests/test_limits.py", "LOAD_SECONDS, OVERWRITING_SECONDS, WIDE_SECONDS ="),
    (PROMISES, "with 200,000 commits within", "tests/test_kept.py", "SECONDS_TO_OPEN ="),
]
# Of these nothing is told: it is the greatest number that a refusal can tell.
UNTOLD = {"greatest_told"}
# Crates that pages speak of before they are there; one that is there has to go from this list, and the pages have to follow.
PLANNED = set()
# Names of the language, of std and of the kit that pages use.
KNOWN = set("Ok Err None Some true false yes no BTreeMap VecDeque HashSet fast_float".split())
GENERATED = re.compile(r"<!-- believed: made by tests/test_definitions\.py -->.*?<!-- end -->|<!-- members: \w+ -->.*?<!-- end of members -->", re.S)
FENCE = re.compile(r"^```.*?^```$", re.M | re.S)
INDENTED = re.compile(r"^    .*$", re.M)
SPAN = re.compile(r"`([^`\n]+)`")
LINK = re.compile(r"!?\[(?:[^\]`]|`[^`]*`)*\]\(([^)\s]+)\)")
NAME = r"[A-Za-z_][A-Za-z0-9_]*"
CITED = re.compile(rf"`((?:{NAME}::)*{NAME})` \(((?:`{NAME}`(?:, | and )?)+)\)")
DEFINED_IN = re.compile(rf"`(ds_\w+)/(?:specs|proofs)/([\w/]+)` \(((?:`{NAME}`(?:, | and )?)+)\)")
CLAUSE_OF = re.compile(rf"clauses? ((?:`{NAME}`(?:, | and )?)+) of `((?:{NAME}::)*{NAME})`")
PRINTED = re.compile(r"^From `(ds_\w+)/specs/(\w+)`:\n\n((?: {4}.*\n)+)", re.M)
MARKER = re.compile(r"^\s*(?:\d+\.|-) ")
TWO_SENTENCES = re.compile(r"[a-z0-9`)\"][.!?] [A-Z`\"\[]")


def read(path):
    with open(path, encoding="utf-8") as file:
        return file.read()


def blank(found):
    """As many lines as a match had, and nothing on them."""
    return "\n" * found.group().count("\n")


class Crate:
    """What is defined in a crate: names, each function's clauses, and the names in each file."""

    RUST = re.compile(rf"\b(?:fn|struct|enum|trait|type|const|mod|ghost|requires|ensures\*?) ({NAME})")
    TYPE = re.compile(r"^(?:pub(?:\(crate\))? )?(?:struct|enum) [^;{]*\{\n(.*?)^\}", re.M | re.S)
    PART = re.compile(rf"^    (?:pub(?:\(crate\))? )?({NAME})[:,({{ ]", re.M)
    LOGIC = re.compile(r"^(?!--|use |module )(?:abbrev |unfoldable )*(?:pub )?(?:record |data )?([^\s:({]+)|^\s+(?:pub )?([^\s:({]+) :", re.M)
    FUNCTION = re.compile(rf"^\s*(?:pub(?:\(crate\))? )?(?:const )?fn ({NAME})|^\s*ensures\*? ({NAME}) \{{|^\s*(?:pub )?(?:struct|impl)\b", re.M)

    def __init__(self, folder):
        self.names, self.clauses, self.files = set(), {}, {}
        for path in glob.glob(os.path.join(folder, "src", "**", "*.rt"), recursive=True):
            self.add_source(self.stem(path), read(path))
        for part in ("specs", "proofs"):
            for path in glob.glob(os.path.join(folder, part, "**", "*.antt"), recursive=True):
                found = {one or other for one, other in self.LOGIC.findall(read(path))}
                self.files.setdefault(self.stem(path), set()).update(found)
                if part == "specs" or os.path.dirname(path) == os.path.join(folder, part):
                    self.names |= found | {self.stem(path)}
        self.names |= {self.stem(path) for path in glob.glob(os.path.join(folder, "must-fail", "*.edit"))}

    @staticmethod
    def stem(path):
        return os.path.basename(path).rpartition(".")[0]

    def add_source(self, stem, text):
        self.names |= set(self.RUST.findall(text)) | {stem}
        for parts in self.TYPE.findall(text):
            self.names |= set(self.PART.findall(parts))
        function = None
        for name, clause in self.FUNCTION.findall(text):
            if name:
                function = self.clauses.setdefault(name, set())
            elif clause and function is not None:
                function.add(clause)
            else:
                function = None

    def cites(self, name, cited):
        """Whether these are clauses of a function of this name, or definitions in a file of this name."""
        return cited <= self.clauses.get(name, set()) or cited <= self.files.get(name, set())


class Sources:
    def __init__(self):
        listed = [line.partition("#")[0].partition(":") for line in read(os.path.join(TOP, "crates.txt")).splitlines()]
        self.listed = [name.split()[0] for name, colon, _ in listed if colon]
        self.uses = {name.split()[0]: uses.split() for name, colon, uses in listed if colon}
        self.crates = {os.path.basename(path): Crate(path) for path in sorted(glob.glob(os.path.join(TOP, "crates", "*")))}
        self.words, self.paths = set(KNOWN), set()
        for folder, inner, files in os.walk(TOP):
            inner[:] = [it for it in inner if it not in (".git", "out", "__pycache__", "docs")]
            for file in files:
                path = os.path.join(folder, file)
                if file == "README.md" and folder == TOP:
                    continue
                self.paths.add(os.path.relpath(path, TOP))
                if os.path.samefile(path, __file__):
                    continue
                self.words.add(file.rpartition(".")[0] or file)
                if os.path.getsize(path) < 1 << 20:
                    with open(path, encoding="utf-8", errors="replace") as text:
                        self.words.update(re.findall(NAME, text.read()))
        self.folders = {os.path.dirname(it) for it in self.paths} | {it.split("/")[0] for it in self.paths}

    def defined(self, crate):
        """The names that are defined in a crate and in those that it uses."""
        return set().union(*(self.crates[it].names for it in [crate, *self.uses.get(crate, [])] if it in self.crates))

    def is_path(self, path):
        """Whether a file or folder has this name, from the top or from crates, perhaps without its ending."""
        path = path.rstrip("/")
        for base in ("", "crates/"):
            if base + path in self.folders or any(base + path + ending in self.paths for ending in ("", ".rt", ".antt", ".edit", ".py")):
                return True
        return os.path.exists(os.path.join(TOP, path))


class Page:
    def __init__(self, path, text):
        self.path = path
        self.text = text
        self.prose = INDENTED.sub("", FENCE.sub(blank, GENERATED.sub(blank, text)))
        self.anchors = {self.anchor(head) for head in re.findall(r"^#+ (.*)$", FENCE.sub(blank, text), re.M)}
        self.lines = self.prose.split("\n")

    @staticmethod
    def anchor(head):
        return re.sub(r"[^\w\- ]", "", head.lower()).replace(" ", "-")

    @property
    def words(self):
        return len(GENERATED.sub("", self.text).split())


class Checked:
    def __init__(self, sources, pages):
        self.sources = sources
        self.pages = pages
        self.faults = []

    def fault(self, page, number, told):
        self.faults.append(f"{page.path}:{number}: {told}")

    def run(self, only=None):
        """The faults of all pages, or of this one and of what they are together."""
        for page in self.pages.values():
            if only not in (None, page.path):
                continue
            crate, absent = None, False
            for number, line in enumerate(page.lines, 1):
                if line.startswith("#"):
                    headed = SPAN.findall(line)
                    crate = headed[0] if headed and headed[0] in self.sources.crates else None
                    absent = line.endswith(" What isn't there")
                self.links(page, number, line)
                self.citations(page, number, line, crate)
                for span in [] if absent else SPAN.findall(line):
                    self.span(page, number, span, crate)
                if not line.startswith("|") and TWO_SENTENCES.search(MARKER.sub("", SPAN.sub("`x`", line))):
                    self.fault(page, number, "two sentences stand on one line")
            self.printed(page)
        self.glossary()
        self.table_of_crates()
        self.mutants()
        self.files_of_tests()
        self.numbers()
        self.statuses()
        self.minutes()
        for page in self.pages.values():
            most = MOST_WORDS.get(page.path, 0)
            if page.words > most:
                self.fault(page, 1, f"it has {page.words} words, and may have {most}")
        return self.faults

    def numbers(self):
        defined = {name: int(number) for name, number in re.findall(r"^(\w+) = (\d+)$", read(os.path.join(TOP, LIMITS)), re.M)}
        page = self.pages[PROTOCOL]
        for before, name in NUMBERS:
            told = [self.number_behind(page.text[it.end():]) for it in re.finditer(re.escape(before) + r"\s+", page.text)]
            if not told or set(told) != {defined.get(name)}:
                self.fault(page, 1, f"behind {before!r} stand {told}, and {name} is {defined.get(name)}")
        for path, before, source, there in SHARED:
            sides = [[self.number_behind(text[it.end():]) for it in re.finditer(re.escape(lead) + r"\s+", text)] for text, lead in (
                (self.pages[path].text, before), (read(os.path.join(TOP, source)), there))]
            if len(sides[0]) != 1 or sides[0] != sides[1]:
                self.fault(self.pages[path], 1, f"behind {before!r} stand {sides[0]}, and in {source} {sides[1]}")
        for name in sorted(set(defined) - {name for _, name in NUMBERS} - UNTOLD):
            self.fault(page, 1, f"the limit {name} isn't told")

    @staticmethod
    def number_behind(text):
        found = NUMBER.match(text)
        if found is None:
            return None
        return int(re.sub("[,_]", "", found["plain"])) if found["plain"] else 2 ** int(found["power"]) - bool(found["less"])

    def statuses(self):
        row, page = re.compile(r"^\| (\d+) \|", re.M), self.pages["docs/tools.md"]
        program = self.pages[PROTOCOL].text.partition("\n## The program\n")[2]
        told = {int(it) for it in row.findall(program) + row.findall(page.text.partition("\n### Statuses\n")[2].partition("\n## ")[0])}
        helped = {int(it) for it in re.findall(r"^(?:Status {2}| {8})(\d) {2}\S| {2}(\d+) {2}(?=\S)", read(os.path.join(TOP, "run")), re.M) for it in it if it}
        if told != helped:
            self.fault(page, 1, f"the statuses are those of {PROTOCOL} and this page, {sorted(told)}, and of ./run --help, {sorted(helped)}")

    def minutes(self):
        rows = [line.split()[1:] for line in read(os.path.join(TOP, "drivers", "build", "times")).splitlines() if not line.startswith("#")]
        wanted = sum(float(it) for row in rows for it in row if it != "-")
        page = self.pages["README.md"]
        told = re.findall(r"^\| `\.ci/run` \|.*\| (\d+) of processor time", page.text, re.M)
        if len(told) != 1 or abs(int(told[0]) - wanted) > wanted / 20:
            self.fault(page, 1, f"the gate takes {wanted:.0f} minutes by drivers/build/times, and the page tells {told}")

    def links(self, page, number, line):
        for target in LINK.findall(line):
            if re.match(r"\w+:", target):
                continue
            file, _, anchor = target.partition("#")
            path = os.path.normpath(os.path.join(os.path.dirname(page.path), file)) if file else page.path
            if not os.path.exists(os.path.join(TOP, path)):
                self.fault(page, number, f"the link {target} leads to no file")
            elif anchor and path in self.pages and anchor not in self.pages[path].anchors:
                self.fault(page, number, f"the link {target} leads to no heading")

    def citations(self, page, number, line, crate):
        cited = [(name, names) for name, names in CITED.findall(line)] + [(name, names) for names, name in CLAUSE_OF.findall(line)]
        for name, names in cited:
            parts = name.split("::")
            home = parts[0] if parts[0].startswith("ds_") else crate
            wanted = set(SPAN.findall(names))
            crates = [self.sources.crates.get(home)] if home else self.sources.crates.values()
            if not any(it and it.cites(parts[-1], wanted) for it in crates):
                self.fault(page, number, f"`{name}` has not all of the clauses or laws {', '.join(sorted(wanted))}")
        for home, file, names in DEFINED_IN.findall(line):
            there = self.sources.crates[home].files.get(file.rpartition("/")[2], set()) if home in self.sources.crates else set()
            lacking = sorted(set(SPAN.findall(names)) - there)
            if lacking:
                self.fault(page, number, f"{home}/{file} doesn't define {', '.join(lacking)}")

    def span(self, page, number, span, crate):
        sources = self.sources
        if re.fullmatch(r"ds_\w+", span):
            if span not in sources.crates or span not in sources.listed:
                if span not in PLANNED:
                    self.fault(page, number, f"there is no crate {span}")
            elif span in PLANNED:
                self.fault(page, number, f"the crate {span} is there, and tests/test_pages.py has it as planned")
        elif "::" in span and re.fullmatch(rf"(?:{NAME}::)+{NAME}", span):
            self.path_of_names(page, number, span.split("::"), crate)
        elif re.fullmatch(r"[\w.\-]*/[\w.\-/]*", span):
            inner = f"crates/{crate}/{span}" if crate else span
            if not sources.is_path(span) and not sources.is_path(inner):
                self.fault(page, number, f"there is no file or folder {span}")
        elif re.fullmatch(NAME, span) and span not in KNOWN:
            if crate and span not in sources.defined(crate):
                self.fault(page, number, f"`{span}` is defined neither in {crate} nor in what it uses")
            elif span not in sources.words:
                self.fault(page, number, f"`{span}` stands nowhere in the sources")

    def path_of_names(self, page, number, parts, crate):
        first = parts[0]
        if first.startswith("ds_"):
            home = self.sources.crates.get(first)
            if home is None or parts[-1] not in home.names:
                self.fault(page, number, f"{first} defines no {parts[-1]}")
        elif crate and not set(parts) <= self.sources.defined(crate):
            self.fault(page, number, f"{crate} defines no {'::'.join(parts)}")
        elif not set(parts) <= self.sources.words:
            self.fault(page, number, f"{'::'.join(parts)} stands nowhere in the sources")

    def printed(self, page):
        for home, file, block in PRINTED.findall(page.text):
            path = os.path.join(TOP, "crates", home, "specs", f"{file}.antt")
            source = re.sub(r"\bpub | : Type 0(?= where)", "", read(path)) if os.path.exists(path) else ""
            if re.sub(r"^    ", "", block, flags=re.M) not in source:
                self.fault(page, 1, f"the definition that is printed isn't that of {home}/specs/{file}")

    def glossary(self):
        page = self.pages[DESIGN]
        section = page.text.partition("## Glossary\n")[2].partition("\n## ")[0]
        terms = len(re.findall(r"^\| ", section, re.M)) - 1
        if not 1 <= terms <= MOST_TERMS:
            self.fault(page, 1, f"the glossary has {terms} terms")

    def mutants(self):
        folders = [os.path.dirname(it) for it in self.sources.paths if re.fullmatch(r"crates/\w+/must-fail/[^/]+\.edit", it)]
        page, wanted = self.pages[PROMISES], f"{len(folders)} mutants, in `must-fail` of {len(set(folders))} crates"
        if re.findall(r"\d+ mutants, in `must-fail` of \d+ crates", page.text) != [wanted]:
            self.fault(page, 1, f"there are {wanted}")

    def files_of_tests(self):
        page = self.pages["CONTRIBUTING.md"]
        listed = sorted(name for line in page.lines if line.startswith("- `tests/") for name in re.findall(r"`(tests/test_\w+)`", line.partition(": ")[0]))
        wanted = sorted(it[:-3] for it in self.sources.paths if re.fullmatch(r"tests/test_\w+\.py", it))
        if listed != wanted:
            wrong = sorted(it for it in {*listed, *wanted} if listed.count(it) != wanted.count(it))
            self.fault(page, 1, f"the list of files of tests lacks, repeats or makes up {', '.join(wrong)}")

    def table_of_crates(self):
        listed = [name for name in self.sources.listed if not name.endswith(("_tests", "_trials"))]
        rows = re.findall(r"^\| `(ds_\w+)` \|", self.pages[DESIGN].text, re.M)
        sections = re.findall(r"^## `(ds_\w+)`$", self.pages[PROMISES].text, re.M)
        for path, told, wanted in ((DESIGN, rows, listed), (PROMISES, sections, [it for it in listed if it in sections])):
            if told != wanted:
                wrong = [f"{one} stands for {other}" for one, other in zip(told, wanted) if one != other] or [f"{len(told)} of {len(wanted)}"]
                self.fault(self.pages[path], 1, f"the crates aren't those of crates.txt in their order: {wrong[0]}")


def all_pages():
    paths = ["README.md", "CHANGELOG.md", "CONTRIBUTING.md", *sorted(os.path.relpath(it, TOP) for it in glob.glob(os.path.join(TOP, "docs", "*.md")))]
    return {path: Page(path, read(os.path.join(TOP, path))) for path in paths}


WRONG = [
    ("README.md", "| `.ci/run` | | | 1 of processor time |", "minutes by drivers/build/times"),
    ("README.md", "See [there](docs/nowhere.md).", "leads to no file"),
    ("README.md", "See [there](docs/python.md#nowhere).", "leads to no heading"),
    ("docs/python.md", "It is `ds_nothing`.", "no crate"),
    ("docs/tools.md", "It stands in `ds_base/src/nothing`.", "no file or folder"),
    (PROTOCOL, "| an entity's size | 1,048,575 | `TooLarge` |", "greatest_entity_size is 1048576"),
    ("docs/python.md", "It goes over all at once with more than 16,000 entries.", "and in crates/ds_session_reads/specs/Wide.antt [16384]"),
    (PROTOCOL, "`--window` 1 to many", "greatest_window is 65536"),
    (PROTOCOL, "| 12 | `no reason` | never |", "the statuses are"),
    (DESIGN, "Call `ds_serve::reserve`.", "defines no"),
    (DESIGN, "| `ds_base` | once more | |", "in their order"),
    (DESIGN, "So says clause `legible` of `ds_serve::serve`.", "has not all"),
    (THEOREM, "It is in `ds_serve/specs/Runs` (`IsIllegalRun`).", "doesn't define"),
    (THEOREM, "From `ds_model/specs/Legal`:\n\n    record Legal where\n", "the definition that is printed"),
    (PROMISES, "\n## `ds_base`\n\nOnce more.", "in their order"),
    (PROMISES, "\n## `ds_serve`\n\nThe call `serve` (`legal`, `illegal`) says so.", "has not all"),
    (PROMISES, "\n## `ds_serve`\n\nIt is `serves_nothing_at_all`.", "is defined neither"),
    (PROMISES, "There are 1 mutants, in `must-fail` of 1 crates.", "mutants, in"),
    ("CONTRIBUTING.md", "A `forgotten_helper_of_old` does it.", "stands nowhere"),
    ("CONTRIBUTING.md", "- `tests/test_talk`: once more", "repeats or makes up tests/test_talk"),
    ("docs/DECISIONS.md", "One is said. Another one follows it.", "two sentences"),
    ("docs/DECISIONS.md", "word " * 2_500, "and may have 2800"),
]


class Pages(case.Case):
    @classmethod
    def setUpClass(cls):
        cls.sources = Sources()

    def test_pages(self):
        pages = all_pages()
        self.tried += len(pages)
        self.assertEqual(Checked(self.sources, pages).run(), [])

    def test_wrong_pages_are_refused(self):
        """Each wrong text is put behind a page."""
        for path, text, told in WRONG:
            pages = all_pages()
            pages[path] = Page(path, pages[path].text + "\n" + text + "\n")
            found = Checked(self.sources, pages).run(path)
            self.expect(f"whether {text[:80]!r} in {path} is refused by {told!r}", any(told in fault for fault in found), True)
