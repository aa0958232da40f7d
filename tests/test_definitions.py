"""Which files of definitions the main theorem reaches, which a reader of it has to believe: docs/theorem.md has their list.

    python3 -m tests.test_definitions           prints the list, as a table of Markdown
    python3 -m tests.test_definitions --fill    writes the list into docs/theorem.md

It begins with the names in the clause `legal` of `ds_serve::serve`, and follows each name, definition by definition, through the
imports of the files in specs/. A file of which at least one definition is reached is in the list. The modules
`specs/declared` and `specs/contracts` are made from the sources: they stand for the types and clauses there, whose files are listed too.

What a type of the code means to a clause is followed as well: the types of its parts, and the view of its `impl Model`, by which contracts see it.
So are the traits that bound the call's parameters, whose ghost members the clause cites, and the types of its result.
"""
import os
import re
import sys

from tests.case import TOP, Case

THEOREM = ("ds_serve", "src/top.rt", "legal")
DOCUMENT = TOP / "docs" / "theorem.md"
BEGIN, END = "<!-- believed: made by tests/test_definitions.py -->", "<!-- end -->"
WORD = re.compile(r"[^\s(){}\[\],;:λ→×⊎∷≡]+")
IMPORT = re.compile(r"(?:pub )?(?:ghost )?use Rattle\.(\w+)\.specs\.([\w.]+?)(?:\.\{([^}]*)\}| as (\S+))?;?\s*$")
OWN_USE = re.compile(r"^(?:pub )?use (crate|ds_\w+)((?:::\w+)*)::(?:\{([^}]*)\}|(\w+));", re.M)
HANDED_ON = re.compile(r"^pub use (ds_\w+)::(?:\{([^}]*)\}|(\w+));", re.M)
TYPE = re.compile(r"^pub(?:\(crate\))? (?:struct|enum|type|trait) (\w+)", re.M)
MODEL = re.compile(r"^impl(?:<[^{]*?>)? Model for (\w+)[^{]*\{(.*?)^\}", re.M | re.S)
CAPITAL = re.compile(r"\b[A-Z]\w+")
HEAD = re.compile(r"(?:abbrev |unfoldable )?(?:pub )?(?:(?:record|data) ([^\s:(]+)|([^\s:(]+)\s*:(?!:))")


def read(path):
    with open(os.path.join(TOP, "crates", path), encoding="utf-8") as file:
        return file.read()


class Module:
    """A file of specs/: its definitions, each with its text, and what each imported name stands for."""

    def __init__(self, path):
        self.path = path
        self.text = read(path)
        self.names, self.aliases, self.definitions = {}, {}, {}
        current = None
        for line in self.text.splitlines():
            if note_import(line, self.names, self.aliases) or line.startswith("--"):
                continue
            if line and not line[0].isspace():
                head = HEAD.match(line)
                current = head.group(1) or head.group(2) if head else (line.split() or [""])[0] if line.split()[0] in self.definitions else current
            if current:
                self.definitions[current] = self.definitions.get(current, "") + line + "\n"


def note_import(line, names, aliases):
    found = IMPORT.match(line.strip())
    if not found:
        return line.startswith(("use ", "pub use ", "pub mod ", "mod "))
    crate, module, listed, alias = found.groups()
    if alias:
        aliases[alias] = (crate, module)
    for it in (listed or "").split(","):
        name, _, other = it.strip().partition(" as ")
        if name:
            names[other or name] = (crate, module, name)
    return True


def clause_of(text, name):
    """The text of a function's clause: from its name up to the closing brace of the same depth."""
    at = text.index("{", text.index(f"ensures {name} "))
    depth = 0
    for place in range(at, len(text)):
        depth += {"{": 1, "}": -1}.get(text[place], 0)
        if depth == 0:
            return text[at:place]
    raise ValueError(name)


def own_file(crate, module, name):
    """The file and the name in it that a module's name stands for: of specs/, or for what is made from the sources the source and the type; none
    for the kit's."""
    if not os.path.isdir(os.path.join(TOP, "crates", crate)):
        return None, name
    parts = module.split(".")
    if parts[0] in ("declared", "contracts"):
        for length in range(len(parts) - 1, 0, -1):
            path = "/".join([crate, "src", *parts[1:length]]) + ".rt"
            if os.path.isfile(os.path.join(TOP, "crates", path)):
                return path, parts[length]
        return f"{crate}/src/lib.rt", parts[1]
    return "/".join([crate, "specs", *parts]) + ".antt", name


class Sources:
    """The types of the code: where each stands, what it is made of, and how contracts see it."""

    def __init__(self):
        self.texts, self.homes = {}, {}

    def text(self, path):
        if path not in self.texts:
            self.texts[path] = read(path)
        return self.texts[path]

    def home(self, crate, name):
        """The file that has this type: of the crate, or of the one whose type it hands on."""
        if crate not in self.homes:
            self.homes[crate] = types = {}
            for folder, _, files in os.walk(os.path.join(TOP, "crates", crate, "src")):
                for file in sorted(files):
                    path = os.path.relpath(os.path.join(folder, file), os.path.join(TOP, "crates"))
                    for lower, listed, single in HANDED_ON.findall(self.text(path)):
                        types.update({it: self.home(lower, it) for it in re.findall(r"\w+", listed or single) if self.home(lower, it)})
                    types.update({it: path for it in TYPE.findall(self.text(path))})
        return self.homes[crate].get(name)

    def named(self, path, text):
        """The types of this repository that a text of a source names, each with its file."""
        crate, users = path.split("/")[0], {}
        for at, _, listed, single in OWN_USE.findall(self.text(path)):
            for it in (listed or single).split(","):
                users[it.split(" as ")[-1].strip()] = crate if at == "crate" else at
        found = set()
        for name in set(CAPITAL.findall(text)):
            home = self.home(users.get(name, crate), name)
            if home:
                found.add((home, name))
        return found

    def parts(self, path, name):
        """The text of a type: its parts, or a trait's ghost members."""
        text = self.text(path)
        at = re.search(rf"^pub(?:\(crate\))? (struct|enum|type|trait) {name}\b", text, re.M)
        if at is None:
            return ""
        if at[1] == "trait":
            return "\n".join(re.findall(r"^    ghost .*", text[at.end() : text.index("\n}", at.end())], re.M))
        ends = re.compile(r";$|^\}", re.M).search(text, at.end())
        return text[at.end() : ends.start()]

    def model(self, path, name):
        """How contracts see a type: what its `impl Model` imports, and its value and view; nothing where it has none."""
        for type_name, body in MODEL.findall(self.text(path)):
            if type_name == name:
                names, aliases, seen = {}, {}, []
                for line in body.splitlines():
                    if not note_import(line, names, aliases):
                        seen.append(line)
                seen = "\n".join(seen)
                return names, aliases, seen.partition("ghost invariant")[0]
        return None


def reached():
    crate, file, clause = THEOREM
    top = f"{crate}/{file}"
    source = read(top)
    names, aliases = {}, {}
    for line in source.splitlines():
        note_import(line, names, aliases)
    sources, modules, files, done = Sources(), {}, {top}, set()
    todo = []

    def note(text, names, aliases, module=None):
        for word in set(WORD.findall(text)):
            first, _, rest = word.partition(".")
            if module and first in module.definitions:
                todo.append((module.path, first))
            if first in names:
                todo.append(own_file(*names[first]))
            if first in aliases and rest:
                todo.append(own_file(*aliases[first], rest.partition(".")[0]))

    note(clause_of(source, clause), names, aliases)
    head = source[source.index(f"pub fn serve") : source.index(f"ensures {clause} ")]
    todo += sources.named(top, head)
    while todo:
        path, name = todo.pop()
        if path is None or (path, name) in done:
            continue
        done.add((path, name))
        files.add(path)
        if path.endswith(".antt"):
            if path not in modules:
                modules[path] = Module(path)
            module = modules[path]
            if name in module.names:
                todo.append(own_file(*module.names[name]))
            note(module.definitions.get(name, ""), module.names, module.aliases, module)
            continue
        todo += sources.named(path, sources.parts(path, name))
        model = sources.model(path, name)
        if model:
            note(model[2], model[0], model[1])
    return files


def table(files):
    """A row for each crate: the files of its definitions, with the sum of their lines, and the files of its types."""
    rows = ["| Crate | Definitions in `specs` | Lines | Types in `src` |", "|---|---|---|---|"]
    total = count = 0
    for crate in sorted({path.split("/")[0] for path in files}):
        specs, sources, lines = [], [], 0
        for path in sorted(it for it in files if it.startswith(crate + "/")):
            name = path.split("/", 2)[2].rpartition(".")[0]
            if path.endswith(".antt"):
                lines += len(read(path).splitlines())
                specs.append(name)
            else:
                sources.append(name)
        total, count = total + lines, count + len(specs)
        rows.append(f"| `{crate}` | {', '.join(specs)} | {lines or ''} | {', '.join(sources)} |")
    rows += ["", f"All {count} files of definitions have {total} lines."]
    return "\n".join(rows)


def parted():
    """The text of the page before the list, the list, and the text behind it."""
    before, _, rest = DOCUMENT.read_text(encoding="utf-8").partition(BEGIN)
    stands, _, behind = rest.partition(END)
    return before, stands, behind


class Definitions(Case):
    def test_the_list_is_as_the_theorem_reaches_them(self):
        made = table(reached())
        self.tried += made.count("\n")
        self.assertEqual(parted()[1].strip(), made, "python3 -m tests.test_definitions --fill writes the list")


def main():
    made = table(reached())
    if sys.argv[1:] == ["--fill"]:
        before, _, behind = parted()
        DOCUMENT.write_text(f"{before}{BEGIN}\n{made}\n{END}{behind}", encoding="utf-8")
    else:
        print(made)


if __name__ == "__main__":
    main()
