"""Index files: read as people have them, and written as the server reads them.

The server's form has one word a line: `indexes:`, and for each entry `- kind: NAME`, at most one of `ancestor: yes` and
`ancestor: no`, `properties:`, and for each property `- name: NAME` with at most one of `direction: asc` and `direction: desc`.
"""
import contextlib
import json
import os
import re
from typing import Any, Dict, Iterator, List, NamedTuple, Optional, Tuple, Union

from . import rules
from .errors import IndexFileError
from .yaml_subset import Node, read, uncommented

try:
    import fcntl
except ImportError:
    fcntl = None  # type: ignore[assignment]

_TRUE = ("yes", "true", "on", "y")
_FALSE = ("no", "false", "off", "n")
_DIRECTIONS = {"asc": "asc", "ascending": "asc", "desc": "desc", "descending": "desc"}
MOST_DEFINITIONS = 200


class Definition(NamedTuple):
    """An entry: its kind, whether it has the ancestor flag, its properties with `"asc"` or `"desc"`; and for each line of it in the server's form the
    number of the line of the file that says so."""

    kind: str
    ancestor: bool
    properties: Tuple[Tuple[str, str], ...]
    lines: Tuple[int, ...]

    @property
    def meaning(self) -> Tuple[Any, ...]:
        """What two entries that say the same have in common: without a last `__key__` ascending."""
        columns = self.properties[:-1] if self.properties[-1:] == (("__key__", "asc"),) else self.properties
        return (self.kind, self.ancestor, columns)


# ---- as people have them


def definitions_of(text: str) -> List[Definition]:
    """The entries of an index file in YAML. What leaves the form of an index file is an IndexFileError with its line."""
    top = read(text)
    if top.kind == "null":
        return []
    entries: Optional[Node] = None
    for name, node in _members(top, ("indexes",), "`indexes:`"):
        entries = node
        del name
    if entries is None or entries.kind == "null":
        return []
    if entries.kind != "list":
        raise IndexFileError("expected a list of entries below `indexes:`, each beginning with `- kind:`", entries.line)
    return [_definition(entry) for entry in entries.value]


def _members(node: Node, names: Tuple[str, ...], expected: str) -> Iterator[Tuple[str, Node]]:
    if node.kind != "map":
        raise IndexFileError(f"expected {expected}", node.line)
    seen = set()
    for name, value in node.value:
        if name.value not in names:
            raise IndexFileError(f"expected {expected}, and not `{name.value}:`", name.line)
        if name.value in seen:
            raise IndexFileError(f"`{name.value}:` stands twice in one entry", name.line)
        seen.add(name.value)
        yield name.value, value


def _text(node: Node, what: str) -> str:
    if node.kind not in ("text", "quoted"):
        raise IndexFileError(f"expected {what}", node.line)
    return str(node.value)


def _definition(entry: Node) -> Definition:
    kind, ancestor, properties = "", False, []
    at = {"kind": entry.line, "ancestor": entry.line, "properties": entry.line}
    for name, value in _members(entry, ("kind", "ancestor", "properties"), "`kind:`, `ancestor:` or `properties:`"):
        at[name] = value.line
        if name == "kind":
            kind = _name(value, "the kind's name")
        elif name == "ancestor":
            ancestor = _truth(value)
        elif value.kind != "list":
            raise IndexFileError("expected a list of properties, each beginning with `- name:`", value.line)
        else:
            properties = [_property(one) for one in value.value]
    if not kind:
        raise IndexFileError("expected an entry with `kind:`", entry.line)
    if not properties:
        raise IndexFileError(f"expected `properties:` with at least one `- name:`, for the kind {kind}", entry.line)
    seen: Dict[str, int] = {}
    for name, _, line in properties:
        if name in seen:
            raise IndexFileError(f"the property {name} stands twice in one entry", line)
        seen[name] = line
    for name, _, line in properties[:-1]:
        if name == "__key__":
            raise IndexFileError("`__key__` stands last in an entry, or not at all", line)
    lines = [at["kind"], *([at["ancestor"]] if ancestor else []), at["properties"]]
    for _, way, line in properties:
        lines += [line] * (2 if way == "desc" else 1)
    return Definition(kind, ancestor, tuple((name, way) for name, way, _ in properties), tuple(lines))


def _property(node: Node) -> Tuple[str, str, int]:
    found, direction = "", "asc"
    for name, value in _members(node, ("name", "direction"), "`name:` or `direction:`"):
        if name == "name":
            found = _name(value, "the property's name", "__key__")
        else:
            word = _text(value, "`asc` or `desc`")
            if word not in _DIRECTIONS:
                raise IndexFileError(f"expected `asc` or `desc`, and not {word!r}", value.line)
            direction = _DIRECTIONS[word]
    if not found:
        raise IndexFileError("expected a property with `name:`", node.line)
    return found, direction, node.line


def _name(node: Node, what: str, allowed: str = "") -> str:
    name = _text(node, what)
    if re.search(r"[ \t\r\n'\"#]", name):
        raise IndexFileError(f"{what} {name!r} has a space, a quote or #, which the server's index file can't hold", node.line)
    fault = rules.name_fault(name, what) if name != allowed else None
    if fault:
        raise IndexFileError(fault, node.line)
    return name


def _truth(node: Node) -> bool:
    word = _text(node, "`yes` or `no`").lower()
    if node.kind == "quoted" or word not in _TRUE + _FALSE:
        raise IndexFileError(f"expected `yes` or `no` without quotes, and not {node.value!r}", node.line)
    return word in _TRUE


# ---- as the server has them


def written(definitions: List[Definition]) -> str:
    """The entries in the server's form."""
    lines = ["indexes:"]
    for one in definitions:
        lines.append(f"- kind: {one.kind}")
        if one.ancestor:
            lines.append("  ancestor: yes")
        lines.append("  properties:")
        for name, direction in one.properties:
            lines.append(f"  - name: {name}")
            if direction == "desc":
                lines.append("    direction: desc")
    return "\n".join(lines) + "\n"


_NAME = r"[^ \t\r'\"#]+"
_STEPS: Dict[str, List[Tuple[str, str, str]]] = {
    "file": [(r"indexes:", "indexes", "`indexes:`")],
    "indexes": [(rf"-[ \t]+kind:[ \t]+{_NAME}", "kind", "`- kind: NAME`")],
    "kind": [(r"ancestor:[ \t]+(yes|no)", "ancestor", "`ancestor: yes` or `ancestor: no`"), (r"properties:", "properties", "`properties:`")],
    "ancestor": [(r"properties:", "properties", "`properties:`")],
    "properties": [(rf"-[ \t]+name:[ \t]+{_NAME}", "name", "`- name: NAME`")],
}
_STEPS["direction"] = [*_STEPS["properties"], *_STEPS["indexes"]]
_STEPS["name"] = [(r"direction:[ \t]+(asc|desc)", "direction", "`direction: asc` or `direction: desc`"), *_STEPS["direction"]]
_LAST = ("file", "indexes", "name", "direction")


def server_fault(text: str) -> Optional[Tuple[int, str]]:
    """The number of the first line that can't stand in the server's form, and what was expected there; None of a file in that form.

    It says nothing of names that are reserved or stand twice, nor of more entries than 200.
    """
    state = "file"
    lines = text.split("\n")
    for number, whole in enumerate(lines, 1):
        line = re.sub(r"(^|[ \t])#.*", "", whole).strip(" \t\r")
        if not line:
            continue
        for form, following, _ in _STEPS[state]:
            if re.fullmatch(form, line):
                state = following
                break
        else:
            return number, " or ".join(told for _, _, told in _STEPS[state])
    if state not in _LAST:
        return len(lines) + (0 if text.endswith("\n") or not text else 1), " or ".join(told for _, _, told in _STEPS[state])
    return None


def explained(text: str, name: str) -> str:
    """What the server's form of an index file is, line by line: for a file that the server doesn't read."""
    try:
        definitions = definitions_of(text)
    except IndexFileError as error:
        return f"{name}, {_at(text, error)}"
    fault = server_fault(text)
    lines = text.split("\n")
    told = []
    if fault is not None:
        shown = lines[fault[0] - 1].strip() if fault[0] <= len(lines) else "the end of the file"
        told.append(f"{name}, line {fault[0]}: {shown}: the server expects {fault[1]}")
    told.append("This file says the following, which the server reads in this form, one word a line:")
    told.append("")
    width = len(str(len(lines)))
    numbers = [0, *(number for one in definitions for number in one.lines)]
    for line, number in zip(written(definitions).splitlines(), numbers):
        told.append(f"    {f'line {number}' if number else '':>{width + 5}}  {line}")
    told += ["", f"./run --index-form {name} writes it: ./run --index-form {name} > server.yaml"]
    return "\n".join(told)


def _at(text: str, error: IndexFileError) -> str:
    lines = text.split("\n")
    shown = lines[error.line - 1].strip() if 1 <= error.line <= len(lines) else ""
    return f"line {error.line}: {shown}\n    {error}" if shown else f"line {error.line}: {error}"


# ---- what a server was given


class Given:
    """The index file of a server: a name or a text. `text` is its content in the server's form, None where there is none."""

    def __init__(self, given: Union[str, "os.PathLike[str]", None], auto_index: bool) -> None:
        self._given = given
        self._auto = auto_index
        self.text: Optional[str] = None
        self.has_added = False
        self._source = ""
        self._definitions: List[Definition] = []
        self._is_text = isinstance(given, str) and ("\n" in given or re.search(r"(^|[\s{'\"])indexes['\"]?\s*:", given) is not None)
        self.name = "index text" if self._is_text or given is None else os.path.abspath(given)
        if auto_index and (given is None or self._is_text):
            raise ValueError("auto_index adds entries to an index file: give its name as indexes=")

    def read(self) -> None:
        """Reads the file, or the text. What isn't an index file is an IndexFileError, which shows its line. `has_added` is false from now on, until an
        entry is added."""
        self.has_added = False
        if self._given is None:
            return
        self._source = str(self._given) if self._is_text else self._content()
        if self._is_text and "indexes" not in self._source:
            raise IndexFileError("the index text has no line `indexes:`; put one above the entries")
        try:
            if server_fault(self._source) is None and "\ufeff" not in self._source:
                # As it is: the server has the last word on its own form, in which indentation says nothing.
                self.text = self._source
                return
            self._definitions = definitions_of(self._source)
        except IndexFileError as error:
            raise IndexFileError(f"{self.name}, {_at(self._source, error)}", error.line) from None
        self.text = written(self._definitions)

    def _content(self) -> str:
        if not os.path.isfile(self.name):
            if self._auto:
                return "indexes:\n"
            raise IndexFileError(f"there is no index file {self._given} (a relative name stands in {os.getcwd()})")
        with open(self.name, "rb") as file:
            content = file.read()
        try:
            return content.decode("utf-8")
        except UnicodeDecodeError as error:
            line = content[: error.start].count(b"\n") + 1
            raise IndexFileError(f"{self.name}, line {line}: its bytes aren't UTF-8", line) from None

    def definitions(self) -> List[Definition]:
        """The entries that the server has."""
        with contextlib.suppress(IndexFileError):
            return definitions_of(self.text or "")
        return []

    def explain(self, failed: str, named: str = "index file") -> None:
        """Raises an IndexFileError, where this is what the server said of the file, which it names so."""
        told = re.search(named + r": line ([0-9]+)", failed)
        if told is None or self.text is None:
            return
        number = int(told.group(1))
        lines = self.text.split("\n")
        shown = lines[number - 1].strip() if number <= len(lines) else "the end of the file"
        where = f"line {number}" if self.text == self._source else f"line {number} of the file in the server's form"
        raise IndexFileError(f"{self.name}, index file: {where}: {shown}\n    {self._why(number, shown)}", number)

    def _why(self, number: int, shown: str) -> str:
        assert self.text is not None
        name = re.match(r"-?\s*(kind|name):\s+(\S+)", shown)
        if name is not None and rules.is_reserved(name.group(2)):
            return f"{name.group(2)} is reserved, since it begins and ends with __; `__key__` alone may stand, as the last property"
        if name is not None and name.group(1) == "name":
            above = re.split(r"\bkind:", "\n".join(self.text.split("\n")[: number - 1]))[-1]
            if re.search(r"^[ \t]*-[ \t]+name:[ \t]+__key__[ \t\r]*(#.*)?$", above, re.M):
                return "`__key__` stands last in an entry, or not at all"
            return f"the property {name.group(2)} stands twice in its entry, or the entry is one of more than {MOST_DEFINITIONS}"
        fault = server_fault(self.text)
        return f"expected {fault[1]}" if fault is not None else f"an entry of more than {MOST_DEFINITIONS}"

    # -- adding entries

    def add(self, entry: str) -> Optional[str]:
        """Adds the entry of a MissingIndex to the file, where this was asked, and gives the file's name; None where it isn't added."""
        if not self._auto:
            return None
        with open(self.name, "a+", encoding="utf-8") as file, _locked(file):
            file.seek(0)
            before = file.read()
            try:
                wanted = definitions_of("indexes:\n" + entry)[0]
                there = definitions_of(before)
            except IndexFileError:
                return None
            if wanted.meaning in [one.meaning for one in there]:
                return self.name
            meanings = [*(one.meaning for one in there), wanted.meaning]
            after = next((text for text in _with_entry_somehow(before, entry, wanted) if _meanings(text) == meanings), None)
            if after is None:
                return None
            if after.startswith(before):
                file.write(after[len(before) :])
            else:
                file.truncate(0)
                file.write(after)
            self.has_added = True
        return self.name


def _meanings(text: str) -> Optional[List[Tuple[Any, ...]]]:
    try:
        return [one.meaning for one in definitions_of(text)]
    except IndexFileError:
        return None


def _with_entry_somehow(text: str, entry: str, wanted: Definition) -> Iterator[str]:
    """Texts that may be the file with the entry: in block style behind what is there, in place of an empty list, and at the end of a list in flow style."""
    yield _with_entry(text, entry)
    empty = re.search(r"(indexes['\"]?:)[ \t]*(\[\s*\]|null|~)", text)
    if empty is not None:
        yield _with_entry(text[: empty.end(1)] + text[empty.end() :], entry)
    end = text.rfind("]")
    columns = [{"name": name, **({"direction": "desc"} if way == "desc" else {})} for name, way in wanted.properties]
    flow = json.dumps({"kind": wanted.kind, **({"ancestor": True} if wanted.ancestor else {}), "properties": columns}, ensure_ascii=False)
    try:
        json.loads(text)
    except ValueError:
        flow = flow.replace('"', "").replace("ancestor: true", "ancestor: yes")
    head = text[:end].rstrip()
    yield f"{head}{' ' if head.endswith(',') else ', '}{flow}{text[len(head) :]}"


def _with_entry(text: str, entry: str) -> str:
    """The file with the entry below its last one, as far in as the others."""
    if not any(uncommented(line).startswith("indexes") for line in text.split("\n")):
        text = text + ("\n" if text and not text.endswith("\n") else "") + "indexes:\n"
    item = re.search(r"^( *)- ", text, re.M)
    indent = item.group(1) if item is not None else ""
    between = "" if text.endswith("\n") else "\n"
    return text + between + "".join(f"{indent}{line}\n" for line in entry.splitlines())


@contextlib.contextmanager
def _locked(file: Any) -> Iterator[None]:
    """Alone among the processes that add entries."""
    if fcntl is None:
        yield
        return
    fcntl.flock(file, fcntl.LOCK_EX)
    try:
        yield
    finally:
        file.flush()
        fcntl.flock(file, fcntl.LOCK_UN)
