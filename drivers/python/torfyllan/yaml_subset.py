"""A reader of the part of YAML in which index files are written: mappings, lists and texts, in block and flow style.

Comments, a byte order mark, `---` at the beginning and `...` at the end are passed over. What no index file needs (anchors,
tags, texts over several lines, several documents) is refused by its line.
"""
import json
from typing import Any, List, NoReturn, Optional, Tuple

from .errors import IndexFileError


class Node:
    """A part of a document: `value` is a str, None, a list of nodes, or a list of pairs of a text node and a node; `line` is where it begins."""

    __slots__ = ("kind", "value", "line")

    def __init__(self, kind: str, value: Any, line: int) -> None:
        self.kind = kind
        self.value = value
        self.line = line


class _Line:
    __slots__ = ("number", "indent", "text")

    def __init__(self, number: int, indent: int, text: str) -> None:
        self.number = number
        self.indent = indent
        self.text = text


_REFUSED = {
    "&": "an anchor",
    "*": "an alias",
    "!": "a tag",
    "|": "a text over several lines",
    ">": "a text over several lines",
    "@": "a reserved sign",
    "`": "a reserved sign",
    "%": "a directive",
}


def read(text: str) -> Node:
    """The document. A form that isn't read is an IndexFileError with its line."""
    lines = _lines(text)
    if not lines:
        return Node("null", None, 1)
    reader = _Reader(lines)
    node = reader.block(lines[0].indent)
    if reader.at < len(lines):
        reader.fail("a line that belongs to what is above it by its indentation")
    return node


def uncommented(line: str) -> str:
    """The line without its comment and the spaces at its end."""
    quote = ""
    for place, letter in enumerate(line):
        before = line[place - 1] if place else " "
        if quote:
            if letter == quote and not (quote == '"' and before == "\\"):
                quote = ""
        elif letter in "'\"" and before in " \t[{,:-":
            quote = letter
        elif letter == "#" and before in " \t":
            return line[:place].rstrip()
    return line.rstrip()


def _lines(text: str) -> List[_Line]:
    found: List[_Line] = []
    begun = False
    for number, whole in enumerate(text.lstrip("\ufeff").split("\n"), 1):
        line = uncommented(whole)
        content = line.lstrip(" ")
        if line == "...":
            break
        if line == "---" or line.startswith("--- "):
            if begun or found:
                raise IndexFileError("several documents in one file; an index file is one", number)
            begun = True
            line = content = line[3:].lstrip()
        if not content or (content.startswith("%") and not found):
            continue
        if content.startswith("\t"):
            raise IndexFileError("a tab in the indentation, where YAML has spaces", number)
        found.append(_Line(number, len(line) - len(content), content))
    return found


class _Reader:
    def __init__(self, lines: List[_Line]) -> None:
        self.lines = lines
        self.at = 0

    def fail(self, expected: str) -> None:
        line = self.lines[min(self.at, len(self.lines) - 1)]
        raise IndexFileError(f"expected {expected}", line.number)

    def block(self, indent: int) -> Node:
        """What begins at this line, with this indentation."""
        line = self.lines[self.at]
        if line.text == "-" or line.text.startswith("- "):
            return self.sequence(line.indent)
        if line.text[0] in "[{":
            return self.flow()
        if _colon(line.text) is not None:
            return self.mapping(line.indent)
        self.at += 1
        return _scalar(line.text, line.number)

    def sequence(self, indent: int) -> Node:
        first = self.lines[self.at].number
        items: List[Node] = []
        while self.at < len(self.lines):
            line = self.lines[self.at]
            if line.indent != indent or not (line.text == "-" or line.text.startswith("- ")):
                break
            rest = line.text[1:].lstrip()
            if rest:
                # The rest of the line stands as a line of its own, as far in as it is.
                line.indent, line.text = indent + len(line.text) - len(rest), rest
                items.append(self.block(line.indent))
            else:
                self.at += 1
                items.append(self.below(indent, line.number, False))
        self.deeper(indent)
        return Node("list", items, first)

    def mapping(self, indent: int) -> Node:
        first = self.lines[self.at].number
        pairs: List[Tuple[Node, Node]] = []
        while self.at < len(self.lines):
            line = self.lines[self.at]
            if line.indent != indent or line.text == "-" or line.text.startswith("- "):
                break
            colon = _colon(line.text)
            if colon is None:
                self.fail("a name with a colon behind it")
                break
            name, rest = _scalar(line.text[:colon].rstrip(), line.number), line.text[colon + 1 :].lstrip()
            if not rest:
                self.at += 1
                pairs.append((name, self.below(indent, line.number, True)))
            elif rest[0] in "[{":
                line.text = rest
                pairs.append((name, self.flow()))
            else:
                self.at += 1
                pairs.append((name, _scalar(rest, line.number)))
        self.deeper(indent)
        return Node("map", pairs, first)

    def below(self, indent: int, number: int, list_beside: bool) -> Node:
        """What stands further in than its name; a list may stand as far in as its name."""
        if self.at < len(self.lines):
            line = self.lines[self.at]
            is_item = line.text == "-" or line.text.startswith("- ")
            if line.indent > indent or (list_beside and line.indent == indent and is_item):
                return self.block(line.indent)
        return Node("null", None, number)

    def deeper(self, indent: int) -> None:
        if self.at < len(self.lines) and self.lines[self.at].indent > indent:
            self.fail(f"an indentation of {indent} spaces, or fewer, as the lines above have")

    def flow(self) -> Node:
        """A list or mapping in brackets, which may go on over lines."""
        first = self.at
        depth, quote = _depth(self.lines[first].text, 0, "")
        while depth > 0 or quote:
            self.at += 1
            if self.at >= len(self.lines):
                self.at -= 1
                self.fail("a bracket that closes what is open")
            depth, quote = _depth(self.lines[self.at].text, depth, quote)
        self.at += 1
        lines = self.lines[first : self.at]
        numbers = [line.number for line in lines for _ in range(len(line.text) + 1)]
        return _Flow(" ".join(line.text for line in lines), numbers).whole()


def _depth(text: str, depth: int, quote: str) -> Tuple[int, str]:
    """How many brackets are open behind this line, and which quote."""
    escaped = False
    for place, letter in enumerate(text):
        if quote:
            if escaped:
                escaped = False
            elif letter == "\\" and quote == '"':
                escaped = True
            elif letter == quote:
                quote = ""
        elif letter in "'\"" and (place == 0 or text[place - 1] in " \t[{,:"):
            quote = letter
        elif letter in "[{":
            depth += 1
        elif letter in "]}":
            depth -= 1
    return depth, quote


class _Flow:
    def __init__(self, text: str, numbers: List[int]) -> None:
        self.text = text
        self.numbers = numbers
        self.at = 0

    def whole(self) -> Node:
        """The node of the whole text."""
        node = self.node()
        self.spaces()
        if self.at < len(self.text):
            raise IndexFileError(f"expected nothing behind the closing bracket, and not {self.text[self.at :]!r}", self.numbers[self.at])
        return node

    def spaces(self) -> None:
        while self.at < len(self.text) and self.text[self.at] in " \t":
            self.at += 1

    def peek(self) -> str:
        self.spaces()
        if self.at >= len(self.text):
            self.ended()
        return self.text[self.at]

    def ended(self) -> NoReturn:
        raise IndexFileError("expected a bracket that closes what is open", self.numbers[-1])

    def node(self) -> Node:
        letter = self.peek()
        number = self.numbers[self.at]
        if letter == "[":
            items: List[Node] = []
            self.at += 1
            while self.peek() != "]":
                items.append(self.node())
                self.comma("]")
            self.at += 1
            return Node("list", items, number)
        if letter == "{":
            pairs: List[Tuple[Node, Node]] = []
            self.at += 1
            while self.peek() != "}":
                name = self.text_node(":")
                if self.peek() != ":":
                    raise IndexFileError(f"expected a colon behind {name.value!r}", self.numbers[self.at])
                self.at += 1
                pairs.append((name, Node("null", None, number) if self.peek() in ",}" else self.node()))
                self.comma("}")
            self.at += 1
            return Node("map", pairs, number)
        return self.text_node("")

    def comma(self, closing: str) -> None:
        letter = self.peek()
        if letter == ",":
            self.at += 1
        elif letter != closing:
            raise IndexFileError(f"expected a comma or {closing}, and not {self.text[self.at :]!r}", self.numbers[self.at])

    def text_node(self, until: str) -> Node:
        letter, begin = self.peek(), self.at
        number = self.numbers[begin]
        if letter in "'\"":
            self.at += 1
            while True:
                if self.at >= len(self.text):
                    self.ended()
                if self.text[self.at] == "\\" and letter == '"':
                    self.at += 2
                    continue
                if self.text[self.at] == letter:
                    if letter == "'" and self.text[self.at : self.at + 2] == "''":
                        self.at += 2
                        continue
                    break
                self.at += 1
            self.at += 1
        else:
            while self.at < len(self.text) and self.text[self.at] not in ",]}" and not (until and self.text[self.at] in until):
                self.at += 1
            if self.at >= len(self.text):
                self.ended()
        return _scalar(self.text[begin : self.at].rstrip(), number)


def _colon(text: str) -> Optional[int]:
    """Where the colon behind a name stands; None where the text begins with no name."""
    if text[0] in "'\"":
        end = text.find(text[0], 1)
        rest = text[end + 1 :].lstrip() if end > 0 else ""
        return len(text) - len(rest) if rest.startswith(":") else None
    for place, letter in enumerate(text):
        if letter == ":" and (place + 1 == len(text) or text[place + 1] in " \t"):
            return place
    return None


def _scalar(text: str, number: int) -> Node:
    if text in ("", "~", "null", "Null", "NULL"):
        return Node("null", None, number)
    if text[0] == "'":
        if len(text) < 2 or not text.endswith("'"):
            raise IndexFileError("expected a quote at the end of the text", number)
        return Node("quoted", text[1:-1].replace("''", "'"), number)
    if text[0] == '"':
        try:
            return Node("quoted", json.loads(text), number)
        except ValueError:
            raise IndexFileError(f"expected a text in double quotes, and not {text}", number) from None
    if text[0] in _REFUSED:
        raise IndexFileError(f"{_REFUSED[text[0]]}, which an index file can't have: {text}", number)
    return Node("text", text, number)
