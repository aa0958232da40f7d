"""Statements of GQL, read into their parts. One that isn't understood is left to the server, which says at which place."""
import datetime
import re
from typing import Any, Callable, Dict, List, NamedTuple, Optional, Sequence, Tuple

from .datastore_errors import BadArgumentError, BadQueryError, BadRequestError
from .key import Key
from .members import TABLE

_TOKEN = re.compile(r"""\s*(?:(?P<text>'(?:[^']|'')*')|"(?P<quoted>[^"]*)"|(?P<number>-?[0-9]+(?:\.[0-9]+)?)
                        |:(?P<bound>[0-9]+|[A-Za-z_$][A-Za-z0-9_$.]*)|(?P<word>[A-Za-z_$][A-Za-z0-9_$.]*)
                        |(?P<sign><=|>=|!=|[<>=(),*]))""", re.X)
_WORDS = ("SELECT", "FROM", "WHERE", "AND", "IN", "IS", "ANCESTOR", "ORDER", "BY", "ASC", "DESC", "LIMIT", "OFFSET", "NULL", "TRUE", "FALSE", "KEY")


class Bound(NamedTuple):
    """An argument: its number or its name."""

    name: str


class Call(NamedTuple):
    """A literal that is made of others, as `DATE(2014, 5, 1)`."""

    name: str
    parts: Sequence[Any]


class Statement(NamedTuple):
    """A statement. A condition is a name, an operator and a value, or for `in` a list of values or an argument that is a list."""

    selected: Sequence[str]
    distinct: bool
    kind: Optional[str]
    conditions: Sequence[Tuple[str, str, Any]]
    ancestor: Any
    orders: Sequence[Tuple[str, bool]]
    limit: Optional[int]
    offset: Optional[int]


class _Other(Exception):
    """The text isn't a statement that is understood here."""


def read(text: str) -> Optional[Statement]:
    """The parts of a statement; None where the text isn't understood."""
    try:
        return _Reader(text).statement()
    except _Other:
        return None


class _Reader:
    """Reads a text token after token, each as its form and its content."""

    def __init__(self, text: str) -> None:
        self._tokens: List[Tuple[str, str]] = []
        place, text = 0, text.rstrip()
        while place < len(text):
            found = _TOKEN.match(text, place)
            if found is None or found.lastgroup is None:
                raise _Other
            self._tokens.append((found.lastgroup, found.group(found.lastgroup)))
            place = found.end()
        self._at = 0

    def _next(self) -> Tuple[str, str]:
        return self._tokens[self._at] if self._at < len(self._tokens) else ("end", "")

    def _take(self) -> Tuple[str, str]:
        token = self._next()
        self._at += 1
        return token

    def _is(self, word: str) -> bool:
        """Takes a keyword or a sign, where it is next."""
        form, content = self._next()
        if (form == "word" and content.upper() == word) or (form == "sign" and content == word):
            self._at += 1
            return True
        return False

    def _need(self, word: str) -> None:
        if not self._is(word):
            raise _Other

    def _name(self) -> str:
        form, content = self._take()
        if form == "quoted" and content or (form == "word" and content.upper() not in _WORDS):
            return content
        raise _Other

    def _count(self) -> int:
        form, content = self._take()
        if form != "number" or not content.isdigit():
            raise _Other
        return int(content)

    def _list(self, item: Callable[[], Any]) -> List[Any]:
        found = [item()]
        while self._is(","):
            found.append(item())
        return found

    def statement(self) -> Statement:
        self._need("SELECT")
        distinct = self._is_distinct()
        selected = ["*"] if self._is("*") else self._list(self._name)
        kind = self._name() if self._is("FROM") else None
        conditions: List[Tuple[str, str, Any]] = []
        ancestor = None
        if self._is("WHERE"):
            while True:
                if self._is("ANCESTOR"):
                    self._need("IS")
                    if ancestor is not None:
                        raise _Other
                    ancestor = self._value()
                    if not isinstance(ancestor, (Bound, Call)):
                        raise _Other
                else:
                    conditions.append(self._condition())
                if not self._is("AND"):
                    break
        orders: List[Tuple[str, bool]] = []
        if self._is("ORDER"):
            self._need("BY")
            orders = self._list(self._order)
        limit, offset = self._limits()
        if self._next()[0] != "end":
            raise _Other
        return Statement(selected, distinct, kind, conditions, ancestor, orders, limit, offset)

    def _is_distinct(self) -> bool:
        """Takes DISTINCT, unless it is the name of a property."""
        form, content = self._tokens[self._at + 1] if self._at + 1 < len(self._tokens) else ("end", "")
        is_name = form == "end" or content == "," or (form == "word" and content.upper() in _WORDS)
        return not is_name and self._is("DISTINCT")

    def _condition(self) -> Tuple[str, str, Any]:
        name = self._name()
        if self._is("IN"):
            if self._next()[0] == "bound":
                return name, "in", Bound(self._take()[1])
            self._need("(")
            every = self._list(self._value)
            self._need(")")
            return name, "in", every
        form, sign = self._take()
        if form != "sign" or sign not in ("=", "!=", "<", "<=", ">", ">="):
            raise _Other
        return name, sign, self._value()

    def _order(self) -> Tuple[str, bool]:
        name = self._name()
        return name, not self._is("ASC") and self._is("DESC")

    def _limits(self) -> Tuple[Optional[int], Optional[int]]:
        limit = offset = None
        if self._is("LIMIT"):
            limit = self._count()
            if self._is(","):
                return self._count(), limit
        if self._is("OFFSET"):
            offset = self._count()
        return limit, offset

    def _value(self) -> Any:
        form, content = self._take()
        if form == "text":
            return content[1:-1].replace("''", "'")
        if form == "number":
            return float(content) if "." in content else int(content)
        if form == "bound":
            return Bound(content)
        word = content.upper()
        if form == "word" and word in _LITERALS:
            return _LITERALS[word]
        if form == "word" and word in ("KEY", "DATETIME", "DATE", "TIME", "USER", "GEOPT"):
            self._need("(")
            parts = self._list(self._value)
            self._need(")")
            return Call(word, parts)
        raise _Other


_LITERALS: Dict[str, Any] = {"TRUE": True, "FALSE": False, "NULL": None}


class Unbound(Exception):
    """An argument isn't given."""


def bound(value: Any, args: Sequence[Any], words: Dict[str, Any]) -> Any:
    """The value of a part of a statement, with these arguments."""
    if isinstance(value, Bound):
        if value.name.isdigit():
            if not 1 <= int(value.name) <= len(args):
                raise Unbound(value.name)
            return args[int(value.name) - 1]
        if value.name not in words:
            raise Unbound(value.name)
        return words[value.name]
    if isinstance(value, Call):
        return _made(value.name, [bound(each, args, words) for each in value.parts])
    return value


def _made(name: str, parts: Sequence[Any]) -> Any:
    """The value of a literal that is made of others."""
    TABLE.refuse(f"gql({name})")
    try:
        if name == "KEY":
            return Key(urlsafe=parts[0]) if len(parts) == 1 else Key(*parts)
        if name == "DATETIME":
            return datetime.datetime.strptime(parts[0], "%Y-%m-%d %H:%M:%S") if isinstance(parts[0], str) else datetime.datetime(*parts)
        if name == "DATE":
            return datetime.datetime.strptime(parts[0], "%Y-%m-%d").date() if isinstance(parts[0], str) else datetime.date(*parts)
        return datetime.datetime.strptime(parts[0], "%H:%M:%S").time() if isinstance(parts[0], str) else datetime.time(*parts)
    except (TypeError, ValueError, BadArgumentError, BadRequestError) as error:
        raise BadQueryError(f"{name}({', '.join(map(repr, parts))}): {error}") from error
