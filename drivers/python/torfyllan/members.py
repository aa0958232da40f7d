"""The table of a library's public members: what the façade does for each, and the sentence that docs/python.md has on it.

A façade's `members.py` makes one `Table` from rows, which its modules, classes and calls ask at run time; the tests walk it, and
`drivers/python/member_tables.py` makes the tables of docs/python.md from it.

    TABLE = Table("google.cloud.datastore", [
        works("Client.{get,put}"),
        works("Client.{get,get_multi}(missing)"),
        without_effect("gets are always up to date", "Client.{get,get_multi}(eventual)"),
        refused("there is one time to read at", "Client.{get,get_multi}(read_time)"),
    ])

A name is a path below the library's module: `Client`, `Client.get`, `helpers.GeoPoint`. An argument stands in parentheses behind its
call, `Client.get(eventual)`, or with a value that is treated so, `Client.query(kind='__kind__')`. Braces stand for several names.
"""
import ast
import itertools
import re
from typing import Any, Callable, Dict, Iterator, List, Mapping, NamedTuple, Optional, Sequence, Tuple

WORKS = "works"
WITHOUT_EFFECT = "without effect"
REFUSED = "refused"


class NotThere(NotImplementedError, AttributeError):
    """A member of an object that the real library has, and this package doesn't. The text is the sentence of docs/python.md on it."""


class NoSuchName(NotImplementedError, ImportError):
    """A name of a module that the real library has, and this package doesn't. The text is the sentence of docs/python.md on it."""


class Row(NamedTuple):
    """Members of which one thing is true: what is done, the page's sentence on it, and how the page names them."""

    names: Tuple[str, ...]
    does: str
    told: str = ""
    shown: str = ""


class Member(NamedTuple):
    """A public member, or an argument of one."""

    name: str
    does: str
    told: str

    @property
    def path(self) -> Tuple[str, ...]:
        """The names from the library's module to the member, or to the call whose argument this is."""
        return tuple(self.name.partition("(")[0].split("."))

    @property
    def argument(self) -> Optional[str]:
        """The argument's name, if this is one."""
        inner = self.name.partition("(")[2].rstrip(")")
        return inner.partition("=")[0] or None

    @property
    def has_value(self) -> bool:
        """Whether only one value of the argument is meant."""
        return "=" in self.name.partition("(")[2]

    @property
    def value(self) -> Any:
        """That value."""
        return ast.literal_eval(self.name.partition("=")[2].rstrip(")"))


def works(*names: str, told: str = "") -> Row:
    """These do what they do in the real library; `told` says what a user has to know, if anything."""
    return Row(names, WORKS, told)


def without_effect(told: str, *names: str, shown: str = "") -> Row:
    """These are taken, and change nothing here. `shown` is how docs/python.md names them, where their names don't say it well."""
    return Row(names, WITHOUT_EFFECT, told, shown)


def refused(told: str, *names: str, shown: str = "") -> Row:
    """These raise an error that says this: why, and what to do instead."""
    return Row(names, REFUSED, told, shown)


_BRACES = re.compile(r"\{([^{}]*,[^{}]*)\}")


def expanded(name: str) -> Iterator[str]:
    """The names that braces stand for: `Client.{get,put}` for `Client.get` and `Client.put`."""
    pieces = _BRACES.split(name)
    choices = [[piece] if at % 2 == 0 else piece.split(",") for at, piece in enumerate(pieces)]
    return map("".join, itertools.product(*choices))


class Table:
    """The public members of a library. A name that stands in two rows is a ValueError."""

    def __init__(self, library: str, rows: Sequence[Row]) -> None:
        self.library = library
        self.rows = list(rows)
        self.members: Dict[str, Member] = {}
        for row in self.rows:
            if row.does != WORKS and not row.told:
                raise ValueError(f"the row of {row.names[0]} has no sentence")
            for name in itertools.chain(*map(expanded, row.names)):
                if name in self.members:
                    raise ValueError(f"{name} stands in two rows")
                self.members[name] = Member(name, row.does, row.told)

    def of(self, does: str) -> List[Member]:
        """The members for which this is done."""
        return [member for member in self.members.values() if member.does == does]

    def sentence(self, name: str) -> str:
        """What an error says of a refused member."""
        return f"{self.library}: {name} isn't there: {self.members[name].told}"

    def refuse(self, name: str) -> None:
        """Raises NotThere where this member is refused."""
        if name in self.members and self.members[name].does == REFUSED:
            raise NotThere(self.sentence(name))

    def refuse_words(self, call: str, words: Mapping[str, Any]) -> None:
        """Looks at the further arguments of a call, which it takes as `**words`.

        One that the table has without effect is taken, and so is a refused one that is None, as it is where it isn't given. Another refused one
        raises NotThere with its sentence, and one that the table doesn't have a TypeError, as Python does.
        """
        for word, value in words.items():
            member = self.members.get(f"{call}({word})")
            if member is None:
                raise TypeError(f"{call}() got an unexpected keyword argument {word!r}")
            if member.does == REFUSED and value is not None:
                raise NotThere(self.sentence(member.name))

    def refuse_value(self, call: str, word: str, value: Any) -> None:
        """Raises NotThere where this value of an argument is refused."""
        self.refuse(f"{call}({word}={value!r})")

    def module_getattr(self, module: str, prefix: str = "") -> Callable[[str], Any]:
        """The `__getattr__` of a module: `__getattr__ = TABLE.module_getattr(__name__)`. In that of `helpers` the prefix is `"helpers."`."""

        def found(name: str) -> Any:
            member = self.members.get(prefix + name)
            if member is not None and member.does == REFUSED:
                raise NoSuchName(self.sentence(member.name))
            raise AttributeError(f"module {module!r} has no attribute {name!r}")

        return found

    def object_getattr(self, owner: type, name: str, prefix: str = "") -> Any:
        """What the `__getattr__` of a class, or of its metaclass, does for a name that the class doesn't have. The prefix is that of its module."""
        for kind in owner.__mro__:
            self.refuse(f"{prefix}{kind.__name__}.{name}")
        raise AttributeError(f"{owner.__name__!r} object has no attribute {name!r}")


# ---- the tables of docs/python.md


def _owned(name: str) -> Tuple[str, str]:
    """A name as its owner and what it is called there; an argument belongs to its call."""
    path, paren, argument = name.partition("(")
    if paren and "=" not in argument:
        return path, argument.rstrip(")") + "="
    owner, _, last = path.rpartition(".")
    return owner, last + paren + argument


def _without_repeats(names: Sequence[str]) -> str:
    """Names behind each other, those that begin as the one before with a point in place of that."""
    before, pieces = "", []
    for name in names:
        start, point, last = name.rpartition(".")
        pieces.append(f".{last}" if point and start == before else name)
        before = start
    return ", ".join(pieces)


def _told(names: Sequence[str]) -> str:
    """Members as docs/python.md names them: those of one owner together, and owners that have the same ones."""
    members: Dict[str, List[str]] = {}
    for name in itertools.chain(*map(expanded, names)):
        owner, last = _owned(name)
        members.setdefault(owner, []).append(last)
    owners: Dict[str, List[str]] = {}
    for owner, every in members.items():
        owners.setdefault(f"`{', '.join(every)}`", []).append(owner)
    return "; ".join(every + (f" of `{_without_repeats(of)}`" if of != [""] else "") for every, of in owners.items())


def _lines_of_what_works(names: Sequence[str]) -> Iterator[str]:
    """A line for each owner, with its members, and with their arguments."""
    lines: Dict[str, Dict[str, List[str]]] = {}
    for name in sorted(itertools.chain(*map(expanded, names)), key=lambda name: (name.count("."), "(" in name)):
        owner, last = _owned(name)
        argument = last if last.endswith("=") else None
        if argument is not None:
            owner, _, last = owner.rpartition(".")
        found = lines.setdefault(owner, {}).setdefault(last, [])
        if argument is not None:
            found.append(argument)
    for owner, members in lines.items():
        told = [name + (f"({', '.join(arguments)})" if arguments else "") for name, arguments in members.items()]
        yield f"| {f'`{owner}`' if owner else 'the module'} | `{', '.join(told)}` |"


def page_table(table: Table) -> str:
    """The tables of a library in docs/python.md: what is refused, without effect, or works and has something to know; and what works as it does there."""
    lines = [f"| In `{table.library}` | Here |", "|---|---|"]
    plain: List[str] = []
    for does in (REFUSED, WITHOUT_EFFECT, WORKS):
        for row in table.rows:
            if row.does == does and row.told:
                lines.append(f"| {row.shown or _told(row.names)} | {does}: {row.told} |")
            elif row.does == does:
                plain += row.names
    return "\n".join([*lines, "", "| Of | Works as in the library |", "|---|---|", *_lines_of_what_works(plain)]) + "\n"
