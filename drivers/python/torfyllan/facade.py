"""What `torfyllan.ndb` and `torfyllan.cloud` share: errors, clients beside a transaction, queries, cursors, values,
lists that stay lists, and imports by Google's names."""
import base64
import contextlib
import datetime
import importlib
import json
import sys
import threading
import types
import weakref
from types import MappingProxyType
from typing import Any, Callable, Dict, Iterator, List, Mapping, NamedTuple, Optional, Sequence, Tuple, Type

from . import values
from .errors import UnknownCommit
from .refusals import Refused

UTC = datetime.timezone.utc

LISTS = "torfyllan.lists"
"""A property, not indexed, that names an entity's lists that the server would give back as no property or one value."""

LONGEST = 1500
"""The bytes that an indexed text or byte string has at most."""

def asking(errors: Mapping[str, Type[Exception]], other: Type[Exception]) -> Callable[..., Any]:
    """A function that calls the driver. It raises a refusal as the exception that the table has for its reason or name,
    or else as the other one; `refusal` of the exception is the refusal. A reply that is withheld on purpose is what the
    table has for `UnknownCommit`; `unknown` of the exception is the driver's."""

    def asked(work: Callable[..., Any], *args: Any, **words: Any) -> Any:
        try:
            return work(*args, **words)
        except Refused as refused:
            reason = getattr(refused.reply, "reason", None) or refused.name
            error = errors.get(reason, errors.get(refused.name, other))(str(refused))
            error.refusal = refused  # type: ignore[attr-defined]
            raise error from None
        except UnknownCommit as unknown:
            late = errors["UnknownCommit"](str(unknown))
            late.unknown = unknown  # type: ignore[attr-defined]
            raise late from None

    return asked


def end_transaction(client: Any, read_only: bool = False) -> None:
    """Commits the open transaction of a client of the server. One that wrote nothing and read one entity group at most, or
    is to be read-only, is rolled back instead, which is never refused: a commit would be, where that group was written.
    """
    session = client.server._sessions[client.number]
    if session.is_open and not session.written and (read_only or len(session.touched) <= 1):
        client.rollback()
    else:
        client.commit()


class Stack(threading.local):
    """What is open in this thread, the innermost last."""

    def __init__(self) -> None:
        self.items: List[Any] = []

    @property
    def last(self) -> Any:
        """The innermost, or None."""
        return self.items[-1] if self.items else None

    @contextlib.contextmanager
    def entered(self, item: Any) -> Iterator[Any]:
        """A block in which this is the innermost."""
        depth = len(self.items)
        self.items.append(item)
        try:
            yield item
        finally:
            if item in self.items:
                self.items.remove(item)
            else:
                # Another one was put in its place.
                del self.items[depth:]


_spare: "weakref.WeakKeyDictionary[Any, Dict[int, bool]]" = weakref.WeakKeyDictionary()
_lock = threading.Lock()


@contextlib.contextmanager
def spare_client(client: Any) -> Iterator[Any]:
    """A client of the same server and namespace that nobody else uses, for work beside a transaction: 15 or below."""
    with _lock:
        lent = _spare.setdefault(client.server, {})
        taken = {each.number for each in client.server.clients() if each.number not in lent}
        sessions = client.server._sessions
        number = next((each for each in range(15, -1, -1) if each not in taken and not lent.get(each) and not sessions[each].is_open), None)
        if number is None:
            raise RuntimeError("work beside a transaction takes a client of its own, and all sixteen are in use")
        lent[number] = True
    try:
        yield client.server.client(number, namespace=client.namespace)
    finally:
        with _lock:
            lent[number] = False


class Run(NamedTuple):
    """How a query is run."""

    limit: Optional[int] = None
    offset: int = 0
    start: Optional[str] = None
    end: Optional[str] = None
    projection: Sequence[str] = ()
    keys_only: bool = False
    cursor: bool = False


def results_of(client: Any, run: Run, ancestor: Any, **words: Any) -> Tuple[List[Any], Optional[str]]:
    """The results of a query, and the cursor behind them, if it is asked for."""
    reply = client.query(
        **words, ancestor=None if ancestor is None else ancestor.to_driver(),
        select="keys" if run.keys_only else list(run.projection) or "entities",
        offset=run.offset or None, limit=run.limit, start=run.start, end=run.end, cursor=run.cursor or None,
    )
    return list(reply), reply.cursor if run.cursor else None


def cursor_in(given: Any, error: Type[Exception]) -> Optional[str]:
    """The server's text of a cursor that stood in a URL; None of an empty one. Raises this error where it is none."""
    if not given:
        return None
    try:
        text = given.encode("ascii") if isinstance(given, str) else bytes(given)
        return base64.b64encode(base64.b64decode(text, b"-_", validate=True)).decode()
    except (ValueError, TypeError) as failed:
        raise error(f"this is no cursor: {given!r}") from failed


def cursor_out(text: str) -> str:
    """A cursor as a text that can stand in a URL."""
    return text.replace("+", "-").replace("/", "_")


def stored(value: Any, indexed: bool = True) -> Any:
    """The driver's value of an application's. One of another type is a TypeError, one that is too long a ValueError."""
    if hasattr(value, "to_driver"):
        return value.to_driver()
    if isinstance(value, datetime.datetime):
        return (value if value.tzinfo is not None else value.replace(tzinfo=UTC)).astimezone(UTC)
    if isinstance(value, (str, bytes)):
        size = len(value.encode() if isinstance(value, str) else value)
        if indexed and size > LONGEST:
            raise ValueError(f"it is indexed and has {size} bytes, more than {LONGEST}; one that isn't may be longer")
    elif isinstance(value, int):
        if not -(2**63) <= value < 2**63:
            raise ValueError(f"an integer has 64 bits: {value}")
    elif isinstance(value, float):
        raise TypeError(f"floats aren't stored; keep a whole number of the smallest unit, or a text: {value!r}")
    elif value is not None and not isinstance(value, values.Key):
        raise TypeError(f"the server stores no {type(value).__name__}: {value!r}")
    return value


def loaded(value: Any, key_of: Callable[[values.Key], Any]) -> Any:
    """The application's value of a driver's, whose keys this function makes."""
    if isinstance(value, values.Key):
        return key_of(value)
    if isinstance(value, (values.Text, values.Blob)):
        return str(value) if isinstance(value, str) else bytes(value)
    return value


def bare(value: Any) -> Any:
    """A property's value without the mark that it is not indexed."""
    return value.value if isinstance(value, values.Unindexed) else value


def with_lists(properties: Dict[str, Any]) -> Dict[str, Any]:
    """The properties to put: names the lists that have less than two values, which the server doesn't keep as lists."""
    lists = {name: bare(value) for name, value in properties.items() if isinstance(bare(value), (list, tuple))}
    short = sorted(name for name, value in lists.items() if len(value) < 2)
    return {**properties, LISTS: values.Text(json.dumps(short))} if short else properties


def without_lists(properties: Dict[str, Any]) -> Dict[str, Any]:
    """The properties as they were put, their short lists as lists."""
    found = dict(properties)
    for name in json.loads(bare(found.pop(LISTS, "[]"))):
        value = found.get(name, [])
        if not isinstance(bare(value), list):
            value = values.Unindexed([value.value]) if isinstance(value, values.Unindexed) else [value]
        found[name] = value
    return found


def _is_there(name: str) -> bool:
    """Whether a module of this name can be imported."""
    try:
        importlib.import_module(name)
    except ImportError:
        return False
    return True


def stand_in(modules: Dict[str, types.ModuleType], where_missing: Mapping[str, types.ModuleType] = MappingProxyType({})) -> None:
    """Makes `import` give these modules, and what stands below them, by these names, for the rest of the process.

    Those of `where_missing` stand in only where there is no such module to import. A package above one that is
    installed stays; one that isn't is made, and empty.
    """
    for name, module in [*modules.items(), *((name, each) for name, each in where_missing.items() if not _is_there(name))]:
        start = f"{module.__name__}."
        below = {f"{name}.{own[len(start) :]}": each for own, each in sys.modules.items() if own.startswith(start)}
        sys.modules.update({name: module, **below})
        while "." in name:
            above, _, last = name.rpartition(".")
            try:
                importlib.import_module(above)
            except (ImportError, ValueError):
                sys.modules[above] = types.ModuleType(above)
                sys.modules[above].__path__ = []
            setattr(sys.modules[above], last, sys.modules[name])
            name = above
