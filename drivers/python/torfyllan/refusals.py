"""The server's refusals, as exceptions of their names."""
import functools
from typing import Any, Dict, Optional, Sequence, Type

from . import explain
from .errors import TorfyllanError
from .journal import Site, Write
from .replies import Reply
from .values import Key


class Refused(TorfyllanError):
    """A request that the server refused, told as a sentence.

    `number` and `name` are the protocol's, `op` is the operation, and `reply` has the further members, which are attributes of the refusal too.
    `asked` is the request as it was sent.
    """

    def __init__(self, reply: Reply, asked: Optional[Dict[str, Any]] = None, namespace: str = "", shards: int = 16) -> None:
        super().__init__(reply)
        self.reply = reply
        self.asked: Dict[str, Any] = asked or {}
        self.op: str = self.asked.get("op", "a request")
        self.namespace = namespace
        self.shards = shards
        self.number: int = reply.error
        self.name: str = reply.name
        self.writer: Optional[Write] = None
        self.begun: Optional[Site] = None
        self.touched: Sequence[Key] = ()
        self.others = 0
        self.added_to: Optional[str] = None

    def __getattr__(self, name: str) -> Any:
        if name.startswith("__") or "reply" not in self.__dict__:
            raise AttributeError(name)
        return getattr(self.reply, name)

    def __str__(self) -> str:
        more = f"; {self.others} more of the round were refused" if self.others else ""
        where = f"({self.name}, error {self.number}: {self.op} of client {self.reply.client}, line {self.reply.line}{more})"
        told = explain.sentence(self)
        return f"{told}\n{where}" if "\n" in told else f"{told} {where}"

    def __reduce__(self) -> Any:
        return _again, (type(self), self.__dict__.copy())


def _again(kind: Type[Refused], state: Dict[str, Any]) -> Refused:
    """A refusal that was pickled or copied."""
    made = kind(state["reply"], state["asked"])
    made.__dict__.update(state)
    return made


class BadJson(Refused):
    """The line isn't JSON as the server reads it."""


class LineTooLong(Refused):
    """The line has more than 2,097,152 bytes."""


class BadRequest(Refused):
    """The member `field` is missing or has a wrong form."""


class BadKey(Refused):
    """In the member `field` no key stands where one is to stand."""


class BadValue(Refused):
    """In the member `field` no value stands where one is to stand."""


class TooLarge(Refused):
    """The entity has more than 1,048,576 bytes: `size`."""


class TooManyRows(Refused):
    """The entity has more than 20,000 index rows: `count`."""


class InTransaction(Refused):
    """Begin, settle or apply of a client that has an open transaction."""


class NoTransaction(Refused):
    """Commit or rollback of a client that has none."""


class SecondGroup(Refused):
    """A second `group` in a transaction without `xg`; None is a root whose id isn't drawn."""


class TooManyGroups(Refused):
    """A 26th group in a transaction."""


class TooManyWrites(Refused):
    """A 501st write in a transaction."""


class Conflict(Refused):
    """A `group` that the transaction touched was written meanwhile, last by `commit`; `writer` says who that was, where it is known."""


class NeedAncestor(Refused):
    """A query without an ancestor in a transaction."""


class BadQuery(Refused):
    """A query that the Datastore doesn't allow, for this `reason`."""


class TooManySubqueries(Refused):
    """`in` and `!=` stand for more than 30 queries: `count`."""


class BadCursor(Refused):
    """`start` or `end`, as `field` tells, is no cursor."""


class CursorMismatch(Refused):
    """`start` or `end`, as `field` tells, is a cursor of another query."""


class BadGql(Refused):
    """The text stops being a statement at byte `at`."""


class IdNotIssued(Refused):
    """The `id` of a written key is one that the server draws, and hasn't: `next` is the first that it has not drawn."""


class IdsExhausted(Refused):
    """From `next` on there aren't so many ids."""


class Expired(Refused):
    """The versions that the transaction reads are gone. It has ended."""


class NoMemory(Refused):
    """The server had no memory. Nothing is written."""


class MissingIndex(Refused):
    """No index serves the query. `index_yaml` is the entry that would, ready to be put below `indexes:` in the index file."""

    @property
    def index_yaml(self) -> str:
        suggestion = self.reply.suggestion
        lines = [f"- kind: {suggestion['kind']}"]
        if suggestion["ancestor"]:
            lines.append("  ancestor: yes")
        lines.append("  properties:")
        for name, direction in suggestion["properties"]:
            lines.append(f"  - name: {name}")
            if direction == "desc":
                lines.append("    direction: desc")
        return "\n".join(lines) + "\n"


@functools.lru_cache(maxsize=None)
def _kinds() -> Dict[str, Type[Refused]]:
    return {kind.__name__: kind for kind in Refused.__subclasses__() if kind.__module__ == __name__}


def refusal(reply: Reply, asked: Dict[str, Any], namespace: str, shards: int) -> Refused:
    """The refusal of a reply, as an exception of its name."""
    return _kinds().get(reply.name, Refused)(reply, asked, namespace, shards)
