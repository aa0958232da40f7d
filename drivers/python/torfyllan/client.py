"""A client: one method for each operation of the protocol, and calls that send several lines."""
import contextlib
from typing import TYPE_CHECKING, Any, Callable, Dict, Generic, Iterable, Iterator, List, Mapping, Optional, Sequence, TypeVar, Union

from .errors import TorfyllanError
from .gql_keys import keys_bound
from .journal import kind_of
from .refusals import Conflict, Refused
from .replies import Reply
from . import rules
from .rules import MEMBERS
from .shards import shard_of
from .spaces import space_out
from .values import Entity, Key, Many, Unindexed
from .wire import filter_out, key_out, list_of, order_out, properties_out, select_out, value_out

if TYPE_CHECKING:
    from .rounds import Pending
    from .server import Server

# A report of pytest shows the test's own lines, and none of these.
__tracebackhide__ = True

Answer = TypeVar("Answer")
Result = TypeVar("Result")


class Requests(Generic[Answer]):
    """The operations of the protocol. Each gives what `_send` makes of its line: a `Reply`, or in a round a `Pending`."""

    number: int
    namespace: str
    _server: "Server"

    def _send(self, asked: Dict[str, Any]) -> Answer:
        raise NotImplementedError

    def _ask(self, op: str, **members: Any) -> Answer:
        unknown = [name for name in members if name not in MEMBERS[op]]
        if op in ("query", "gql"):
            _check_kind(kind_of({"op": op, **members}))
        if unknown:
            raise TypeError(f"{op} has no member {unknown[0]!r}; it has {', '.join(MEMBERS[op]) or 'none'}")
        return self._send({"client": self.number, "op": op, **{name: value for name, value in members.items() if value is not None}})

    def put(self, key: Union[Key, Entity], properties: Optional[Mapping[str, Any]] = None, /, **more: Any) -> Answer:
        """Writes an entity: `put(Key("T", "a"), n=5)`, `put(key, {"n": 5})` or `put(entity)`. The reply has the key.

        It writes the whole entity, in place of one that has its key. A value that the server has no type for is a TypeError.
        """
        if isinstance(key, Entity):
            if properties or more:
                raise TypeError("an entity has its properties; give a key to put others")
            entity = key
        else:
            entity = Entity(key, properties, **more)
        written = key_out(entity.key, self.namespace)
        for name, value in entity.properties.items():
            if isinstance(value.value if isinstance(value, Unindexed) else value, Many):
                self._server._note_many(self.namespace, entity.key.kind, name)
        return self._ask("put", entity={"key": written, "properties": properties_out(entity.properties, self.namespace)})

    def delete(self, key: Key) -> Answer:
        """Deletes the entity of this key, where there is one."""
        return self._ask("delete", key=key_out(key, self.namespace))

    def get(self, key: Key) -> Answer:
        """Reads an entity, up to date: `entity` of the reply is None where there is none."""
        return self._ask("get", key=key_out(key, self.namespace))

    def query(
        self,
        kind: Optional[str] = None,
        *,
        namespace: Optional[str] = None,
        ancestor: Optional[Key] = None,
        filters: Iterable[Any] = (),
        orders: Iterable[Any] = (),
        select: Union[str, Iterable[str]] = "entities",
        offset: Optional[int] = None,
        limit: Optional[int] = None,
        start: Optional[str] = None,
        end: Optional[str] = None,
        cursor: Optional[bool] = None,
    ) -> Answer:
        """Runs a query: `query("Task", filters=[("n", ">", 3)], orders=["-n"], limit=10)`. The reply is a sequence of results.

        An order is a name, with `-` before it for descending, or a pair of a name and `"asc"` or `"desc"`. `select` is
        `"entities"`, `"keys"` or a list of properties. With `cursor=True` the reply's `cursor` is where the next page begins.
        `namespace` is that of the entities, where it isn't the client's.
        """
        return self._ask(
            "query",
            namespace=space_out(namespace, self.namespace) or None,
            kind=kind,
            ancestor=None if ancestor is None else key_out(ancestor, self.namespace),
            filters=[filter_out(one, self.namespace) for one in list_of("filters", filters, "[('a', '=', 1)]")] or None,
            orders=[order_out(order) for order in list_of("orders", orders, "['-a']")] or None,
            select=select_out(select),
            offset=offset,
            limit=limit,
            start=start,
            end=end,
            cursor=cursor,
        )

    def gql(
        self,
        text: str,
        *args: Any,
        names: Optional[Mapping[str, Any]] = None,
        namespace: Optional[str] = None,
        start: Optional[str] = None,
        end: Optional[str] = None,
        cursor: Optional[bool] = None,
    ) -> Answer:
        """Runs a GQL statement: `gql("SELECT * FROM Task WHERE n > :1", 3)`, or with `names={"n": 3}` and `:n`.

        `namespace` is that of the entities, where it isn't the client's. A `KEY('Task', 'a')` in the text is a key of that namespace.
        """
        names = dict(names or {})
        if self.namespace or namespace:
            text, keys = keys_bound(text, names, namespace)
            names.update(keys)
        return self._ask(
            "gql",
            namespace=space_out(namespace, self.namespace) or None,
            text=text,
            args=[value_out(value, self.namespace) for value in args] or None,
            names={name: value_out(value, self.namespace) for name, value in names.items()} or None,
            start=start,
            end=end,
            cursor=cursor,
        )

    def begin(self, xg: bool = False) -> Answer:
        """Begins a transaction, of one entity group, or with `xg` of up to 25."""
        return self._ask("begin", xg=xg)

    def commit(self) -> Answer:
        """Commits the open transaction: a `Conflict` where a group that it touched was written meanwhile."""
        return self._ask("commit")

    def rollback(self) -> Answer:
        """Drops the open transaction."""
        return self._ask("rollback")

    def allocate_ids(self, count: int) -> Answer:
        """Draws ids: those from `first` of the reply on, `count` of them."""
        return self._ask("allocate_ids", count=count)

    def settle(self) -> Answer:
        """Applies all that is committed: queries then see it."""
        return self._ask("settle")


def _check_kind(kind: Optional[str]) -> None:
    """Refuses a query of metadata or statistics, which the server would answer with no result."""
    if isinstance(kind, str) and rules.is_reserved(kind):
        raise ValueError(
            f"the kind {kind!r} is one of the Datastore's own, and the server has none of them: no list of kinds, namespaces or properties,"
            " and no statistics; name the kinds that the application has"
        )


class Client(Requests[Reply]):
    """One of the sixteen clients. Each call sends one line in a round of its own, and gives the reply or raises the refusal."""

    def __init__(self, server: "Server", number: int, namespace: str) -> None:
        self._server = server
        self.number = number
        self.namespace = namespace

    @property
    def server(self) -> "Server":
        """The server that this is a client of."""
        return self._server

    def __repr__(self) -> str:
        space = f", namespace={self.namespace!r}" if self.namespace else ""
        return f"<client {self.number}{space}>"

    @property
    def in_transaction(self) -> bool:
        """Whether the client of this number has an open transaction."""
        return self._server._sessions[self.number].is_open

    def _send(self, asked: Dict[str, Any]) -> Reply:
        self._server._sessions[self.number].check(asked["op"])
        return self._server._ask_round([(self, asked)])[0].reply

    # -- what is applied

    def shard_of(self, key: Key) -> int:
        """The shard, from 0, of the key's entity group. A root without its id is a ValueError."""
        return shard_of(key, self._server.shards, self.namespace)

    def apply(self, which: Union[int, Key] = 0, *, shard: Optional[int] = None) -> Reply:
        """Applies one entry of a shard, where one waits: `apply(3)`; or all that waits in the shard of a key's group: `apply(key)`.

        `applied` of the reply says whether an entry was applied, `count` how many of the shard are, and the reply is true where one was.
        """
        if shard is not None:
            which = shard
        if not isinstance(which, Key):
            return self._ask("apply", shard=which)
        shard, some, lines = self.shard_of(which), False, 1
        while True:
            pendings = self._server._ask_round([(self, {"client": self.number, "op": "apply", "shard": shard}) for _ in range(lines)])
            last = pendings[-1].reply
            some = some or pendings[0].reply.applied
            if not last.applied:
                return Reply({**last._members, "applied": some})
            lines = min(2 * lines, 4096)

    # -- transactions

    @contextlib.contextmanager
    def transaction(self, xg: bool = False) -> Iterator["Client"]:
        """Begins a transaction and commits it at the end of the block; an exception in the block rolls it back.

        A `rollback` or `commit` in the block ends the transaction, and nothing more is sent before the block is left. The commit at the end may raise
        `Conflict`: nothing was then written, and the block may be run again.
        """
        self.begin(xg=xg)
        session = self._server._sessions[self.number]
        session.in_block = True
        try:
            yield self
        except BaseException:
            session.leave_block()
            if self.in_transaction and self._server.is_alive:
                with contextlib.suppress(Refused):
                    self.rollback()
            raise
        ended = session.leave_block()
        if ended is None:
            self.commit()
        elif ended not in ("commit", "rollback"):
            raise TorfyllanError(f"the transaction of the block was ended by {ended}, and nothing of it is written")

    def run_in_transaction(self, work: Callable[[], Result], *, xg: bool = False, tries: int = 4) -> Result:
        """Gives what `work()` gives, run in a transaction; after a `Conflict` it is run again, at most so many times in all."""
        if tries < 1:
            raise ValueError("tries is at least 1")
        for left in reversed(range(tries)):
            try:
                with self.transaction(xg=xg):
                    result = work()
                return result
            except Conflict:
                if not left:
                    raise
        raise AssertionError("the last try gives or raises")

    # -- several at once

    def _many(self, ask: "Callable[[Requests[Pending]], List[Pending]]") -> List[Reply]:
        """Replies of lines that are sent together, after all of them are answered; the first refusal is raised."""
        with self._server._long_round() as collected:
            pendings = ask(collected.client(self))
        return [pending.reply for pending in pendings]

    def put_multi(self, entities: Iterable[Entity]) -> List[Key]:
        """Writes entities, and gives their keys. Outside a transaction each is a commit of its own: where one is refused, which is
        raised once all are answered, the others are written."""
        return [reply.key for reply in self._many(lambda client: [client.put(entity) for entity in entities])]

    def get_multi(self, keys: Iterable[Key]) -> List[Optional[Entity]]:
        """Reads entities, up to date, in the order of their keys; None for each that isn't there."""
        return [reply.entity for reply in self._many(lambda client: [client.get(key) for key in keys])]

    def delete_multi(self, keys: Iterable[Key]) -> None:
        """Deletes entities. Outside a transaction each is a commit of its own, as in `put_multi`."""
        self._many(lambda client: [client.delete(key) for key in keys])

    def fetch(self, kind: Optional[str] = None, **words: Any) -> List[Any]:
        """The results of a query, with the words of `query`, as a list."""
        return list(self.query(kind, **words))

    def count(self, kind: Optional[str] = None, **words: Any) -> int:
        """The number of results of a query, with the words of `query`."""
        if words.get("select", "entities") == "entities":
            words["select"] = "keys"
        return len(self.query(kind, **words))

    def pages(self, kind: Optional[str] = None, *, size: int, **words: Any) -> Iterator[List[Any]]:
        """The results of a query, with the words of `query`, in lists of this size; the last may be shorter.

        Each page is a query of its own, from the cursor of the one before, or by offset where `in` or `!=` allows no cursor. A page may show an
        entity again that an earlier one showed by another of its values.
        """
        if size < 1:
            raise ValueError(f"a page has at least one result, and not {size}")
        filters: Sequence[Any] = words.get("filters", ())
        by_offset = any(len(one) == 3 and one[1] in ("in", "!=") for one in filters)
        offset = words.pop("offset", None) or 0
        while True:
            if by_offset:
                found = self.query(kind, **words, offset=offset, limit=size)
                offset += size
            else:
                found = self.query(kind, **words, offset=offset or None, limit=size, cursor=True)
                words["start"], offset = found.cursor, 0
            if found:
                yield list(found)
            if len(found) < size:
                return

    # -- entities as JSON

    def dump(self, file: Any, kind: Optional[str] = None) -> int:
        """Writes the namespace's entities, of this kind or of all, to a file of this name, one JSON object a line; gives their number.

        What is committed is applied first.
        """
        from .dumps import dump

        return dump(self, file, kind)

    def load(self, file: Any) -> int:
        """Puts the entities of such a file into the client's namespace, and gives their number. Ids that the server would draw are reserved
        first, and the entities are applied."""
        from .dumps import load

        return load(self, file)
