"""Transactions."""
import contextlib
from typing import Any, Callable, Dict, Optional

from .. import values
from ..facade import spare_client
from ..wire import key_in, key_out
from .batch import Batch, Mutation
from .calls import ask, turn
from .exceptions import Aborted
from .members import TABLE


class Transaction(Batch):
    """A transaction: reads see the time at which it touched their group, writes are sent at its end, all or none.

    A conflict is an `Aborted`, which is a `Conflict`: nothing was written, and the application tries again. One that wrote nothing and read one
    group, and one that is read-only, end by a rollback, which is never refused; one that read several groups is committed.
    """

    def __init__(self, client: Any, read_only: bool = False, begin_later: bool = False, **words: Any) -> None:
        TABLE.refuse_words("Transaction", words)
        super().__init__(client)
        self._read_only, self._begins_later = read_only, begin_later
        self._connection: Any = None
        self._lent = contextlib.ExitStack()
        self._places: Dict[values.Key, int] = {}
        self._id: Optional[bytes] = None

    @property
    def id(self) -> Optional[bytes]:
        """What names the transaction while it is open; None before and behind that."""
        return self._id

    def current(self) -> "Optional[Transaction]":
        """The innermost transaction of the client that is open, if no batch stands in it."""
        return self._client.current_transaction  # type: ignore[no-any-return]

    def _add(self, mutation: Mutation, write: Callable[..., Any]) -> None:
        if self._read_only:
            raise RuntimeError("Transaction is read only")
        super()._add(mutation, write)

    def begin(self, retry: Any = None, timeout: Any = None) -> None:
        """Begins the transaction, by a client of the server that has none; a `with` block does it."""
        super().begin()
        with turn:
            connection = self._client._connection()
            if connection.in_transaction:
                connection = self._lent.enter_context(spare_client(connection))
            try:
                ask(retry, connection.begin, xg=True)
            except BaseException:
                self._lent.close()
                raise
        self._connection = connection
        self._id = b"transaction of client %d" % connection.number

    def _check(self, call: str) -> None:
        if self._begins_later and self._status == "initial":
            self.begin()
        super()._check(call)

    # -- reads

    @property
    def _is_open(self) -> bool:
        return self._id is not None

    def _ask(self, retry: Any, call: str, *args: Any, **words: Any) -> Any:
        """Calls the driver in this transaction: a get, or a query with an ancestor."""
        if not self._connection.in_transaction:
            raise Aborted("the transaction has ended by the refusal of an earlier call: begin it anew")
        reply = ask(retry, getattr(self._connection, call), *args, **words)
        key = args[0] if call == "get" else words.get("ancestor")
        if key is not None:
            self._touch(key, reply.place)
        return reply

    def _touch(self, key: values.Key, place: int) -> None:
        """Notes at which commit a group was touched. A read-only transaction sees one time: it is refused where a group that it read was written
        before it touched the next."""
        root = _absolute(key, self._connection.namespace)
        if root in self._places:
            return
        if self._read_only and self._places:
            journal = self._connection.server._journal
            for commit in range(min(self._places.values()) + 1, place + 1):
                write = journal.writer(commit)
                for written in write.keys if write is not None else ():
                    if self._places.get(_absolute(written, ""), commit) < commit:
                        raise Aborted(f"the group of {written!r} was written before this read-only transaction read another group: begin it anew")
        self._places[root] = place

    # -- its end

    def _send(self, retry: Any) -> None:
        try:
            if not self._writes and (self._read_only or len(self._places) < 2):
                return
            for write in self._writes:
                write(None, self._connection)
            ask(retry, self._connection.commit)
            self._complete()
        finally:
            self._end()

    def commit(self, retry: Any = None, timeout: Any = None) -> None:
        """Sends the writes and commits; a `with` block does it at its end. `Aborted` where a group that it touched was written meanwhile."""
        try:
            super().commit(retry, timeout)
        finally:
            self._end()

    def rollback(self, retry: Any = None, timeout: Any = None) -> None:
        """Forgets the writes and ends the transaction; a `with` block does it where an exception ends it."""
        try:
            super().rollback()
        finally:
            self._end()

    def _end(self) -> None:
        """Sees to it that the transaction isn't open any more."""
        if self._id is None:
            return
        self._id = None
        try:
            if self._connection.in_transaction and self._connection.server.is_alive:
                self._connection.rollback()
        finally:
            self._lent.close()


def _absolute(key: values.Key, space: str) -> values.Key:
    """The root of a key, with the namespace that the server has for it."""
    return key_in(key_out(key.root, space), "")
