"""Batches of writes."""
from typing import Any, Callable, List, NamedTuple, Optional, Set, Tuple

from .calls import ask, outside
from .entity import Entity, properties_out
from .exceptions import InvalidArgument
from .key import Key
from .members import TABLE

MOST = 500
"""The writes that a commit has at most."""


class Mutation(NamedTuple):
    """A write that waits for its commit: `"upsert"` or `"delete"` of a key."""

    operation: str
    key: Key


class Batch:
    """Writes, at most 500, sent together, each a commit: `with client.batch() as batch: batch.put(entity)`."""

    def __init__(self, client: Any) -> None:
        self._client = client
        self._writes: List[Callable[..., Any]] = []
        self._mutations: List[Mutation] = []
        self._drawn: List[Tuple[Entity, Key]] = []
        self._status = "initial"
        self._request = -1

    def __getattr__(self, name: str) -> Any:
        return TABLE.object_getattr(type(self), name)

    @property
    def project(self) -> str:
        """The client's project."""
        return self._client.project  # type: ignore[no-any-return]

    @property
    def namespace(self) -> Optional[str]:
        """The client's namespace."""
        return self._client.namespace  # type: ignore[no-any-return]

    @property
    def database(self) -> Optional[str]:
        """The client's database."""
        return self._client.database  # type: ignore[no-any-return]

    @property
    def mutations(self) -> List[Mutation]:
        """The writes so far: the operation and the key of each."""
        return list(self._mutations)

    def current(self) -> "Optional[Batch]":
        """The innermost batch or transaction of the client that is open."""
        return self._client.current_batch  # type: ignore[no-any-return]

    def put(self, entity: Entity) -> None:
        """Adds an entity, as it is now, to what is written. A partial key becomes complete when it is."""
        self._check("put")
        if entity.key is None:
            raise ValueError("Entity must have a key: Entity(key=client.key(...))")
        key, properties = entity.key, properties_out(entity)

        def write(retry: Any, connection: Any) -> None:
            drawn = ask(retry, connection.put, key.to_driver(), properties).key
            if key.is_partial:
                self._drawn.append((entity, key.completed_key(drawn.identifier)))

        self._add(Mutation("upsert", key), write)

    def delete(self, key: Key) -> None:
        """Adds a delete to what is written."""
        self._check("delete")
        if key.is_partial:
            raise ValueError(f"Key must be complete: {key!r}")
        self._add(Mutation("delete", key), lambda retry, connection: ask(retry, connection.delete, key.to_driver()))

    def _add(self, mutation: Mutation, write: Callable[..., Any]) -> None:
        self._mutations.append(mutation)
        self._writes.append(write)

    def _check(self, call: str) -> None:
        if self._status != "begun":
            raise ValueError(f"Batch must be in progress to {call}()")

    def begin(self) -> None:
        """Begins the batch; a `with` block does it."""
        if self._status != "initial":
            raise ValueError("Batch already started previously.")
        self._status = "begun"

    def commit(self, retry: Any = None, timeout: Any = None) -> None:
        """Sends the writes; a `with` block does it at its end."""
        self._check("commit")
        self._status = "over"
        if len(self._writes) > MOST:
            raise InvalidArgument(f"a commit has at most {MOST} writes, and this one {len(self._writes)}")
        self._send(retry)

    def _send(self, retry: Any) -> None:
        written: Set[Key] = set()
        for mutation in self._mutations:
            if mutation.key in written:
                raise InvalidArgument(f"outside of a transaction a commit has one write of a key, and this one several of {mutation.key!r}")
            if not mutation.key.is_partial:
                written.add(mutation.key)
        for write in self._writes:
            with outside(self._client._connection()) as connection:
                write(retry, connection)
            self._complete()

    def _complete(self) -> None:
        """Gives entities that are written the keys that were drawn for them."""
        for entity, key in self._drawn:
            entity.key = key
        self._drawn.clear()

    def rollback(self) -> None:
        """Forgets the writes; a `with` block does it where an exception ends it."""
        self._check("rollback")
        self._status = "over"

    def __enter__(self) -> Any:
        self.begin()
        self._request = self._client._request()
        self._client._batches.items.append(self)
        return self

    def __exit__(self, kind: Any, error: Any, trace: Any) -> None:
        try:
            if self._status == "begun":
                self.commit() if kind is None else self.rollback()
        finally:
            self._client._batches.items.remove(self)
