"""The Cloud client."""
import contextlib
import os
from typing import Any, Iterable, Iterator, List, Optional, Sequence

from ..facade import Stack
from .aggregation import AggregationQuery
from .batch import Batch
from .calls import ask, outside
from .entity import Entity, entity_in
from .key import Key
from .members import TABLE
from .query import Query
from .transaction import Transaction

_used = Stack()
_of_any_thread: List[Any] = []


@contextlib.contextmanager
def use(connection: Any) -> Iterator[Any]:
    """A block in which clients that were made without a connection speak with this one of a server, in this thread, and in those that have no
    block of their own.

    It is a request of its own: a batch or transaction that is open outside of it is none of the block's.
    """
    if not (hasattr(connection, "query") and hasattr(connection, "begin")):
        raise TypeError(f"cloud.use takes a client of a server, as server.client(), and not {connection!r}")
    _of_any_thread.append(connection)
    try:
        with _used.entered(connection):
            yield connection
    finally:
        _of_any_thread.remove(connection)

_PROJECTS = ("GOOGLE_CLOUD_PROJECT", "DATASTORE_PROJECT_ID", "DATASTORE_DATASET")


class Client:
    """A client over a client of the server: `cloud.Client(server.client())`.

    One that is made without a connection, as an application makes it, speaks with that of the block
    `with cloud.use(server.client())` that it is used in. `namespace` is that of the keys and queries that name none.
    `project`, credentials and options, and in calls `timeout` and `eventual`, have no effect. `retry` is a decorator, as
    `google.api_core.retry.Retry`, for what the call asks of the server.
    """

    SCOPE = ("https://www.googleapis.com/auth/datastore",)

    def __init__(self, connection: Any = None, namespace: Optional[str] = None, credentials: Any = None,
                 client_info: Any = None, client_options: Any = None, database: Optional[str] = None, _http: Any = None,
                 _use_grpc: Optional[bool] = None, *, project: Optional[str] = None) -> None:
        is_project = isinstance(connection, str)
        self._given = None if is_project else connection
        self.namespace = namespace or None
        self.project = (connection if is_project else project) or _project()
        self.database = database
        self.base_url = "https://datastore.googleapis.com"
        self._batches = Stack()

    def __getattr__(self, name: str) -> Any:
        return TABLE.object_getattr(type(self), name)

    @classmethod
    def from_service_account_json(cls, json_credentials_path: Any, *args: Any, **words: Any) -> "Client":
        """A client with these arguments; the file of credentials isn't read."""
        return cls(*args, **words)

    @classmethod
    def from_service_account_info(cls, info: Any, *args: Any, **words: Any) -> "Client":
        """A client with these arguments; the credentials have no effect."""
        return cls(*args, **words)

    def close(self) -> None:
        """Nothing: the server's client has nothing of its own to close."""

    # -- how the server is asked

    def _connection(self) -> Any:
        given = self._given or _used.last or next(reversed(_of_any_thread), None)
        if given is None:
            raise RuntimeError("this client has no server: make it by cloud.Client(server.client()), "
                               "or use it in `with cloud.use(server.client()):`")
        return given

    def _ask(self, call: str, *args: Any, retry: Any, transaction: Any, **words: Any) -> Any:
        """Calls the driver's client, in this transaction or outside of all."""
        if transaction is not None:
            return transaction._ask(retry, call, *args, **words)
        with outside(self._connection()) as connection:
            return ask(retry, getattr(connection, call), *args, **words)

    def _transaction(self, given: Any, eventual: bool) -> Optional[Transaction]:
        """The transaction that a read belongs to: the given one or the current one, while it is open."""
        transaction = self.current_transaction if given is None else given
        if transaction is None or not transaction._is_open:
            return None
        if eventual:
            raise ValueError("eventual must be False when in a transaction")
        return transaction  # type: ignore[no-any-return]

    # -- what it makes

    def _request(self) -> int:
        """The block of `use` that this client is used in, by how many there are round it."""
        return len(_used.items) if self._given is None else 0

    @property
    def current_batch(self) -> Optional[Batch]:
        """The innermost batch or transaction that is open, in this block of `use`."""
        batch = self._batches.last
        return batch if batch is not None and batch._request == self._request() else None

    @property
    def current_transaction(self) -> Optional[Transaction]:
        """The innermost transaction that is open, if no batch stands in it."""
        current = self.current_batch
        return current if isinstance(current, Transaction) else None

    def key(self, *path: Any, **words: Any) -> Key:
        """A key, in the namespace of this client unless it names one."""
        if words.get("parent") is None:
            words.setdefault("namespace", self.namespace)
        words.setdefault("project", self.project)
        return Key(*path, **words)

    def entity(self, key: Optional[Key] = None, exclude_from_indexes: Iterable[str] = ()) -> Entity:
        """An entity without properties."""
        return Entity(key, exclude_from_indexes)

    def query(self, **words: Any) -> Query:
        """A query; `Query` tells its words."""
        return Query(self, **words)

    def aggregation_query(self, query: Query, **words: Any) -> AggregationQuery:
        """How many results a query has: `client.aggregation_query(query).count(alias="all").fetch()`."""
        return AggregationQuery(self, query, **words)

    def batch(self) -> Batch:
        """Writes that are sent together."""
        return Batch(self)

    def transaction(self, **words: Any) -> Transaction:
        """A transaction; `read_only=True` refuses writes in it."""
        return Transaction(self, **words)

    # -- reads and writes

    def get(self, key: Key, missing: Optional[List[Entity]] = None, deferred: Optional[List[Key]] = None,
            transaction: Optional[Transaction] = None, eventual: bool = False, retry: Any = None, timeout: Any = None,
            **words: Any) -> Optional[Entity]:
        """The entity of a key, up to date, or None."""
        TABLE.refuse_words("Client.get", words)
        found = self._read([key], missing, deferred, transaction, eventual, retry)
        return found[0] if found else None

    def get_multi(self, keys: Sequence[Key], missing: Optional[List[Entity]] = None,
                  deferred: Optional[List[Key]] = None, transaction: Optional[Transaction] = None,
                  eventual: bool = False, retry: Any = None, timeout: Any = None, **words: Any) -> List[Entity]:
        """The entities of keys, without those that aren't there; for each of these the list `missing` gets one.

        The list `deferred` gets none, since each key is read.
        """
        TABLE.refuse_words("Client.get_multi", words)
        return self._read(keys, missing, deferred, transaction, eventual, retry)

    def _read(self, keys: Iterable[Key], missing: Optional[List[Entity]], deferred: Optional[List[Key]],
              transaction: Optional[Transaction], eventual: bool, retry: Any) -> List[Entity]:
        for name, given in (("missing", missing), ("deferred", deferred)):
            if given:
                raise ValueError(f"{name} must be None or an empty list")
        current, found = self._transaction(transaction, eventual), []
        for key in keys:
            if key.is_partial:
                raise ValueError(f"a partial key can't be read: {key!r}")
            entity = self._ask("get", key.to_driver(), retry=retry, transaction=current).entity
            if entity is not None:
                found.append(entity_in(entity, self.project))
            elif missing is not None:
                missing.append(Entity(key))
        return found

    def put(self, entity: Entity, retry: Any = None, timeout: Any = None) -> None:
        """Writes an entity, at once or with the open batch or transaction."""
        self._write("put", [entity], retry)

    def put_multi(self, entities: Iterable[Entity], retry: Any = None, timeout: Any = None) -> None:
        """Writes entities, as `put` does."""
        if isinstance(entities, Entity):
            raise ValueError("Pass a sequence of entities")
        self._write("put", entities, retry)

    def delete(self, key: Key, retry: Any = None, timeout: Any = None) -> None:
        """Deletes the entity of a key, at once or with the open batch or transaction."""
        self._write("delete", [key], retry)

    def delete_multi(self, keys: Iterable[Key], retry: Any = None, timeout: Any = None) -> None:
        """Deletes the entities of keys, as `delete` does."""
        self._write("delete", keys, retry)

    def _write(self, operation: str, every: Iterable[Any], retry: Any) -> None:
        batch = self.current_batch
        if batch is not None:
            for each in every:
                getattr(batch, operation)(each)
            return
        batch = self.batch()
        batch.begin()
        for each in every:
            getattr(batch, operation)(each)
        batch.commit(retry=retry)

    # -- ids

    def allocate_ids(self, incomplete_key: Key, num_ids: int, retry: Any = None, timeout: Any = None) -> List[Key]:
        """So many keys, the partial one completed by ids that no put draws."""
        if not incomplete_key.is_partial:
            raise ValueError(f"Key is not partial: {incomplete_key!r}")
        first = ask(retry, self._connection().allocate_ids, num_ids).first
        return [incomplete_key.completed_key(first + at) for at in range(num_ids)]

    def reserve_ids_sequential(self, complete_key: Key, num_ids: int, retry: Any = None, timeout: Any = None) -> None:
        """Reserves so many ids, from the key's on: no put draws them."""
        if isinstance(num_ids, bool) or not isinstance(num_ids, int) or num_ids < 1:
            raise ValueError(f"num_ids is not a valid integer: {num_ids!r}")
        self._reserve(self._id_of(complete_key) + num_ids - 1, retry)

    reserve_ids = reserve_ids_sequential

    def reserve_ids_multi(self, complete_keys: Sequence[Key], retry: Any = None, timeout: Any = None) -> None:
        """Reserves the ids of keys: no put draws them."""
        last = max(map(self._id_of, complete_keys), default=0)
        if last:
            self._reserve(last, retry)

    def _id_of(self, key: Key) -> int:
        if key.is_partial:
            raise ValueError(f"Key is not complete: {key!r}")
        if key.id is None:
            raise ValueError(f"Key must use integer id: {key!r}")
        return key.id

    def _reserve(self, last: int, retry: Any) -> None:
        ask(retry, self._connection().server.reserve_ids, last)


def _project() -> str:
    """The project that the environment names, as on Google Cloud."""
    return next((os.environ[name] for name in _PROJECTS if os.environ.get(name)), "torfyllan")
