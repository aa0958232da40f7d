"""A context: what one request sees, with its cache of entities, its connection and its transaction."""
import contextlib
from typing import Any, Callable, Dict, Iterator, List, Optional, Tuple

from .. import values
from ..facade import Stack
from . import namespace_manager
from .datastore_errors import BadRequestError, KindError, asked
from .futures import Future, ran, result_of
from .key import KINDS, Key, from_driver
from .members import TABLE, Refusing, package_getattr
from .options import taken

_contexts = Stack()
_clients: List[Any] = []
"""The clients of the blocks of `use` that are open in any thread, the innermost last."""

Policy = Optional[Callable[[Key], Any]]


def _policy(given: Any) -> Policy:
    return given if given is None or callable(given) else lambda key: given


class Context(metaclass=Refusing):
    """What one request sees. `ndb.use(client)` makes one; each transaction has another, with an empty cache."""

    def __init__(self, client: Any, outside: "Optional[Context]" = None) -> None:
        self.client = client
        self.outside = outside
        self._cache: Dict[Key, Any] = {}
        self._policies: Dict[str, Policy] = {} if outside is None else dict(outside._policies)
        self._on_commit: List[Callable[[], Any]] = []

    # -- policies

    def set_cache_policy(self, func: Any) -> None:
        """Which keys are cached in this context: a function of the key, True, False, or None for all."""
        self._policies["cache"] = _policy(func)

    def get_cache_policy(self) -> Policy:
        """The function of the key that says whether it is cached; None where none is set."""
        return self._policies.get("cache")

    def set_memcache_policy(self, func: Any) -> None:
        """Kept, and without effect: there is no memcache."""
        self._policies["memcache"] = _policy(func)

    def get_memcache_policy(self) -> Policy:
        """What `set_memcache_policy` was given, as a function."""
        return self._policies.get("memcache")

    def set_memcache_timeout_policy(self, func: Any) -> None:
        """Kept, and without effect: there is no memcache."""
        self._policies["memcache_timeout"] = _policy(func)

    def get_memcache_timeout_policy(self) -> Policy:
        """What `set_memcache_timeout_policy` was given, as a function."""
        return self._policies.get("memcache_timeout")

    def set_global_cache_policy(self, policy: Any) -> None:
        """Kept, and without effect: there is no cache that requests share."""
        self._policies["global_cache"] = _policy(policy)

    def get_global_cache_policy(self) -> Policy:
        """What `set_global_cache_policy` was given, as a function."""
        return self._policies.get("global_cache")

    def set_global_cache_timeout_policy(self, policy: Any) -> None:
        """Kept, and without effect: there is no cache that requests share."""
        self._policies["global_cache_timeout"] = _policy(policy)

    def get_global_cache_timeout_policy(self) -> Policy:
        """What `set_global_cache_timeout_policy` was given, as a function."""
        return self._policies.get("global_cache_timeout")

    def get_namespace(self) -> str:
        """The namespace that keys and queries have which name none."""
        return namespace_manager.get_namespace()

    def set_datastore_policy(self, func: Any) -> None:
        """Kept; an operation of a key for which it says False is refused, since nothing else would keep its entity."""
        self._policies["datastore"] = _policy(func)

    def get_datastore_policy(self) -> Policy:
        """What `set_datastore_policy` was given, as a function."""
        return self._policies.get("datastore")

    @staticmethod
    def default_cache_policy(key: Key) -> Optional[bool]:
        """What the class of the key's kind says by `_use_cache`; None where it says nothing."""
        return getattr(KINDS.get(key.kind()), "_use_cache", None)

    @staticmethod
    def default_memcache_policy(key: Key) -> Optional[bool]:
        """What the class of the key's kind says by `_use_memcache`; None where it says nothing."""
        return getattr(KINDS.get(key.kind()), "_use_memcache", None)

    @staticmethod
    def default_memcache_timeout_policy(key: Key) -> Optional[int]:
        """What the class of the key's kind says by `_memcache_timeout`; None where it says nothing."""
        return getattr(KINDS.get(key.kind()), "_memcache_timeout", None)

    @staticmethod
    def default_datastore_policy(key: Key) -> Optional[bool]:
        """What the class of the key's kind says by `_use_datastore`; None where it says nothing."""
        return getattr(KINDS.get(key.kind()), "_use_datastore", None)

    # -- the cache

    def clear_cache(self) -> None:
        """Forgets the entities of this context; the next read of each goes to the server."""
        self._cache.clear()

    def flush(self) -> "Future[None]":
        """A future that is done: nothing waits to be sent."""
        return result_of(None)

    def _chosen(self, policy: str, key: Key, default: Callable[[Key], Any]) -> Any:
        function = self._policies.get(policy)
        chosen = function(key) if function is not None else None
        return default(key) if chosen is None else chosen

    def _caches(self, key: Key, options: Dict[str, Any]) -> bool:
        if self._chosen("datastore", key, self.default_datastore_policy) is False:
            TABLE.refuse("ContextOptions(use_datastore=False)")
        chosen = options.get("use_cache")
        if chosen is None:
            chosen = self._chosen("cache", key, self.default_cache_policy)
        return chosen is None or bool(chosen)

    def _keep(self, key: Key, entity: Any, options: Dict[str, Any]) -> None:
        if self._caches(key, options):
            self._cache[key] = entity
        else:
            self._cache.pop(key, None)

    def _has(self, key: Key) -> bool:
        """Whether the cache tells of this key; an entity that was given another key meanwhile doesn't count."""
        return key in self._cache and (self._cache[key] is None or self._cache[key]._key == key)

    def adopt(self, entity: Any, options: Dict[str, Any]) -> Any:
        """The entity of a query's result as this context has it, which counts as newer: None if it was deleted here."""
        if entity._projection or not self._caches(entity._key, options):
            return entity
        return self._cache[entity._key] if self._has(entity._key) else self._cache.setdefault(entity._key, entity)

    # -- operations, as the calls of entities and keys make them

    def hooked(self, name: str, key: Key, options: Dict[str, Any]) -> Any:
        """Runs `get` or `delete` of a key, between the hooks of its model class."""
        work, kind = {"get": self._read, "delete": self._remove}[name], KINDS.get(key.kind())
        if kind is not None:
            getattr(kind, f"_pre_{name}_hook")(key)
        done: "Future[Any]" = ran(work, key, options)
        if kind is not None:
            getattr(kind, f"_post_{name}_hook")(key, done)
        return done.get_result()

    def _read(self, key: Key, options: Dict[str, Any]) -> Any:
        if key.id() is None:
            raise BadRequestError(f"an incomplete key can't be read: {key!r}")
        caches = self._caches(key, options)
        if caches and self._has(key):
            return self._cache[key]
        found = asked(self.client.get, key.to_driver()).entity
        entity = None if found is None else entity_of(found)
        if caches and entity is not None:
            self._cache[key] = entity
        return entity

    def write(self, entity: Any, options: Dict[str, Any], properties: Optional[Dict[str, Any]] = None) -> Key:
        """Writes an entity that is ready, and gives its key; `properties`, if they are given, are what it has."""
        done = ran(self._write, entity, options, properties)
        entity._post_put_hook(done)
        return done.get_result()

    def _write(self, entity: Any, options: Dict[str, Any], properties: Optional[Dict[str, Any]]) -> Key:
        self._caches(entity._key, options)
        written = asked(self.client.put, entity._key.to_driver(), properties or entity._to_properties())
        key = entity._key = from_driver(written.key)
        self._keep(key, entity, options)
        return key

    def _remove(self, key: Key, options: Dict[str, Any]) -> None:
        if key.id() is None:
            raise BadRequestError(f"an incomplete key can't be deleted: {key!r}")
        self._caches(key, options)
        asked(self.client.delete, key.to_driver())
        self._keep(key, None, options)

    # -- the same as calls of the context, which give futures

    def get(self, key: Key, **options: Any) -> "Future[Any]":
        """As `key.get_async()`."""
        given = taken("Context.get", options)
        return ran(self._inside, lambda: key.get(**given))

    def put(self, entity: Any, **options: Any) -> "Future[Key]":
        """As `entity.put_async()`."""
        given = taken("Context.put", options)
        return ran(self._inside, lambda: entity.put(**given))

    def delete(self, key: Key, **options: Any) -> "Future[None]":
        """As `key.delete_async()`."""
        given = taken("Context.delete", options)
        return ran(self._inside, lambda: key.delete(**given))

    def transaction(self, callback: Callable[[], Any], **options: Any) -> "Future[Any]":
        """As `ndb.transaction_async(callback)`."""
        from .transactions import transaction

        return ran(self._inside, lambda: transaction(callback, **options))

    def map_query(self, query: Any, callback: Any = None, **options: Any) -> "Future[Any]":
        """As `query.map_async(callback)`."""
        return ran(self._inside, lambda: query.map(callback, **options))

    def iter_query(self, query: Any, **options: Any) -> Any:
        """As `query.iter()`."""
        return self._inside(lambda: query.iter(**options))

    def _inside(self, work: Callable[[], Any]) -> Any:
        if _contexts.last is self:
            return work()
        with _contexts.entered(self):
            return work()

    def in_transaction(self) -> bool:
        """Whether this context is that of a transaction."""
        return self.outside is not None

    def call_on_commit(self, callback: Callable[[], Any]) -> None:
        """Calls back once the transaction is committed; at once where none is open."""
        if self.outside is None:
            callback()
        else:
            self._on_commit.append(callback)

    def __getattr__(self, name: str) -> Any:
        return TABLE.object_getattr(type(self), name)


def entity_of(found: values.Entity, projection: Tuple[str, ...] = ()) -> Any:
    """The entity of a driver's entity, of the class of its kind."""
    key = from_driver(found.key)
    if key.kind() not in KINDS:
        raise KindError(f"no model class of kind {key.kind()!r} was made; import the module that has it")
    entity = KINDS[key.kind()]._loaded_from(found.properties, projection)
    entity._key = key
    return entity


def get_context() -> Context:
    """The context of this thread."""
    if _contexts.last is None:
        raise RuntimeError("ndb has no server here: use it in `with ndb.use(server.client()):`, in each thread anew")
    return _contexts.last  # type: ignore[no-any-return]


def use(client: Any) -> "contextlib.AbstractContextManager[Context]":
    """A block in which ndb speaks with this client of a server, as one request does, with a cache of its own.

    Blocks may stand in each other, each with its own client: two requests at once. It counts for its thread alone.
    """
    if not (hasattr(client, "query") and hasattr(client, "begin")):
        raise TypeError(f"ndb.use takes a client of a server, as server.client(), and not {client!r}")
    return _used(client)


@contextlib.contextmanager
def _used(client: Any) -> Iterator[Context]:
    _clients.append(client)
    try:
        with namespace_manager.entered(), _contexts.entered(Context(client)) as context:
            yield context
    finally:
        _clients.remove(client)


def entered(context: Context) -> "contextlib.AbstractContextManager[Context]":
    """A block of this thread that has this context."""
    return _contexts.entered(context)


def replace(context: Context) -> None:
    """Makes this the context of the block that is open in this thread, or of a thread that has none."""
    _contexts.items[-1:] = [context]


def client_of_any_thread() -> Any:
    """The client of the innermost block of `use` that is open in any thread; None where none is."""
    return _clients[-1] if _clients else None


__getattr__ = package_getattr(__name__)
