"""Options of calls: objects that hold arguments, for `options=`, and what a call makes of both."""
from typing import Any, Dict, Mapping, Optional, Tuple

from .datastore_errors import BadArgumentError
from .members import TABLE

EVENTUAL_CONSISTENCY = 1
STRONG_CONSISTENCY = 0


class ContextOptions:
    """Arguments of gets, puts and deletes: `ContextOptions(use_cache=False)`; each is an attribute, None where it isn't given."""

    STRONG_CONSISTENCY, EVENTUAL_CONSISTENCY, APPLY_ALL_JOBS_CONSISTENCY = 0, 1, 2
    _names: Tuple[str, ...] = (
        "use_cache", "use_memcache", "use_datastore", "memcache_timeout", "memcache_deadline", "max_memcache_items",
        "deadline", "read_policy", "force_writes", "on_completion", "max_put_entities", "max_get_keys", "max_delete_keys",
        "max_allocate_ids_keys", "max_entity_groups_per_rpc", "max_rpc_bytes", "timeout", "retries", "read_consistency",
        "use_global_cache", "global_cache_timeout",
    )

    def __init__(self, config: "Optional[ContextOptions]" = None, **words: Any) -> None:
        if unknown := [name for name in words if name not in self._names]:
            raise TypeError(f"{type(self).__name__} has no option {unknown[0]!r}; it has {', '.join(self._names)}")
        self._given: Dict[str, Any] = dict(config._given) if config is not None else {}
        self._given.update({name: value for name, value in words.items() if value is not None})

    def __getattr__(self, name: str) -> Any:
        if name.startswith("__") or name not in self._names:
            raise AttributeError(f"{type(self).__name__} has no option {name!r}")
        return self.__dict__.get("_given", {}).get(name)

    def merge(self, config: "Optional[ContextOptions]") -> "ContextOptions":
        """These options, and those of another one where both have one the other's."""
        return type(self)(self, **(config._given if config is not None else {}))

    def __eq__(self, other: object) -> bool:
        return isinstance(other, ContextOptions) and self._given == other._given

    def __hash__(self) -> int:
        return hash(tuple(sorted(self._given)))

    def __repr__(self) -> str:
        return f"{type(self).__name__}({', '.join(f'{name}={value!r}' for name, value in self._given.items())})"


class TransactionOptions(ContextOptions):
    """Arguments of `transaction`: `xg`, `retries`, `propagation`."""

    NESTED, MANDATORY, ALLOWED, INDEPENDENT = 1, 2, 3, 4
    _names = (*ContextOptions._names, "xg", "propagation", "app", "join", "read_only")


class QueryOptions(ContextOptions):
    """Arguments of a query's `fetch` and its kin."""

    ORDER_FIRST, ANCESTOR_FIRST, FILTER_FIRST = 1, 2, 3
    _names = (
        *ContextOptions._names, "limit", "offset", "keys_only", "projection", "start_cursor", "end_cursor",
        "produce_cursors", "batch_size", "prefetch_size", "hint",
    )


def taken(call: str, words: Mapping[str, Any], default: Optional[ContextOptions] = None) -> Dict[str, Any]:
    """The options of a call, by name, without those that are None: its default ones, those of `options=`, and its words.

    What the table of members refuses is refused, and what it doesn't have is a TypeError.
    """
    given = dict(words)
    found: Dict[str, Any] = dict(default._given) if default is not None else {}
    for name in ("options", "context_options", "config"):
        if f"{call}({name})" not in TABLE.members:
            continue
        config = given.pop(name, None)
        if config is None:
            continue
        if not isinstance(config, ContextOptions):
            raise BadArgumentError(f"{name} is made by ndb.ContextOptions or a class below it, and not {config!r}")
        TABLE.refuse_words(call, config._given)
        found.update(config._given)
    TABLE.refuse_words(call, given)
    found.update({name: value for name, value in given.items() if value is not None})
    if found.get("use_datastore") is False:
        TABLE.refuse("ContextOptions(use_datastore=False)")
    return found
