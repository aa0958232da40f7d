"""Queries: what is asked of the server, and its results as entities."""
from typing import Any, Dict, Iterator, List, Optional, Sequence, Tuple

from ..facade import Run, cursor_in, cursor_out
from ..rules import is_reserved
from . import namespace_manager
from .context import entity_of, get_context
from .datastore_errors import BadArgumentError, BadValueError, InvalidPropertyError
from .futures import Future, result_of, twin
from .key import KINDS, Key, UrlSafe, from_driver
from .members import TABLE, Refusing, package_getattr
from .nodes import ConjunctionNode, Node, Order
from .options import QueryOptions, taken
from .properties import Property
from .running import Asked, found_by


class Cursor(metaclass=Refusing):
    """A place in the results of a query; `urlsafe()` gives it as a text, and `Cursor(urlsafe=text)` reads it."""

    def __init__(self, urlsafe: Any = None, **words: Any) -> None:
        TABLE.refuse_words("Cursor", words)
        self._text = cursor_in(urlsafe, BadValueError) or ""

    def urlsafe(self) -> UrlSafe:
        """The cursor as a text that can stand in a URL."""
        return UrlSafe(cursor_out(self._text))

    to_websafe_string = urlsafe

    @classmethod
    def from_websafe_string(cls, cursor: Any) -> "Cursor":
        """The cursor of such a text."""
        return cls(urlsafe=cursor)

    def __getattr__(self, name: str) -> Any:
        return TABLE.object_getattr(type(self), name)

    def __eq__(self, other: object) -> bool:
        return isinstance(other, Cursor) and self._text == other._text

    def __hash__(self) -> int:
        return hash(self._text)

    def __repr__(self) -> str:
        return f"Cursor(urlsafe={self.urlsafe()!r})"


class Query(metaclass=Refusing):
    """A query: `Greeting.query(Greeting.author == "ann", ancestor=book).order(-Greeting.date).fetch(10)`.

    `filter` and `order` give a new one. What it has is told by its attributes, which have the names of its arguments.
    """

    def __init__(self, kind: Any = None, ancestor: Optional[Key] = None, filters: Optional[Node] = None,
                 orders: Sequence[Any] = (), app: Optional[str] = None, namespace: Optional[str] = None,
                 default_options: Any = None, projection: Sequence[Any] = (), group_by: Sequence[Any] = (), **words: Any) -> None:
        TABLE.refuse_words("Query", words)
        kind = kind._get_kind() if isinstance(kind, type) and hasattr(kind, "_get_kind") else kind
        orders, group_by = orders or words.get("order_by") or (), group_by or words.get("distinct_on") or ()
        if ancestor is not None and (not isinstance(ancestor, Key) or ancestor.id() is None):
            raise BadArgumentError(f"an ancestor is a complete key, and not {ancestor!r}")
        if isinstance(kind, str) and is_reserved(kind):
            TABLE.refuse("Query(kind='__kind__')")
        self.kind, self.ancestor, self.filters, self.app = kind, ancestor, filters, app
        if namespace is not None and ancestor is not None and namespace != ancestor.namespace():
            raise TypeError(f"ancestor/namespace mismatch: the namespace {namespace!r} isn't that of the ancestor {ancestor!r}")
        if namespace is None:
            namespace = ancestor.namespace() if ancestor is not None else namespace_manager.get_namespace()
        self.namespace = namespace
        self.orders: Tuple[Order, ...] = tuple(_order(each) for each in orders or ())
        if default_options is not None and not isinstance(default_options, QueryOptions):
            raise BadArgumentError(f"default_options is made by ndb.QueryOptions, and not {default_options!r}")
        given = {name: words[name] for name in ("offset", "limit", "keys_only") if name in words}
        self.default_options: Optional[QueryOptions] = QueryOptions(default_options, **given) if given else default_options
        self.projection = self._projected(projection)
        self.group_by = self._projected(group_by)

    @property
    def is_distinct(self) -> bool:
        """Whether each row of the projection is shown once."""
        return bool(self.group_by) and set(self.projection) <= set(self.group_by)

    def _projected(self, names: Any) -> Tuple[str, ...]:
        if isinstance(names, (str, Property)):
            raise TypeError(f"a projection is a list: projection=[{names!r}]")
        projection = tuple(each._name if isinstance(each, Property) else each for each in names or ())
        model = KINDS.get(self.kind or "")
        if model is not None and not hasattr(model, "_default_indexed"):
            known = {name for prop in model._properties.values() for name in prop._names()}
            if unknown := [name for name in projection if name not in known and name != "__key__"]:
                raise InvalidPropertyError(f"{model.__name__} has no property {unknown[0]!r}")
        return projection

    def _with(self, filters: Optional[Node], orders: Sequence[Order]) -> "Query":
        return Query(self.kind, self.ancestor, filters, orders, self.app, self.namespace, self.default_options,
                     self.projection, self.group_by)

    def filter(self, *filters: Any) -> "Query":
        """This query with filters that must hold too."""
        if not filters:
            return self
        return self._with(ConjunctionNode(*([self.filters] if self.filters is not None else []), *filters), self.orders)

    def order(self, *orders: Any) -> "Query":
        """This query with further orders: `Model.property`, `-Model.property` for descending."""
        return self._with(self.filters, [*self.orders, *map(_order, orders)])

    def __repr__(self) -> str:
        words = {"kind": self.kind, "ancestor": self.ancestor, "filters": self.filters, "orders": list(self.orders),
                 "namespace": self.namespace, "projection": list(self.projection), "group_by": list(self.group_by)}
        return f"Query({', '.join(f'{name}={value!r}' for name, value in words.items() if value)})"

    # -- running

    def _asked(self, call: str, words: Dict[str, Any]) -> Tuple[Run, Dict[str, Any]]:
        """How it is run, and the options of the context."""
        given = taken(call, words, self.default_options)
        projection = self._projected(given.get("projection")) or self.projection
        keys_only = bool(given.get("keys_only"))
        if keys_only and projection:
            raise BadArgumentError("a query is of keys or a projection, and not both")
        places = [given.get(name) for name in ("start_cursor", "end_cursor")]
        if wrong := [each for each in places if each is not None and not isinstance(each, Cursor)]:
            raise BadArgumentError(f"a cursor is wanted, as ndb.Cursor(urlsafe=text), and not {wrong[0]!r}")
        start, end = (each._text or None if each is not None else None for each in places)
        cursor = bool(given.get("produce_cursors"))
        run = Run(given.get("limit"), given.get("offset") or 0, start, end, projection, keys_only, cursor)
        return run, given

    def _results(self, run: Run, options: Dict[str, Any]) -> Tuple[List[Any], Optional[Cursor]]:
        """The results of a run, None for each that was deleted in this context, and the cursor behind the last."""
        branches = self.filters.branches() if self.filters is not None else [[]]
        wanted = Asked(self.kind, self.namespace, self.ancestor, self.orders, self.group_by)
        return self._adopted(*found_by(wanted, branches, run), run, options)

    def _adopted(self, found: Sequence[Any], cursor: Optional[str], run: Run,
                 options: Dict[str, Any]) -> Tuple[List[Any], Optional[Cursor]]:
        """Results of the driver, and its cursor, as ndb has them."""
        behind = Cursor(cursor_out(cursor)) if cursor else None
        if run.keys_only:
            return [from_driver(each) for each in found], behind
        return [get_context().adopt(entity_of(each, tuple(run.projection)), options) for each in found], behind

    def fetch(self, limit: Optional[int] = None, **options: Any) -> List[Any]:
        """The results: entities, or with `keys_only=True` keys, or of a projection parts of entities."""
        return [each for each in self._results(*self._asked("Query.fetch", {**options, "limit": limit}))[0] if each is not None]

    def get(self, **options: Any) -> Any:
        """The first result, or None."""
        run, given = self._asked("Query.get", options)
        found = [each for each in self._results(run._replace(limit=1), given)[0] if each is not None]
        return found[0] if found else None

    def count(self, limit: Optional[int] = None, **options: Any) -> int:
        """How many results there are, at most `limit`."""
        run, given = self._asked("Query.count", {**options, "limit": limit})
        # A cursor is mostly one of the query's entities, and the server takes it for these alone.
        of_keys = run.keys_only or not (run.projection or run.start or run.end)
        return len(self._results(run._replace(keys_only=of_keys), given)[0])

    def iter(self, **options: Any) -> "QueryIterator":
        """An iterator of the results."""
        return QueryIterator(self, *self._asked("Query.iter", options))

    def __iter__(self) -> "QueryIterator":
        return self.iter()

    def map(self, callback: Any, pass_batch_into_callback: Any = None, merge_future: Any = None, **options: Any) -> Any:
        """What the callback, a function or a tasklet, gives of each result, as a list; without a callback the results.

        With `merge_future` what it gives goes there, and its result is given.
        """
        TABLE.refuse_words("Query.map", {"pass_batch_into_callback": pass_batch_into_callback})
        run, given = self._asked("Query.map", options)
        made = [each if callback is None else callback(each) for each in self._results(run, given)[0] if each is not None]
        if merge_future is None:
            return [each.get_result() if isinstance(each, Future) else each for each in made]
        for each in made:
            merge_future.putq(each)
        merge_future.complete()
        return merge_future.get_result()

    def fetch_page(self, page_size: int, **options: Any) -> Tuple[List[Any], Optional[Cursor], bool]:
        """A page: at most so many results, the cursor behind them (None without any), and whether there are more."""
        run, given = self._asked("Query.fetch_page", options)
        run = run._replace(limit=page_size, cursor=True)
        found, cursor = self._results(run, given)
        if not found or cursor is None:
            return [], None, False
        behind = run._replace(limit=1, offset=0, start=cursor._text, cursor=False)
        more = len(found) >= page_size and bool(self._results(behind, given)[0])
        return [each for each in found if each is not None], cursor, more

    fetch_async = twin(fetch)
    get_async = twin(get)
    count_async = twin(count)
    map_async = twin(map)
    fetch_page_async = twin(fetch_page)

    def __getattr__(self, name: str) -> Any:
        return TABLE.object_getattr(type(self), name)


class QueryIterator(metaclass=Refusing):
    """The results of a query one after another; it asks the server when the first is wanted.

    With `produce_cursors=True`, `cursor_before()` and `cursor_after()` are the places around the result that was given last.
    """

    def __init__(self, query: Query, run: Run, options: Dict[str, Any]) -> None:
        self._query, self._run, self._options = query, run, options
        self._found: Optional[List[Any]] = None
        self._at = self._before = 0

    def _next_place(self) -> int:
        if self._found is None:
            self._found = self._query._results(self._run._replace(cursor=False), self._options)[0]
        at = self._at
        while at < len(self._found) and self._found[at] is None:
            at += 1
        return at

    def has_next(self) -> bool:
        """Whether there is a further result."""
        return self._next_place() < len(self._found or ())

    probably_has_next = has_next

    def has_next_async(self) -> "Future[bool]":
        """As `has_next`; a future."""
        return result_of(self.has_next())

    def __iter__(self) -> Iterator[Any]:
        return self

    def __next__(self) -> Any:
        at, found = self._next_place(), self._found or []
        if at >= len(found):
            raise StopIteration
        self._before, self._at = at, at + 1
        return found[at]

    next = __next__

    def _cursor(self, count: int) -> Cursor:
        if not self._run.cursor:
            raise BadArgumentError("there is no cursor; iterate with produce_cursors=True")
        if not self._at:
            raise BadArgumentError("there is no cursor before the first result is taken")
        if not count and not self._run.offset:
            return Cursor(cursor_out(self._run.start or ""))
        run = self._run._replace(limit=count, cursor=True)
        return self._query._results(run, self._options)[1] or Cursor()

    def cursor_before(self) -> Cursor:
        """The place before the result that was given last."""
        return self._cursor(self._before)

    def cursor_after(self) -> Cursor:
        """The place behind the result that was given last."""
        return self._cursor(self._at)

    def __getattr__(self, name: str) -> Any:
        return TABLE.object_getattr(type(self), name)


def _order(given: Any) -> Order:
    if isinstance(given, Property):
        return +given
    if isinstance(given, str):
        return Order(given.lstrip("-"), given.startswith("-"))
    if not isinstance(given, Order):
        raise TypeError(f"an order is Model.property, -Model.property or a name, and not {given!r}")
    return given


__getattr__ = package_getattr(__name__)
