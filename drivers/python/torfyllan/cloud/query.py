"""Queries of the Cloud client."""
import itertools
from typing import Any, List, Optional, Sequence, Tuple

from ..facade import Run, cursor_in
from .entity import value_out
from .exceptions import InvalidArgument
from .filters import KEY as KEY_PROPERTY_NAME
from .filters import LISTED, And, BaseCompositeFilter, BaseFilter, Comparison, Or, PropertyFilter, all_of, comparison, conjunction
from .iterator import Iterator, Page
from .key import Key
from .members import TABLE
from .merging import between, merged, orders_of, window

__all__ = ["And", "BaseCompositeFilter", "BaseFilter", "Iterator", "KEY_PROPERTY_NAME", "Or", "Page", "PropertyFilter", "Query"]


def _listed(name: str, value: Any) -> List[str]:
    """The names of a projection or an order: one name stands for a list of it."""
    names = [value] if isinstance(value, str) else list(value or ())
    for each in names:
        if not isinstance(each, str):
            raise TypeError(f"{name} is a list of names, and not {value!r}")
    return names


class Query:
    """A query: `client.query(kind="Greeting", filters=[("author", "=", "ann")], order=["-date"])`.

    What it has is told by its attributes, which have the names of its arguments; those beside `project` and `filters` can be set.
    """

    OPERATORS = {"<=": "<=", ">=": ">=", "<": "<", ">": ">", "=": "=", "!=": "!=", "IN": "in", "NOT_IN": "not in"}
    """The operators, and what the server calls them; `not in` stands for several queries of it."""

    def __init__(self, client: Any, kind: Optional[str] = None, project: Optional[str] = None,
                 namespace: Optional[str] = None, ancestor: Optional[Key] = None, filters: Sequence[Any] = (),
                 projection: Sequence[str] = (), order: Sequence[str] = (), distinct_on: Sequence[str] = (),
                 **words: Any) -> None:
        TABLE.refuse_words("Client.query", words)
        self._client, self._project = client, project or client.project
        self._kind: Optional[str] = None
        self._ancestor: Optional[Key] = None
        self._namespace: Optional[str] = namespace or client.namespace
        self._filters: List[Any] = []
        if kind is not None:
            self.kind = kind
        if ancestor is not None:
            self.ancestor = ancestor
        self.projection = _listed("projection", projection)
        self.order = _listed("order", order)
        self.distinct_on = _listed("distinct_on", distinct_on)
        for each in filters:
            self.add_filter(filter=each) if isinstance(each, BaseFilter) else self.add_filter(*each)

    def __setattr__(self, name: str, value: Any) -> None:
        if not name.startswith("_") and not isinstance(getattr(type(self), name, None), property):
            raise AttributeError(f"a Query has no attribute {name!r} to set; it has {', '.join(_SET)}")
        super().__setattr__(name, value)

    def __getattr__(self, name: str) -> Any:
        return TABLE.object_getattr(type(self), name)

    @property
    def project(self) -> str:
        """The client's project."""
        return self._project

    @property
    def namespace(self) -> Optional[str]:
        """The namespace that it asks in; None is the one of the server's client."""
        return self._namespace

    @namespace.setter
    def namespace(self, value: str) -> None:
        if not isinstance(value, str):
            raise ValueError(f"Namespace must be a string, and not {value!r}")
        self._namespace = value or None

    @property
    def kind(self) -> Optional[str]:
        """The kind of the entities; None for those of every kind."""
        return self._kind

    @kind.setter
    def kind(self, value: str) -> None:
        if not isinstance(value, str):
            raise TypeError(f"Kind must be a string, and not {value!r}")
        if value.startswith("__") and value.endswith("__"):
            TABLE.refuse_value("Client.query", "kind", value if value in _METADATA else _METADATA[0])
        self._kind = value

    @property
    def ancestor(self) -> Optional[Key]:
        """The key that the entities stand under."""
        return self._ancestor

    @ancestor.setter
    def ancestor(self, value: Key) -> None:
        if not isinstance(value, Key):
            raise TypeError(f"Ancestor must be a Key, and not {value!r}")
        self._ancestor = value

    @ancestor.deleter
    def ancestor(self) -> None:
        self._ancestor = None

    @property
    def filters(self) -> List[Any]:
        """The filters, as they were given."""
        return list(self._filters)

    @property
    def projection(self) -> List[str]:
        """The properties that results have; of none, all."""
        return list(self._projection)

    @projection.setter
    def projection(self, value: Any) -> None:
        self._projection = _listed("projection", value)

    @property
    def order(self) -> List[str]:
        """The properties that results are in the order of, descending with `-` before the name."""
        return list(self._order)

    @order.setter
    def order(self, value: Any) -> None:
        self._order = _listed("order", value)

    @property
    def distinct_on(self) -> List[str]:
        """No property: one that is set is refused by the sentence of docs/python.md."""
        return []

    @distinct_on.setter
    def distinct_on(self, value: Any) -> None:
        if _listed("distinct_on", value):
            TABLE.refuse("Client.query(distinct_on)")

    def add_filter(self, property_name: Any = None, operator: Any = None, value: Any = None, *, filter: Any = None) -> "Query":
        """Adds a filter that must hold too, a `PropertyFilter`, `And` or `Or`, or a comparison, and gives the query."""
        if isinstance(property_name, BaseFilter):
            raise ValueError("PropertyFilter and CompositeFilter objects must be passed using the keyword argument 'filter'")
        if filter is None:
            self._filters.append(tuple(comparison(property_name, operator, value)))
            return self
        if property_name is not None:
            raise ValueError("a filter is given by filter=, or by a property, an operator and a value")
        if not isinstance(filter, BaseFilter):
            raise TypeError(f"filter= is a PropertyFilter, And or Or, and not {filter!r}")
        self._filters.append(filter)
        return self

    def keys_only(self) -> None:
        """Makes the results entities with a key alone."""
        self.projection = [KEY_PROPERTY_NAME]

    def key_filter(self, key: Key, operator: str = "=") -> None:
        """Adds a filter on the entity's own key."""
        self.add_filter(KEY_PROPERTY_NAME, operator, key)

    def fetch(self, limit: Optional[int] = None, offset: int = 0, start_cursor: Any = None, end_cursor: Any = None,
              client: Any = None, eventual: bool = False, retry: Any = None, timeout: Any = None,
              **words: Any) -> Iterator:
        """An iterator of the results.

        `next_page_token` of it, once it is read, is the cursor for `start_cursor` of the next page.
        """
        TABLE.refuse_words("Query.fetch", words)
        return Iterator(self, client or self._client, limit, offset, start_cursor, end_cursor, eventual, retry, timeout)

    # -- what is sent

    def _branches(self) -> List[List[Comparison]]:
        """The filters as queries of the server, one for each alternative of `Or` and `NOT_IN`, with the driver's values."""
        branches = [[_sent_out(each) for each in branch] for branch in conjunction(self._filters)]
        every = [all_of([between(each) if each.operator == "NOT_IN" else [[each]] for each in branch]) for branch in branches]
        return all_of([list(itertools.chain(*every))])

    def _run(self, limit: Optional[int], offset: Optional[int], start: Any, end: Any) -> Run:
        keys_only = self._projection == [KEY_PROPERTY_NAME]
        cursors = [cursor_in(each, InvalidArgument) for each in (start, end)]
        return Run(limit, offset or 0, cursors[0], cursors[1], () if keys_only else self._projection, keys_only)

    def _results(self, client: Any, run: Run, retry: Any, transaction: Any) -> Tuple[List[Any], Optional[str]]:
        """The results of a run, and the cursor behind them, if it is asked for."""
        branches = self._branches()
        if len(branches) == 1:
            return self._sent(client, branches[0], run, retry, transaction)
        if run.start or run.end:
            raise InvalidArgument("a query with Or or NOT_IN has no cursors: use offset and limit there")
        orders = orders_of(branches, self._order)
        if run.projection and not {name for name, _ in orders} <= {*run.projection}:
            raise InvalidArgument("a projection of a query with Or has the properties that it is in the order of")
        limit = None if run.limit is None else run.offset + run.limit
        whole = run._replace(offset=0, limit=limit, cursor=False, keys_only=run.keys_only and not orders)
        found = [(branch, self._sent(client, branch, whole, retry, transaction)[0]) for branch in branches]
        every = window(merged(found, orders, bool(run.projection)), run.offset, run.limit)
        return [each.key for each in every] if run.keys_only and not whole.keys_only else every, None

    def _sent(self, client: Any, branch: Sequence[Comparison], run: Run, retry: Any, transaction: Any) -> Tuple[List[Any], Optional[str]]:
        reply = client._ask(
            "query", retry=retry, transaction=transaction, kind=self._kind, namespace=self._namespace,
            ancestor=None if self._ancestor is None else self._ancestor.to_driver(), orders=self._order,
            filters=[(each.property_name, self.OPERATORS[each.operator], each.value) for each in branch],
            select="keys" if run.keys_only else list(run.projection) or "entities",
            offset=run.offset or None, limit=run.limit, start=run.start, end=run.end, cursor=run.cursor or None,
        )
        return list(reply), reply.cursor if run.cursor else None


_SET = [name for name, member in vars(Query).items() if isinstance(member, property) and member.fset is not None]
_METADATA = ["__kind__", "__namespace__", "__property__"]


def _sent_out(each: Comparison) -> Comparison:
    """A comparison with the driver's values."""
    if each.operator in LISTED:
        return each._replace(value=[value_out(each.property_name, one, False) for one in each.value])
    return each._replace(value=value_out(each.property_name, each.value, False))


__getattr__ = TABLE.module_getattr(__name__, "query.")
