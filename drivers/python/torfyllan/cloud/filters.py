"""Filters of a query: comparisons, and their combinations by `And` and `Or`."""
import itertools
import math
from typing import Any, List, NamedTuple, Sequence, Tuple

from .exceptions import InvalidArgument
from .key import Key
from .members import TABLE

OPERATORS = ("=", "!=", "<", "<=", ">", ">=", "IN", "NOT_IN")
"""The operators."""

LISTED = ("IN", "NOT_IN")
"""Those that take a list of values."""

KEY = "__key__"

MOST_BRANCHES = 30
"""The queries of the server for which one query stands at most."""


class Comparison(NamedTuple):
    """A comparison of a property with a value, or with several for `IN`."""

    property_name: str
    operator: str
    value: Any


class BaseFilter:
    """A filter for `add_filter(filter=...)`."""

    def _branches(self) -> List[List[Comparison]]:
        """The filter as alternatives of which one must hold, each a list of comparisons that hold together."""
        raise NotImplementedError(f"a filter is a PropertyFilter, an And or an Or, and not {self!r}")

    def __getattr__(self, name: str) -> Any:
        return TABLE.object_getattr(type(self), name, "query.")


class PropertyFilter(BaseFilter):
    """A comparison: `PropertyFilter("done", "=", False)`."""

    def __init__(self, property_name: str, operator: str, value: Any) -> None:
        compared = comparison(property_name, operator, value)
        self.property_name, self.operator, self.value = compared

    def _branches(self) -> List[List[Comparison]]:
        return [[Comparison(self.property_name, self.operator, self.value)]]

    def __eq__(self, other: object) -> bool:
        return isinstance(other, PropertyFilter) and self._branches() == other._branches()

    __hash__ = None  # type: ignore[assignment]

    def __repr__(self) -> str:
        return f"PropertyFilter({self.property_name!r}, {self.operator!r}, {self.value!r})"


class BaseCompositeFilter(BaseFilter):
    """Filters that are combined: `filters`, by `operation`, which is `"AND"` or `"OR"`."""

    def __init__(self, operation: str = "", filters: Sequence[Any] = ()) -> None:
        self.operation = operation
        self.filters: List[BaseFilter] = [each if isinstance(each, BaseFilter) else PropertyFilter(*each) for each in filters]
        if not self.filters:
            raise ValueError(f"{type(self).__name__} takes a list of at least one filter")

    def __repr__(self) -> str:
        return f"{type(self).__name__}({self.filters!r})"


class And(BaseCompositeFilter):
    """Filters that hold together: `And([PropertyFilter("a", "=", 1), PropertyFilter("b", "=", 2)])`."""

    def __init__(self, filters: Sequence[Any]) -> None:
        super().__init__("AND", filters)

    def _branches(self) -> List[List[Comparison]]:
        return conjunction(self.filters)


class Or(BaseCompositeFilter):
    """Filters of which one holds: `Or([PropertyFilter("a", "=", 1), PropertyFilter("b", "=", 2)])`."""

    def __init__(self, filters: Sequence[Any]) -> None:
        super().__init__("OR", filters)

    def _branches(self) -> List[List[Comparison]]:
        return [branch for each in self.filters for branch in each._branches()]


def comparison(property_name: Any, operator: Any, value: Any) -> Comparison:
    """A comparison, or a ValueError where it is none."""
    if not isinstance(property_name, str) or not property_name:
        raise ValueError(f"a filter names a property, and not {property_name!r}")
    if operator not in OPERATORS:
        meant = "; '=' is meant" if operator == "==" else ""
        raise ValueError(f"Invalid expression: {operator!r}. Please use one of: {', '.join(OPERATORS)}{meant}")
    if operator in LISTED:
        if isinstance(value, (str, bytes)) or not isinstance(value, (list, tuple, set, frozenset)) or not value:
            raise ValueError(f"{operator} takes a list of at least one value, and not {value!r}")
        value = list(value)
    if property_name == KEY and not all(isinstance(each, Key) for each in (value if operator in LISTED else [value])):
        raise ValueError(f"Invalid key: {value!r}: __key__ is compared with a Key")
    return Comparison(property_name, operator, value)


def conjunction(filters: Sequence[Any]) -> List[List[Comparison]]:
    """The alternatives of filters, or of comparisons as tuples, that hold together."""
    every = [each._branches() if isinstance(each, BaseFilter) else [[Comparison(*each)]] for each in filters]
    return all_of(every)


def all_of(every: Sequence[List[List[Comparison]]]) -> List[List[Comparison]]:
    """The alternatives of several that hold together. More than 30 are an InvalidArgument."""
    count = math.prod(map(len, every))
    if count > MOST_BRANCHES:
        raise InvalidArgument(f"And, Or and NOT_IN stand for {count} queries, and {MOST_BRANCHES} are allowed: ask in several queries")
    return [list(itertools.chain(*chosen)) for chosen in itertools.product(*every)]


def spread(name: str) -> Tuple[str, bool]:
    """An order as its property and whether it descends."""
    return (name[1:], True) if name.startswith("-") else (name, False)
