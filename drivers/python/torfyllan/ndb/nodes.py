"""Filters: comparisons, and their combinations by AND and OR."""
from typing import Any, Callable, List, NamedTuple, Sequence, Union

from ..facade import stored
from .datastore_errors import BadArgumentError, BadQueryError, BadValueError, NotStoredError

OPERATORS = ("=", "!=", "<", "<=", ">", ">=", "in")


class Order(NamedTuple):
    """A property to order by; `-order` turns the direction."""

    name: str
    descending: bool = False

    def __neg__(self) -> "Order":
        return Order(self.name, not self.descending)


class Node:
    """A filter of a query."""

    def branches(self) -> "List[Branch]":
        """The filter as alternatives of which one must hold, each a list of comparisons that hold together."""
        raise NotImplementedError


class FilterNode(Node):
    """A comparison of a property with a value, or with several for `in`: `FilterNode("age", ">", 5)`."""

    def __init__(self, name: str, opsymbol: str, value: Any) -> None:
        if opsymbol not in OPERATORS:
            raise BadArgumentError(f"there is no operator {opsymbol!r}; those that are: {', '.join(OPERATORS)}")
        if opsymbol == "in" and not isinstance(value, (list, tuple, set, frozenset)):
            raise BadArgumentError(f"in takes a list, and not {value!r}")
        self.name, self.operator = name, opsymbol
        self.value: Any = [self._given(each) for each in value] if opsymbol == "in" else self._given(value)

    def _given(self, value: Any) -> Any:
        try:
            return stored(value)
        except TypeError as error:
            raise NotStoredError(f"{self.name}: {error}") from error
        except ValueError as error:
            raise BadValueError(f"{self.name}: {error}") from error

    def branches(self) -> "List[Branch]":
        if self.operator == "in" and not self.value:
            raise BadQueryError(f"IN on {self.name} has no value; test for the empty list before the query is made")
        return [[self]]

    def parts(self) -> "List[FilterNode]":
        """The comparisons of which one must hold: those of `in` in the order of its values, `<` and `>` for `!=`."""
        if self.operator == "in":
            return [FilterNode(self.name, "=", each) for each in self.value]
        if self.operator == "!=":
            return [FilterNode(self.name, "<", self.value), FilterNode(self.name, ">", self.value)]
        return [self]

    def __eq__(self, other: object) -> bool:
        mine = (self.name, self.operator, self.value)
        return isinstance(other, FilterNode) and mine == (other.name, other.operator, other.value)

    def __hash__(self) -> int:
        return hash((self.name, self.operator))

    def __repr__(self) -> str:
        return f"FilterNode({self.name!r}, {self.operator!r}, {self.value!r})"


class Sieve(Node):
    """What no index answers: a function of the driver's entity, asked of each result."""

    def __init__(self, passes: Callable[[Any], bool]) -> None:
        self.passes = passes

    def branches(self) -> "List[Branch]":
        return [[self]]


Branch = List[Union[FilterNode, Sieve]]


class _Several(Node):
    _word: str

    def __init__(self, *nodes: Any) -> None:
        if not nodes:
            raise BadArgumentError(f"{self._word} takes at least one filter")
        for node in nodes:
            if not isinstance(node, Node):
                raise BadArgumentError(f"a filter is wanted, as Model.property == value, and not {node!r}")
        self.nodes: Sequence[Node] = nodes

    def __eq__(self, other: object) -> bool:
        return type(self) is type(other) and isinstance(other, _Several) and list(self.nodes) == list(other.nodes)

    def __hash__(self) -> int:
        return hash((self._word, len(self.nodes)))

    def __repr__(self) -> str:
        return f"{self._word}({', '.join(map(repr, self.nodes))})"


class ConjunctionNode(_Several):
    """Filters that hold together; `ndb.AND` is its short name."""

    _word = "AND"

    def branches(self) -> "List[Branch]":
        result: List[Branch] = [[]]
        for node in self.nodes:
            result = [left + right for left in result for right in node.branches()]
        return result


class DisjunctionNode(_Several):
    """Filters of which one holds; `ndb.OR` is its short name."""

    _word = "OR"

    def branches(self) -> "List[Branch]":
        return [branch for node in self.nodes for branch in node.branches()]


class FalseNode(Node):
    """A filter that never holds; a query that has it alone can't be asked."""

    def branches(self) -> "List[Branch]":
        raise BadQueryError("this filter never holds; no query asks for it")


AND = ConjunctionNode
OR = DisjunctionNode


def split(branches: Sequence[Branch]) -> List[Branch]:
    """Branches without `in` and `!=`: in their order, the last comparison varying fastest."""
    found: List[Branch] = []
    for branch in branches:
        result: List[Branch] = [[]]
        for node in branch:
            parts: Branch = [*node.parts()] if isinstance(node, FilterNode) else [node]
            result = [[*left, part] for left in result for part in parts]
        found += result
    return found
