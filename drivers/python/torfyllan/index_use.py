"""Which definitions of an index file the queries of a run can have been served by, and which entries were missing."""
from typing import Any, Dict, FrozenSet, Iterable, List, NamedTuple, Optional, Set, Tuple

from .indexes import Definition
from .journal import kind_of
from .steering import has_ancestor

Columns = Tuple[Tuple[str, str], ...]


class Shape(NamedTuple):
    """What of a query counts for indexes: its kind; whether it has an ancestor; the properties with equalities; the columns by which its results
    are sorted; and the further ones that it projects. `is_known` is false of a GQL text, which isn't read here."""

    kind: Optional[str]
    ancestor: bool
    equal: FrozenSet[str] = frozenset()
    sorted_by: Columns = ()
    projected: FrozenSet[str] = frozenset()
    is_known: bool = True

    def can_use(self, definition: Definition) -> bool:
        """Whether the definition can serve the query, alone or joined with others."""
        if definition.kind != self.kind or (definition.ancestor and not self.ancestor):
            return False
        if not self.is_known:
            return True
        columns = definition.meaning[2]
        head = len(columns) - len(self.sorted_by) - len(self.projected)
        if head < 0:
            return False
        end = head + len(self.sorted_by)
        names = {name for name, _ in columns[:head]}
        return names <= self.equal and columns[head:end] == self.sorted_by and {name for name, _ in columns[end:]} == self.projected


def shape_of(asked: Dict[str, Any]) -> Shape:
    """The shape of a query or a GQL text that is sent."""
    kind, ancestor = kind_of(asked), has_ancestor(asked)
    if asked["op"] == "gql":
        return Shape(kind, ancestor, is_known=False)
    filters = asked.get("filters") or []
    equal = frozenset(name for name, operator, _ in filters if operator in ("=", "in"))
    ranged = [name for name, operator, _ in filters if operator not in ("=", "in")]
    orders = [(name, way) for name, way in asked.get("orders") or [] if name not in equal]
    if ranged and not orders:
        orders = [(ranged[0], "asc")]
    if orders[-1:] == [("__key__", "asc")]:
        orders.pop()
    select = asked.get("select")
    projected = frozenset(select if isinstance(select, list) else ()) - {name for name, _ in orders}
    return Shape(kind, ancestor, equal, tuple(orders), projected)


class IndexUse:
    """The shapes of the queries that were served, and the entries that were missing."""

    def __init__(self) -> None:
        self._shapes: Set[Shape] = set()
        self.missing: Dict[str, None] = {}

    def served(self, asked: Dict[str, Any]) -> None:
        """A query was answered."""
        self._shapes.add(shape_of(asked))

    def used(self, definitions: Iterable[Definition]) -> List[Definition]:
        """Those that a query can have been served by."""
        return [one for one in definitions if any(shape.can_use(one) for shape in self._shapes)]
