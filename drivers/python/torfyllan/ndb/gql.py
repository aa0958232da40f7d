"""GQL: queries by a statement, with the calls of a query."""
from typing import Any, Dict, List, Optional, Sequence, Tuple

from ..facade import Run
from ..journal import kind_of
from .context import get_context
from .datastore_errors import BadArgumentError, BadQueryError, asked
from .gql_text import Statement, Unbound, bound, read
from .key import KINDS
from .kinds import GenericProperty
from .nodes import ConjunctionNode, FilterNode, Node, Order
from .options import QueryOptions
from .query import Cursor, Query


class GqlQuery(Query):
    """A query by a statement of GQL: it has the calls and the attributes of a query, and `bind` gives it other arguments.

    One that isn't a statement, or lacks an argument, is refused by the server when it is run.
    """

    def __init__(self, text: str, args: Sequence[Any] = (), words: Optional[Dict[str, Any]] = None) -> None:
        self.text, self._args, self._words = text, args, words or {}
        self._is_read = False
        statement = read(text)
        if statement is not None:
            try:
                super().__init__(**self._parts(statement))
            except Unbound:
                pass
            else:
                self._is_read = True
                return
        super().__init__(kind_of({"op": "gql", "text": text}))

    def _parts(self, statement: Statement) -> Dict[str, Any]:
        """The arguments of the query that the statement stands for."""
        nodes = [self._filter(statement.kind, *condition) for condition in statement.conditions]
        keys_only = statement.selected == ["__key__"] or None
        projection = [] if keys_only or statement.selected == ["*"] else statement.selected
        if statement.distinct and not projection:
            raise BadArgumentError("DISTINCT stands before the names of properties")
        ancestor = bound(statement.ancestor, self._args, self._words)
        if ancestor is None and statement.ancestor is not None:
            raise BadArgumentError("an ancestor is a complete key, and not None")
        return {
            "kind": statement.kind, "ancestor": ancestor, "filters": ConjunctionNode(*nodes) if nodes else None, "projection": projection,
            "orders": [Order(name, descending) for name, descending in statement.orders],
            "group_by": projection if statement.distinct else (),
            "default_options": QueryOptions(limit=statement.limit, offset=statement.offset, keys_only=keys_only),
        }

    def _filter(self, kind: Optional[str], name: str, operator: str, given: Any) -> Node:
        """A condition, by the property of the kind's class, where that has it."""
        if operator == "in" and isinstance(given, list):
            value: Any = [bound(each, self._args, self._words) for each in given]
        else:
            value = bound(given, self._args, self._words)
        if operator != "in" and isinstance(value, (list, tuple, set, frozenset)):
            raise BadArgumentError(f"{name} {operator} takes one value, and not {value!r}; IN takes a list")
        model = KINDS.get(kind or "")
        prop = model._properties.get(name) if model is not None else None
        if name == "__key__" and model is not None:
            prop = model._key
        if prop is None:
            return FilterNode(name, operator, value)
        node: Node = prop.IN(value) if operator == "in" else prop._comparison(operator, value)
        return node

    def bind(self, *args: Any, **words: Any) -> "GqlQuery":
        """The same statement with these arguments."""
        return GqlQuery(self.text, args, words)

    def _with(self, filters: Optional[Node], orders: Sequence[Order]) -> Query:
        if not self._is_read:
            raise BadArgumentError("this statement isn't one, or lacks an argument: it takes no further filters and orders")
        return super()._with(filters, orders)

    def __repr__(self) -> str:
        return f"GqlQuery({self.text!r})"

    def _results(self, run: Run, options: Dict[str, Any]) -> Tuple[List[Any], Optional[Cursor]]:
        if self._is_read:
            return super()._results(run, options)
        args, names = map(_argument, self._args), {name: _argument(value) for name, value in self._words.items()}
        asked(get_context().client.gql, self.text, *args, names=names, namespace=self.namespace or None)
        raise BadQueryError(f"this isn't read as a statement: {self.text!r}; write names that are words of GQL in double quotes")


def _argument(value: Any) -> Any:
    return None if isinstance(value, (list, tuple, set, frozenset)) else GenericProperty("argument")._stored(value)


def gql(text: str, *args: Any, **words: Any) -> GqlQuery:
    """The query of a GQL statement: `gql("SELECT * FROM Greeting WHERE author = :1 ORDER BY date DESC", "ann")`.

    `:1` is the first argument, `:name` the one of that name; after IN it may be a list. `BadQueryError` tells where it is no statement.
    """
    return GqlQuery(text, args, words)
