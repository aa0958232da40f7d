"""How a query is run: as one request, or as several whose results are merged, or with results that are sieved out here."""
import datetime
from typing import Any, Dict, List, NamedTuple, Optional, Sequence, Tuple

from .. import values
from ..facade import UTC, Run, bare, results_of
from .context import get_context
from .datastore_errors import BadArgumentError, BadRequestError, asked
from .key import order_of
from .nodes import Branch, FilterNode, Order, Sieve, split

SUBQUERIES = 30
"""How many queries `IN`, `!=` and `OR` may stand for."""


class Asked(NamedTuple):
    """What a query asks for, beside its filters."""

    kind: Optional[str]
    namespace: str
    ancestor: Any
    orders: Sequence[Order]
    distinct: Sequence[str]
    """The projected properties by whose values a row is shown once."""


def found_by(asked_for: Asked, branches: List[Branch], run: Run) -> Tuple[List[Any], Optional[str]]:
    """The driver's results of a run, and the cursor behind them where it is asked for."""
    alone = split(branches)
    if len(alone) > SUBQUERIES:
        told = f"IN, != and OR stand for {len(alone)} queries, and {SUBQUERIES} are allowed"
        raise BadArgumentError(f"{told}: ask in several queries (TooManySubqueries)")
    if len(alone) == 1:
        return _of_one(asked_for, alone[0], run)
    if run.cursor or run.start or run.end:
        raise BadArgumentError("queries with IN of several values, != or OR have no cursors; read them by offset and limit")
    has_sieve = any(isinstance(node, Sieve) for branch in branches for node in branch)
    if asked_for.orders and len(branches) == 1 and not has_sieve:
        return _of_one(asked_for, branches[0], run)
    if asked_for.distinct:
        raise BadRequestError("distinct rows of a query with IN, != or OR: order it by the projected properties, and use no OR")
    return _merged(asked_for, alone, run), None


def _sent(asked_for: Asked, branch: Branch, run: Run) -> Tuple[List[Any], Optional[str]]:
    filters = [(each.name, each.operator, each.value) for each in branch if isinstance(each, FilterNode)]
    orders = [(each.name, "desc" if each.descending else "asc") for each in asked_for.orders]
    words = {"kind": asked_for.kind, "namespace": asked_for.namespace or None, "filters": filters, "orders": orders}
    client, ancestor = get_context().client, asked_for.ancestor
    try:
        return asked(results_of, client, run, ancestor, **words)  # type: ignore[no-any-return]
    except BadRequestError as error:
        if not run.keys_only or getattr(getattr(error, "refusal", None), "name", None) != "CursorMismatch":
            raise
        # A cursor of the query's entities serves its keys too, as in App Engine; the server tells the two apart.
        found, cursor = asked(results_of, client, run._replace(keys_only=False), ancestor, **words)
        return [each.key for each in found], cursor


def _of_one(asked_for: Asked, branch: Branch, run: Run) -> Tuple[List[Any], Optional[str]]:
    """The results of a single request. Where some are sieved out, offset and limit count those that are left."""
    sieves = [each for each in branch if isinstance(each, Sieve)]
    if not sieves and not asked_for.distinct:
        return _sent(asked_for, branch, run)
    if asked_for.distinct:
        _check_adjacent(asked_for, branch, run)
    if sieves and run.projection:
        raise BadArgumentError("a projection beside a comparison of a whole element of a repeated StructuredProperty: fetch the entities")
    whole = run._replace(offset=0, limit=None, cursor=False, keys_only=run.keys_only and not sieves)
    every = _sent(asked_for, branch, whole)[0]
    left = [at for at, each in enumerate(every) if all(sieve.passes(each) for sieve in sieves)]
    marks = [repr([bare(each.properties.get(name)) for name in asked_for.distinct]) if asked_for.distinct else at
             for at, each in enumerate(every)]
    left = [at for before, at in zip([None, *left], left) if before is None or marks[before] != marks[at]]
    left = left[run.offset :]
    left = left if run.limit is None else left[: run.limit]
    found = [every[at].key if run.keys_only and sieves else every[at] for at in left]
    if not run.cursor or not left:
        return found, None
    behind = left[-1] + 1
    while asked_for.distinct and behind < len(every) and marks[behind] == marks[left[-1]]:
        behind += 1
    return found, _sent(asked_for, branch, whole._replace(limit=behind, cursor=True))[1]


def _check_adjacent(asked_for: Asked, branch: Branch, run: Run) -> None:
    """Distinct rows are those that differ from the row before, which needs that equal ones stand together."""
    equal = {each.name for each in branch if isinstance(each, FilterNode) and each.operator == "="}
    ranges = [each.name for each in branch if isinstance(each, FilterNode) and each.operator not in ("=", "in")]
    ordered = [each.name for each in asked_for.orders if each.name not in equal] or ranges[:1]
    columns = list(dict.fromkeys([*ordered, *run.projection]))
    wanted = set(asked_for.distinct)
    if not wanted <= set(run.projection):
        raise BadArgumentError("distinct rows are of properties that are projected")
    if set(columns[: len(wanted)]) != wanted:
        raise BadRequestError(
            f"rows that are distinct by {', '.join(asked_for.distinct)} are ordered by these first, and not by {columns[0]}")


def _merged(asked_for: Asked, branches: Sequence[Branch], run: Run) -> List[Any]:
    """The results of several requests, each entity once, in the query's order; without one, branch after branch."""
    if run.projection and any(each.name not in (*run.projection, "__key__") for each in asked_for.orders):
        raise BadArgumentError("a projection of a query with OR has the properties that it is ordered by")
    limit = None if run.limit is None else run.offset + run.limit
    whole = run._replace(offset=0, limit=limit, keys_only=run.keys_only and not asked_for.orders)
    found: Dict[Any, Any] = {}
    ranks: Dict[Any, Any] = {}
    for branch in branches:
        for each in _of_one(asked_for, branch, whole)[0]:
            mark = each if whole.keys_only else (each.key, repr(each.properties) if run.projection else None)
            rank = [_rank(each, order, branch) for order in asked_for.orders]
            if mark not in found or any(_is_first(mine, other, order) for mine, other, order in
                                        _first_difference(rank, ranks[mark], asked_for.orders)):
                ranks[mark] = rank
            found.setdefault(mark, each)
    marks = list(found)
    if asked_for.orders:
        marks.sort(key=lambda mark: order_of(found[mark].key))
        for at, order in reversed(list(enumerate(asked_for.orders))):
            marks.sort(key=lambda mark, at=at: ranks[mark][at], reverse=order.descending)  # type: ignore[misc]
    every = [found[mark] for mark in marks][run.offset :]
    every = every if run.limit is None else every[: run.limit]
    return [each.key for each in every] if run.keys_only and not whole.keys_only else every


def _first_difference(mine: Sequence[Any], other: Sequence[Any], orders: Sequence[Order]) -> List[Any]:
    return [each for each in zip(mine, other, orders) if each[0] != each[1]][:1]


def _is_first(mine: Any, other: Any, order: Order) -> bool:
    return bool(mine > other if order.descending else mine < other)


def value_order(value: Any) -> Tuple[Any, ...]:
    """What values are ordered by: null, numbers, truth values, texts and bytes, keys."""
    if isinstance(value, values.Key):
        return (4, order_of(value))
    if isinstance(value, (str, bytes)):
        return (3, value.encode() if isinstance(value, str) else bytes(value))
    if isinstance(value, datetime.datetime):
        value = (value - datetime.datetime(1970, 1, 1, tzinfo=UTC)) // datetime.timedelta(microseconds=1)
    return (0, 0) if value is None else (2 if isinstance(value, bool) else 1, int(value))


def _rank(found: Any, order: Order, branch: Branch) -> Tuple[Any, ...]:
    """Where an entity stands in an order: by its least value, or descending its greatest, among those that the branch asks for."""
    if order.name == "__key__":
        return order_of(found.key)
    value = bare(found.properties.get(order.name))
    every = [value_order(each) for each in value] if isinstance(value, list) else [value_order(value)]
    asked_of = [each for each in branch if isinstance(each, FilterNode) and each.name == order.name]
    met = [each for each in every if all(_meets(each, value_order(one.value), one.operator) for one in asked_of if one.operator != "=")]
    equal = [value_order(one.value) for one in asked_of if one.operator == "="]
    every = equal or met or every
    return max(every) if order.descending else min(every)


def _meets(value: Any, bound: Any, operator: str) -> bool:
    return bool({"<": value < bound, "<=": value <= bound, ">": value > bound, ">=": value >= bound}[operator])
