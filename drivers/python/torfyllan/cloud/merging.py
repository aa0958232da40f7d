"""The results of a query with `Or`: those of several queries of the server, in the order of one."""
import datetime
from typing import Any, Dict, List, Optional, Sequence, Tuple

from .. import values
from ..facade import UTC, bare
from ..shards import key_bytes
from .exceptions import InvalidArgument
from .filters import KEY, Comparison, spread

_EPOCH = datetime.datetime(1970, 1, 1, tzinfo=UTC)
_RANGES = ("<", "<=", ">", ">=", "!=")


def value_order(value: Any) -> Tuple[Any, ...]:
    """What values of the driver are ordered by: null, numbers and dates, truth values, texts and bytes, keys."""
    if isinstance(value, values.Key):
        return (4, key_bytes(value))
    if isinstance(value, (str, bytes)):
        return (3, value.encode("utf-8") if isinstance(value, str) else bytes(value))
    if isinstance(value, datetime.datetime):
        value = (value - _EPOCH) // datetime.timedelta(microseconds=1)
    return (0, 0) if value is None else (2 if isinstance(value, bool) else 1, int(value))


def between(compared: Comparison) -> List[List[Comparison]]:
    """The alternatives of a comparison by NOT_IN: below the least value, between two that follow each other, and above the greatest."""
    name, every = compared.property_name, sorted(compared.value, key=value_order)
    above: List[List[Comparison]] = [[], *([Comparison(name, ">", each)] for each in every)]
    below: List[List[Comparison]] = [*([Comparison(name, "<", each)] for each in every), []]
    return [least + most for least, most in zip(above, below)]


def orders_of(branches: Sequence[Sequence[Comparison]], order: Sequence[str]) -> List[Tuple[str, bool]]:
    """The properties that the results are in the order of, and whether each descends; the key is the last in any case."""
    if order:
        return [spread(each) for each in order]
    ranged = {tuple(sorted({name for name, operator, _ in branch if operator in _RANGES and name != KEY})) for branch in branches}
    if len(ranged) > 1:
        raise InvalidArgument("the alternatives of an Or have inequalities on the same property, or the query names its order")
    return [(name, False) for name in next(iter(ranged))]


def merged(found: Sequence[Tuple[Sequence[Comparison], Sequence[Any]]], orders: Sequence[Tuple[str, bool]],
           projected: bool) -> List[Any]:
    """The results of each branch as one list in this order, each entity, or each row of a projection, where it comes first."""
    rows = [([_rank(each, name, descending, branch) for name, descending in orders], _key_of(each), each)
            for branch, every in found for each in every]
    rows.sort(key=lambda row: key_bytes(row[1]))
    for at in reversed(range(len(orders))):
        rows.sort(key=lambda row: row[0][at], reverse=orders[at][1])
    first: Dict[Any, Any] = {}
    for _, key, each in rows:
        first.setdefault((key, repr(each.properties) if projected else None), each)
    return list(first.values())


def _key_of(found: Any) -> values.Key:
    return found if isinstance(found, values.Key) else found.key  # type: ignore[no-any-return]


def _rank(found: Any, name: str, descending: bool, branch: Sequence[Comparison]) -> Tuple[Any, ...]:
    """Where a result stands: by the least value, or descending the greatest, of those that meet the branch's comparisons; where it asks for
    values by equality, by the least of these."""
    if name == KEY:
        return (key_bytes(_key_of(found)),)
    asked = [value_order(each.value) for each in branch if each.property_name == name and each.operator == "="]
    if asked:
        return min(asked)
    value = bare(found.properties.get(name))
    ranks = [value_order(each) for each in (value if isinstance(value, list) else [value])]
    met = [rank for rank in ranks if all(_meets(rank, each) for each in branch if each.property_name == name)]
    return max(met or ranks) if descending else min(met or ranks)


def _meets(rank: Tuple[Any, ...], compared: Comparison) -> bool:
    if compared.operator == "IN":
        return any(rank == value_order(each) for each in compared.value)
    other = value_order(compared.value)
    return {"!=": rank != other, "<": rank < other, "<=": rank <= other, ">": rank > other,
            ">=": rank >= other}[compared.operator]


def window(every: Sequence[Any], offset: int, limit: Optional[int]) -> List[Any]:
    """So many of the results behind the first ones."""
    return list(every[offset : None if limit is None else offset + limit])
