"""Keys, values, entities and the parts of a query as JSON, both ways."""
import base64
import datetime
import itertools
from typing import Any, Collection, Dict, List, Optional, Sequence, Tuple

from .spaces import space_in, space_out
from .values import Blob, Date, Entity, Key, Many, Rating, Text, Unindexed

_EPOCH = datetime.datetime(1970, 1, 1, tzinfo=datetime.timezone.utc)
_MICROSECOND = datetime.timedelta(microseconds=1)

# A report of pytest shows the test's own lines, and none of these.
__tracebackhide__ = True

Json = Any

# ---- what goes out


def key_out(key: Key, namespace: str) -> Json:
    """The key as JSON; one without a namespace stands in this one. Another type is a TypeError."""
    if not isinstance(key, Key):
        raise TypeError(f"a Key is wanted, not {key!r}")
    space = space_out(key.namespace, namespace)
    return ([space] if space else []) + [[kind, identifier] for kind, identifier in key.path]


def value_out(value: Any, namespace: str) -> Json:
    """One value as JSON. A type that the server stores not is a TypeError, an integer or date that it stores not a ValueError."""
    if isinstance(value, Key):
        return {"key": key_out(value, namespace)}
    if isinstance(value, datetime.datetime):
        return {"date": _microseconds(value)}
    if isinstance(value, Date):
        return {"date": int(value)}
    if isinstance(value, Rating):
        return {"rating": int(value)}
    if isinstance(value, Text):
        return {"text": str(value)}
    if isinstance(value, (Blob, bytes, bytearray)):
        return {"blob" if isinstance(value, Blob) else "bytes": base64.b64encode(value).decode("ascii")}
    if value is None or isinstance(value, (bool, str)):
        return value
    if isinstance(value, int):
        if not -(2**63) <= value < 2**63:
            raise ValueError(f"an integer has 64 bits: {value}")
        return int(value)
    raise TypeError(f"the server stores no {type(value).__name__}: {value!r}{_INSTEAD.get(type(value).__name__, '')}")


_INSTEAD = {
    "float": "; store an int in a smaller unit, or a str",
    "Decimal": "; store an int in a smaller unit, or a str",
    "date": "; give a datetime with its time zone",
    "dict": "; store its members as properties, or json.dumps() of it as a Text",
    "set": "; give a list",
    "tuple": "; lists don't nest",
    "list": "; lists don't nest",
}


def _microseconds(date: datetime.datetime) -> int:
    if date.tzinfo is None:
        raise ValueError(f"a date needs its time zone, as datetime.timezone.utc: {date!r}")
    return (date - _EPOCH) // _MICROSECOND


def property_out(value: Any, namespace: str) -> Json:
    """A property's value, or its several values, as JSON."""
    if isinstance(value, Unindexed):
        return {"unindexed": property_out(value.value, namespace)}
    if isinstance(value, (list, tuple)):
        return [value_out(one, namespace) for one in value]
    return value_out(value, namespace)


def properties_out(properties: Dict[str, Any], namespace: str) -> Json:
    """An entity's properties as JSON; an error names the property."""
    written = {}
    for name, value in properties.items():
        if not isinstance(name, str):
            raise TypeError(f"the name of a property is a str: {name!r}")
        try:
            written[name] = property_out(value, namespace)
        except (TypeError, ValueError) as error:
            raise type(error)(f"the property {name}: {error}") from None
    return written


OPERATORS = ("=", "<", "<=", ">", ">=", "!=", "in")
_MEANT = {"==": "=", "<>": "!=", "eq": "=", "IN": "in", "=<": "<=", "=>": ">="}


def list_of(what: str, items: Any, example: str) -> Sequence[Any]:
    """The items of a list; a single item in its place is a slip that the server would tell less plainly."""
    pair = isinstance(items, tuple) and len(items) == 2 and items[1] in ("asc", "desc")
    if isinstance(items, (str, dict)) or (items and what == "filters" and isinstance(items[0], str)) or (what == "orders" and pair):
        raise TypeError(f"{what} is a list: {what}={example}, and not {items!r}")
    return list(items or ())


def filter_out(one: Any, namespace: str) -> Json:
    """A filter `(property, operator, value)` as JSON. Another form is a TypeError, another operator a ValueError."""
    if isinstance(one, str) or not isinstance(one, (list, tuple)) or len(one) != 3:
        raise TypeError(f"a filter is a property, an operator and a value, as ('n', '>', 3), and not {one!r}")
    name, operator, value = one
    property_name(name, "a filter")
    if operator not in OPERATORS:
        meant = f"; {_MEANT[operator]!r} is meant" if operator in _MEANT else ""
        raise ValueError(f"no operator {operator!r} in the filter {one!r}: the operators are {', '.join(OPERATORS)}{meant}")
    if operator == "in":
        if isinstance(value, (str, bytes)) or not isinstance(value, (list, tuple, set, frozenset)):
            raise TypeError(f"the operator in takes a list of values: {one!r}")
        if not value:
            raise ValueError(f"the operator in takes at least one value: {one!r}")
        return [name, operator, [value_out(each, namespace) for each in value]]
    if isinstance(value, (list, tuple, Unindexed)):
        raise TypeError(f"the operator {operator} takes one value, and not {value!r}; in takes a list")
    return [name, operator, value_out(value, namespace)]


def property_name(name: Any, what: str) -> None:
    """Refuses what is no name of a property in a filter, an order or a selection."""
    if not isinstance(name, str):
        raise TypeError(f"{what} names a property by a str, and not by {name!r}")
    if not name:
        raise ValueError(f"{what} names a property, and not the empty text")


def order_out(order: Any) -> Json:
    """An order as JSON: a name, with `-` before it for descending, or a pair of a name and `"asc"` or `"desc"`."""
    if isinstance(order, str):
        words = order.split()
        if len(words) == 2 and words[1].lower() in ("asc", "desc"):
            raise ValueError(f"the order {order!r} is written {('-' if words[1].lower() == 'desc' else '') + words[0]!r}")
        if order.startswith("+"):
            raise ValueError(f"the order {order!r} is written {order[1:]!r}")
        name, direction = (order[1:], "desc") if order.startswith("-") else (order, "asc")
        property_name(name, "an order")
        return [name, direction]
    if not isinstance(order, (list, tuple)) or len(order) != 2:
        raise TypeError(f"an order is 'n', '-n' or ('n', 'desc'), and not {order!r}")
    property_name(order[0], "an order")
    if order[1] not in ("asc", "desc"):
        raise ValueError(f"a direction is 'asc' or 'desc', and not {order[1]!r}")
    return list(order)


def select_out(select: Any) -> Json:
    """A selection as JSON: `"entities"`, `"keys"`, or a list of properties."""
    if isinstance(select, str):
        if select not in ("entities", "keys"):
            raise ValueError(f"select is 'entities', 'keys' or a list of properties, as [{select!r}], and not {select!r}")
        return select
    names = list(select)
    if not names:
        raise ValueError("a selection has at least one property: select=['n']")
    for name in names:
        property_name(name, "a selection")
    return names


# ---- what comes in


def key_in(parts: Json, namespace: str) -> Key:
    """The key of its JSON; in this namespace it is told without one."""
    space = ""
    if isinstance(parts[0], str):
        space, parts = parts[0], parts[1:]
    return Key(*itertools.chain(*parts), namespace=space_in(space, namespace))


def value_in(value: Json, namespace: str) -> Any:
    """The value, or the several values, of its JSON."""
    if isinstance(value, list):
        return [value_in(one, namespace) for one in value]
    if not isinstance(value, dict):
        return value
    ((form, inner),) = value.items()
    if form == "date":
        return _date_in(inner)
    if form in ("bytes", "blob"):
        content = base64.b64decode(inner)
        return Blob(content) if form == "blob" else content
    if form == "key":
        return key_in(inner, namespace)
    if form == "unindexed":
        return Unindexed(value_in(inner, namespace))
    return {"rating": Rating, "text": Text}[form](inner)


def _date_in(microseconds: int) -> Any:
    try:
        return _EPOCH + microseconds * _MICROSECOND
    except OverflowError:
        return Date(microseconds)


def entity_in(found: Json, namespace: str, lists: Collection[Tuple[str, str]] = ()) -> Entity:
    """The entity of its JSON; properties of `lists`, as kind and name (`"*"` of every kind), come as lists in any case."""
    properties = {name: value_in(value, namespace) for name, value in found["properties"].items()}
    key = key_in(found["key"], namespace)
    for kind, name in lists:
        if kind in (key.kind, "*"):
            if name in properties:
                properties[name] = _many_in(properties[name])
            elif kind != "*":
                properties[name] = Many()
    return Entity(key, properties)


def _many_in(value: Any) -> Any:
    if isinstance(value, Unindexed):
        return Unindexed(_many_in(value.value))
    return Many(value if isinstance(value, list) else [value])


def results_in(found: List[Json], namespace: str, projected: bool, lists: Collection[Tuple[str, str]] = ()) -> List[Any]:
    """The results of a query: entities or keys. A projection has single values, so its lists are none."""
    kept: Collection[Tuple[str, str]] = () if projected else lists
    return [entity_in(one, namespace, kept) if isinstance(one, dict) else key_in(one, namespace) for one in found]


def lists_of(names: Optional[Collection[Any]]) -> List[Tuple[str, str]]:
    """`"Task.tags"` or `("Task", "tags")`, or `"tags"` of every kind, as kind and name."""
    if isinstance(names, str):
        raise TypeError(f"many is a list of names: many=[{names!r}]")
    pairs: List[Tuple[str, str]] = []
    for name in names or ():
        if isinstance(name, tuple) and len(name) == 2:
            pairs.append((name[0], name[1]))
            continue
        kind, point, rest = name.partition(".")
        pairs.append((kind, rest) if point else ("*", name))
    return pairs
