"""Which of the writes that a query didn't see would have changed its results, by what they wrote and what it found.

All is in the form of the protocol. An entity that was written again or deleted counts as its last version. Where the results had no room for
more, an entity that sorts behind the last of them changes nothing. Where what was found doesn't tell, a write counts: of keys in an order by
properties one that is found may stand elsewhere, and of a query with cursors an entity may stand outside of the page.
"""
import base64
import itertools
from typing import Any, Dict, List, Optional, Tuple

Json = Any
Sorted = Tuple[int, Any]

FOUND, GONE = "found", "gone"


def values_of(value: Json) -> List[Sorted]:
    """The indexed values of a property, each as one that sorts as the server sorts it."""
    if isinstance(value, dict) and "unindexed" in value:
        return []
    every = value if isinstance(value, list) else [value]
    return [_sorted(one) for one in every if not (isinstance(one, dict) and ("text" in one or "blob" in one))]


def _sorted(value: Json) -> Sorted:
    if value is None:
        return (0, 0)
    if isinstance(value, bool):
        return (2, value)
    if isinstance(value, int):
        return (1, value)
    if isinstance(value, str):
        return (3, value.encode("utf-8", "surrogatepass"))
    ((form, inner),) = value.items()
    if form in ("date", "rating"):
        return (1, inner)
    if form == "key":
        return (4, key_order(inner))
    if form == "text":
        return (3, inner.encode("utf-8", "surrogatepass"))
    return (3, base64.b64decode(inner))


def key_order(key: Json) -> Tuple[Any, ...]:
    """What sorts as the key does: its namespace, then kind by kind, ids before names."""
    space = key[0] if key and isinstance(key[0], str) else ""
    path = key[1:] if key and isinstance(key[0], str) else key
    return (space, *((kind.encode(), (1, name.encode()) if isinstance(name, str) else (0, name)) for kind, name in path))


_TESTS: Dict[str, Any] = {
    "=": lambda one, other: one == other,
    "<": lambda one, other: one < other,
    "<=": lambda one, other: one <= other,
    ">": lambda one, other: one > other,
    ">=": lambda one, other: one >= other,
    "!=": lambda one, other: one != other,
}


class Asked:
    """A query without an ancestor, as it was sent."""

    def __init__(self, asked: Json) -> None:
        self._filters = asked.get("filters") or []
        self._orders = [(name, way) for name, way in asked.get("orders") or []]
        select = asked.get("select")
        self._select = select if isinstance(select, list) else None
        self._keys_only = select == "keys"
        self._limit: Optional[int] = asked.get("limit")
        if not self._orders:
            self._orders = [(name, "asc") for name, operator, _ in self._filters if operator in ("<", "<=", ">", ">=", "!=")][:1]

    def finds(self, key: Json, properties: Dict[str, Json]) -> bool:
        """Whether an entity of its kind and namespace meets its filters, and has what it sorts and projects by."""
        by_name: Dict[str, List[Sorted]] = {"__key__": [(4, key_order(key))]}

        def of(name: str) -> List[Sorted]:
            if name not in by_name:
                by_name[name] = values_of(properties[name]) if name in properties else []
            return by_name[name]

        ranges: Dict[str, List[Tuple[Any, Sorted]]] = {}
        for name, operator, value in self._filters:
            if operator == "in":
                wanted = [_sorted(one) for one in value]
                if not any(one in wanted for one in of(name)):
                    return False
            elif operator == "=":
                if _sorted(value) not in of(name):
                    return False
            else:
                ranges.setdefault(name, []).append((_TESTS[operator], _sorted(value)))
        for name, tests in ranges.items():
            if not any(all(test(one, other) for test, other in tests) for one in of(name)):
                return False
        return all(of(name) for name in itertools.chain((name for name, _ in self._orders), self._select or ()))

    def _place(self, key: Json, properties: Dict[str, Json]) -> Optional[List[Any]]:
        """Where an entity stands among the results; None where what is known of it doesn't tell."""
        place: List[Any] = []
        for name, way in self._orders:
            found = [(4, key_order(key))] if name == "__key__" else values_of(properties.get(name, []))
            if not found:
                return None
            place.append(min(found) if way == "asc" else _Falling(max(found)))
        return [*place, key_order(key)]

    def effect(self, key: Json, properties: Optional[Dict[str, Json]], results: List[Json]) -> Optional[str]:
        """How the results would differ, had this version of an entity been seen (None for one that is deleted): FOUND, GONE, or None where they
        wouldn't."""
        mine = [one for one in results if (one["key"] if isinstance(one, dict) else one) == key]
        if properties is None or not self.finds(key, properties):
            return GONE if mine else None
        if mine:
            if self._keys_only:
                # A key doesn't tell what it is sorted by, so it may stand elsewhere.
                return FOUND if any(name != "__key__" for name, _ in self._orders) else None
            return None if all(self._shows(one["properties"], properties) for one in mine) else FOUND
        return FOUND if self._has_room(key, properties, results) else None

    def _has_room(self, key: Json, properties: Dict[str, Json], results: List[Json]) -> bool:
        """Whether an entity that wasn't found would stand among the results: where these are as many as are wanted, before the last of them."""
        if self._limit is None or len(results) < self._limit:
            return True
        if not results or not isinstance(results[-1], dict):
            return self._limit > 0
        last, own = self._place(results[-1]["key"], results[-1]["properties"]), self._place(key, properties)
        return last is None or own is None or own < last

    def _shows(self, found: Dict[str, Json], properties: Dict[str, Json]) -> bool:
        """Whether a result shows this version."""
        if self._select is not None:
            return all(_sorted(value) in values_of(properties.get(name, [])) for name, value in found.items())
        return found == {name: plain for name, plain in ((name, _plain(value)) for name, value in properties.items()) if plain != []}


class _Falling:
    """A value that sorts the other way round."""

    def __init__(self, value: Sorted) -> None:
        self._value = value

    def __lt__(self, other: "_Falling") -> bool:
        return other._value < self._value

    def __eq__(self, other: object) -> bool:
        return isinstance(other, _Falling) and self._value == other._value


def _plain(value: Json) -> Json:
    """A property as the server gives it back: a list of one value is that value, and an empty one none."""
    if isinstance(value, dict) and "unindexed" in value:
        inner = _plain(value["unindexed"])
        return inner if inner == [] else {"unindexed": inner}
    return value[0] if isinstance(value, list) and len(value) == 1 else value
