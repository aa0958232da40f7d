"""The protocol's own rules on keys, values and members, to say which part of a refused line was wrong, and why.

Each function gives a sentence for the first part that leaves the rules, or None. They are asked after a refusal; the server is the one that refuses.
"""
import re
from typing import Any, Dict, List, Optional, Tuple

from .shards import FIRST_DRAWN, LAST_ID

MEMBERS: Dict[str, Tuple[str, ...]] = {
    "put": ("entity",),
    "delete": ("key",),
    "get": ("key",),
    "query": ("namespace", "kind", "ancestor", "filters", "orders", "select", "offset", "limit", "start", "end", "cursor"),
    "gql": ("namespace", "text", "args", "names", "start", "end", "cursor"),
    "begin": ("xg",),
    "commit": (),
    "rollback": (),
    "settle": (),
    "allocate_ids": ("count",),
    "apply": ("shard",),
}
"""The members of each operation, in the order in which the server looks at them."""

NAME_BYTES = 1500
WINDOW_MOST = 2**31 - 1
_NAMESPACE = re.compile(r"[A-Za-z0-9._-]{0,100}")


def is_reserved(name: str) -> bool:
    """Whether a kind, key name or property name begins and ends with two underscores."""
    return len(name.encode("utf-8", "replace")) >= 4 and name.startswith("__") and name.endswith("__")


def _bytes(text: str) -> int:
    return len(text.encode("utf-8", "replace"))


def _told(text: str) -> str:
    return repr(text if len(text) <= 40 else text[:37] + "...")


def namespace_fault(name: Any) -> Optional[str]:
    """What is wrong with a namespace."""
    if isinstance(name, str) and _NAMESPACE.fullmatch(name):
        return None
    return f"a namespace has at most 100 ASCII letters, digits, '.', '_' and '-', and {name!r} isn't so"


def name_fault(name: str, what: str, writable: bool = True) -> Optional[str]:
    """What is wrong with a kind, a key name or a property name."""
    if not name:
        return f"{what} is empty"
    if _bytes(name) > NAME_BYTES:
        return f"{what} {_told(name)} has {_bytes(name):,} bytes, and at most 1,500 are allowed"
    if writable and is_reserved(name):
        return f"{what} {name!r} is reserved, since it begins and ends with __"
    return None


def key_fault(key: List[Any], writable: bool = False, incomplete: bool = False) -> Optional[str]:
    """What is wrong with a key, as JSON; `writable` refuses reserved names, `incomplete` allows None in the last place."""
    elements = key[1:] if key and isinstance(key[0], str) else key
    if key and isinstance(key[0], str):
        fault = namespace_fault(key[0])
        if fault:
            return fault
    if not 1 <= len(elements) <= 100:
        return f"a key has 1 to 100 elements, and this one has {len(elements)}"
    for place, (kind, identifier) in enumerate(elements, 1):
        fault = name_fault(kind, "the kind", writable)
        if fault:
            return fault
        if isinstance(identifier, str):
            fault = name_fault(identifier, "the key's name", writable)
            if fault:
                return fault
        elif identifier is None:
            if not incomplete:
                return "its last identifier is None: such a key has no id yet, and only a put draws one"
            if place < len(elements):
                return f"element {place} of {len(elements)} has no identifier, which only the last may lack"
        elif not 1 <= identifier <= LAST_ID:
            return f"an id is 1 to {LAST_ID}, and not {identifier}"
    return None


def value_fault(value: Any, indexed: bool = True) -> Optional[str]:
    """What is wrong with a value, as JSON."""
    if isinstance(value, dict) and "rating" in value and not 0 <= value["rating"] <= 100:
        return f"a rating is 0 to 100, and not {value['rating']}"
    if isinstance(value, dict) and "date" in value and not -(2**63) <= value["date"] < 2**63:
        return f"a date has 64 bits of microseconds, and {value['date']} is outside"
    if isinstance(value, dict) and "key" in value:
        return key_fault(value["key"])
    if indexed and isinstance(value, str) and _bytes(value) > NAME_BYTES:
        return f"an indexed text has at most 1,500 bytes, and {_told(value)} has {_bytes(value):,}: put it as Text(...), or Unindexed(...)"
    if indexed and isinstance(value, dict) and "bytes" in value:
        size = len(value["bytes"]) // 4 * 3 - value["bytes"].count("=")
        if size > NAME_BYTES:
            return f"indexed bytes are at most 1,500, and these are {size:,}: put them as Blob(...), or Unindexed(...)"
    return None


def _name_bytes(item: Tuple[str, Any]) -> bytes:
    return item[0].encode("utf-8", "replace")


def entity_fault(entity: Dict[str, Any]) -> Optional[str]:
    """What is wrong with an entity, as JSON: its key first, and then its properties by name."""
    fault = key_fault(entity["key"], writable=True, incomplete=True)
    if fault:
        return fault
    properties: Dict[str, Any] = entity["properties"]
    for name, value in sorted(properties.items(), key=_name_bytes):
        fault = name_fault(name, "the property's name")
        if fault:
            return fault
        indexed = not (isinstance(value, dict) and "unindexed" in value)
        several = value if indexed else value["unindexed"]
        for place, one in enumerate(several if isinstance(several, list) else [several]):
            fault = value_fault(one, indexed)
            if fault:
                where = f"[{place}]" if isinstance(several, list) else ""
                return f"the property {name}{where}: {fault}"
    return None


def _integer_fault(name: str, value: Any, least: int, most: int) -> Optional[str]:
    if isinstance(value, int) and not isinstance(value, bool) and least <= value <= most:
        return None
    return f"{name} is an int from {least:,} to {most:,}, and not {value!r}"


def _filters_fault(filters: List[Any]) -> Optional[str]:
    for name, operator, value in filters:
        for one in value if operator == "in" else [value]:
            # The bound on indexed texts is one of entities: a filter may have a longer one, which finds nothing.
            fault = value_fault(one, indexed=False)
            if fault:
                return f"the filter on {name}: {fault}"
    return None


def member_fault(asked: Dict[str, Any], field: str, shards: int = 16) -> Optional[str]:
    """What is wrong with the member of this name of a request."""
    if field not in asked or asked[field] is None:
        return f"{asked.get('op')} needs its {field}"
    value = asked[field]
    if field == "entity":
        return entity_fault(value)
    if field == "key":
        return key_fault(value, writable=asked["op"] == "delete")
    if field == "ancestor":
        return key_fault(value)
    if field == "namespace":
        return namespace_fault(value)
    if field == "filters":
        return _filters_fault(value)
    if field in ("args", "names"):
        for name, one in value.items() if field == "names" else enumerate(value, 1):
            fault = value_fault(one, indexed=False)
            if fault:
                return f"the argument :{name}: {fault}"
        return None
    if field in ("offset", "limit"):
        return _integer_fault(field, value, 0, WINDOW_MOST)
    if field == "count":
        return _integer_fault(field, value, 1, LAST_ID)
    if field == "shard":
        return _integer_fault(field, value, 0, shards - 1)
    wanted = {"kind": str, "text": str, "start": str, "end": str, "cursor": bool, "xg": bool}.get(field)
    if wanted is not None and not isinstance(value, wanted):
        return f"{field} is a {wanted.__name__}, and not {value!r}"
    if field == "kind" and not value:
        return "the kind is empty; a query without a kind leaves it out"
    return None


# ---- sizes


def _key_size(key: List[Any]) -> int:
    space = _bytes(key[0]) if key and isinstance(key[0], str) else 0
    elements = key[1:] if key and isinstance(key[0], str) else key
    return space + sum(16 + _bytes(kind) + (_bytes(one) if isinstance(one, str) else 8) for kind, one in elements)


def _content_size(value: Any) -> int:
    if isinstance(value, str):
        return _bytes(value)
    if isinstance(value, dict):
        if "key" in value:
            return _key_size(value["key"])
        if "text" in value:
            return _bytes(value["text"])
        text = str(value.get("bytes", value.get("blob", "")))
        return len(text) // 4 * 3 - text.count("=")
    return 0


def property_size(name: str, value: Any) -> int:
    """The bytes of a property, as the server counts them."""
    if isinstance(value, dict) and "unindexed" in value:
        value = value["unindexed"]
    several = value if isinstance(value, list) else [value]
    return 16 + _bytes(name) + sum(16 + _content_size(one) for one in several)


def entity_size(entity: Dict[str, Any]) -> int:
    """The bytes of an entity, as the server counts them; an entity may have 1,048,576."""
    return _key_size(entity["key"]) + sum(property_size(name, value) for name, value in entity["properties"].items())


def drawn_id(key: List[Any]) -> Optional[int]:
    """The greatest id of the path that the server would draw; None where there is none."""
    elements = key[1:] if key and isinstance(key[0], str) else key
    drawn = [one for _, one in elements if isinstance(one, int) and one >= FIRST_DRAWN]
    return max(drawn, default=None)
