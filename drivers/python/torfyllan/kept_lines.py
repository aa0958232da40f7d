"""A commit as a line of a kept file: read where it is just the text that the server writes for a commit, byte by byte, and else not at all."""
import base64
import binascii
import json
from typing import Any, Callable, Dict, List, NamedTuple, Optional, Tuple

from .rules import entity_size, key_fault, name_fault, value_fault

Json = Any

MOST_WRITES = 500
MOST_ENTITY = 1_048_576
_CLIENTS, _PLACES, _INTEGERS = 2**32, 2**64, 2**63
# An entity's size is at most eight times its text's length: a value counts 16, and takes two characters at least.
_SURELY_SMALL = MOST_ENTITY // 8
_encode = json.JSONEncoder(ensure_ascii=False, separators=(",", ":"), sort_keys=True).encode


class Commit(NamedTuple):
    """A commit: its number from 1, the client, the touched groups as `[root key, place]`, and the writes as `{"put": entity}` or `{"delete": key}`."""

    number: int
    client: int
    touched: List[Any]
    writes: List[Dict[str, Any]]

    @property
    def keys(self) -> List[Json]:
        """The written keys, in the order of the writes."""
        return [write["put"]["key"] if "put" in write else write["delete"] for write in self.writes]


def text_of(told: Json) -> bytes:
    """JSON as the server writes it: compact, with its members by name. Half of a surrogate pair, which it never writes, is a ValueError."""
    return _encode(told).encode("utf-8")


def commit_in(line: bytes, number: int) -> Optional[Commit]:
    """The commit of this number whose text the line is, without its newline; None where it is that of none."""
    try:
        told = json.loads(line.decode("utf-8"))
        if not _is_commit(told, number) or text_of(told) != line:
            return None
    except (ValueError, RecursionError):
        return None
    if len(line) > _SURELY_SMALL and any("put" in write and entity_size(write["put"]) > MOST_ENTITY for write in told["writes"]):
        return None
    return Commit(number, told["client"], told["touched"], told["writes"])


def commit_told(line: bytes, number: int) -> Optional[Commit]:
    """The commit of this number of a line that a server wrote; of another line one that none wrote, or None."""
    try:
        told = json.loads(line)
        return Commit(number, told["client"], told["touched"], told["writes"]) if told["commit"] == number else None
    except (ValueError, RecursionError, KeyError, TypeError):
        return None


def root_of(key: Json) -> Tuple[Any, ...]:
    """The entity group of a key: its namespace, and the kind and identifier of its root."""
    if isinstance(key[0], str):
        return (key[0], key[1][0], key[1][1])
    return ("", key[0][0], key[0][1])


def path_of(key: Json) -> Tuple[Any, ...]:
    """The whole key, as a value that can be looked up: its namespace, and then each kind and identifier."""
    elements = key[1:] if isinstance(key[0], str) else key
    return (key[0] if isinstance(key[0], str) else "", *(part for element in elements for part in element))


# ---- forms: whether this is what is printed for a value of the kind, and not only what would be read as one


def _is_number(told: Json, below: int) -> bool:
    return type(told) is int and 0 <= told < below


def _is_commit(told: Json, number: int) -> bool:
    return (
        type(told) is dict
        and told.keys() == {"client", "commit", "touched", "writes"}
        and _is_number(told["client"], _CLIENTS)
        and type(told["commit"]) is int
        and told["commit"] == number
        and type(told["touched"]) is list
        and all(map(_is_touch, told["touched"]))
        and type(told["writes"]) is list
        and len(told["writes"]) <= MOST_WRITES
        and all(map(_is_write, told["writes"]))
    )


def _is_touch(told: Json) -> bool:
    return type(told) is list and len(told) == 2 and _is_key(told[0]) and _is_number(told[1], _PLACES)


def _is_write(told: Json) -> bool:
    if type(told) is not dict or len(told) != 1:
        return False
    return _is_entity(told["put"]) if "put" in told else "delete" in told and _is_key(told["delete"])


def _is_key(told: Json, writable: bool = False) -> bool:
    """A complete key. An empty namespace isn't printed."""
    if type(told) is not list or not told:
        return False
    elements = told[1:] if type(told[0]) is str else told
    return told[0] != "" and all(map(_is_element, elements)) and key_fault(told, writable=writable) is None


def _is_element(told: Json) -> bool:
    return type(told) is list and len(told) == 2 and type(told[0]) is str and type(told[1]) in (str, int)


def _is_entity(told: Json) -> bool:
    return (
        type(told) is dict
        and told.keys() == {"key", "properties"}
        and _is_key(told["key"], writable=True)
        and type(told["properties"]) is dict
        and all(_is_property(name, value) for name, value in told["properties"].items())
    )


def _is_property(name: str, told: Json) -> bool:
    """A value, or an array of at least two, either of them perhaps unindexed."""
    if name_fault(name, "a name") is not None:
        return False
    indexed = not (type(told) is dict and told.keys() == {"unindexed"})
    if not indexed:
        told = told["unindexed"]
    if type(told) is list:
        return len(told) > 1 and all(_is_value(one, indexed) for one in told)
    return _is_value(told, indexed)


def _is_value(told: Json, indexed: bool) -> bool:
    kind = type(told)
    if told is None or kind is bool:
        return True
    if kind is int:
        return bool(-_INTEGERS <= told < _INTEGERS)
    if kind is dict and len(told) == 1:
        ((form, inner),) = told.items()
        return form in _FORMS and _FORMS[form](inner) and value_fault(told, indexed) is None
    return kind is str and value_fault(told, indexed) is None


def _is_base64(told: Json) -> bool:
    """Base64 with padding, and no bit set beyond the bytes."""
    if type(told) is not str or not told.isascii():
        return False
    try:
        return base64.b64encode(base64.b64decode(told, validate=True)).decode("ascii") == told
    except binascii.Error:
        return False


_FORMS: Dict[str, Callable[[Json], bool]] = {
    "date": lambda inner: type(inner) is int,
    "rating": lambda inner: type(inner) is int,
    "text": lambda inner: type(inner) is str,
    "bytes": _is_base64,
    "blob": _is_base64,
    "key": _is_key,
}
