"""Keys that stand in a GQL text: they mean the namespace of the client, as any key that names none."""
import re
from typing import Any, Collection, Dict, List, Optional, Tuple

from .shards import LAST_ID
from .values import Key

_TOKEN = re.compile(r"'(?:[^']|'')*'|\"[^\"]*\"|:?[A-Za-z_$0-9][A-Za-z0-9_$.]*|\S|\s+", re.S)
_KEY = re.compile(r"KEY\s*\(([^()'\"]|'(?:[^']|'')*')*\)", re.I)
_PART = re.compile(r"\s*('(?:[^']|'')*'|[0-9]+)\s*(,|$)")
_LONGEST = 1500


def keys_bound(text: str, names: Collection[str], namespace: Optional[str] = None) -> Tuple[str, Dict[str, Key]]:
    """The text with an argument, of a name that isn't among these, in place of each `KEY('Book', 'b')`; and these arguments, keys
    of this namespace.

    The text keeps its length in bytes, so that a refusal tells the right place. What is no key is left to the server.
    """
    found: Dict[str, Key] = {}
    pieces: List[str] = []
    place, number = 0, 0
    while place < len(text):
        token = _TOKEN.match(text, place)
        assert token is not None
        whole = _KEY.match(text, place) if token.group().upper() == "KEY" else None
        key = _key_of(whole.group(), namespace) if whole is not None else None
        if whole is None or key is None:
            pieces.append(token.group())
            place = token.end()
            continue
        number += 1
        while f"k{number}" in names or f":k{number}" in text:
            number += 1
        pieces.append(f":k{number}".ljust(len(whole.group().encode())))
        found[f"k{number}"] = key
        place = whole.end()
    return "".join(pieces), found


def _key_of(text: str, namespace: Optional[str]) -> Optional[Key]:
    """The key of a whole `KEY(...)`; None where the server will refuse it."""
    inside, place = text[text.index("(") + 1 : -1], 0
    parts: List[Any] = []
    while place < len(inside):
        part = _PART.match(inside, place)
        if part is None:
            return None
        word, place = part.group(1), part.end()
        parts.append(word[1:-1].replace("''", "'") if word.startswith("'") else int(word))
        if part.group(2) and place >= len(inside):
            return None
    texts = [part for part in parts if isinstance(part, str)]
    numbers = [part for part in parts[1::2] if isinstance(part, int)]
    if not parts or len(parts) % 2 or not all(isinstance(kind, str) for kind in parts[::2]) or len(parts) > 200:
        return None
    if not all(1 <= len(each.encode()) <= _LONGEST for each in texts) or not all(1 <= each <= LAST_ID for each in numbers):
        return None
    return Key(*parts, namespace=namespace)
