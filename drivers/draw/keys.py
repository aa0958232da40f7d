"""Keys as the protocol writes them: what a reader sees of one, and the shard that its entity group belongs to.

A key here is a pair of a namespace (a text, empty for the default one) and a path, a tuple of pairs of a kind and an id or a name.
"""
import functools
import json


_hidden = frozenset()


def hide(namespaces):
    """Labels don't name these namespaces from now on, as those that tests have."""
    global _hidden
    _hidden = frozenset(it for it in namespaces if isinstance(it, str))
    label.cache_clear()


def space(namespace):
    """The words for a namespace that stand before a label: none for the default one, and for one that isn't named."""
    return [word(namespace)] if namespace and namespace not in _hidden else []


def read_key(value):
    """The key that a JSON value stands for; None where it is none."""
    if not isinstance(value, list):
        return None
    namespace, parts = (value[0], value[1:]) if value and isinstance(value[0], str) else ("", value)
    if not 1 <= len(parts) <= 100:
        return None
    for part in parts:
        if not (isinstance(part, list) and len(part) == 2 and isinstance(part[0], str) and part[0]):
            return None
        identifier = part[1]
        if isinstance(identifier, bool) or not (isinstance(identifier, int) and 0 < identifier < 2**63 or isinstance(identifier, str) and identifier):
            return None
    return namespace, tuple((kind, identifier) for kind, identifier in parts)


def written(key):
    """The key as the protocol writes it."""
    namespace, path = key
    return ([namespace] if namespace else []) + [list(pair) for pair in path]


def group_of(key):
    """The root key of a key, which names its entity group."""
    return key[0], key[1][:1]


def _escaped(text):
    return text.encode("utf-8", "surrogatepass").replace(b"\0", b"\0\xff") + b"\0\x01"


@functools.lru_cache(maxsize=None)
def encoded(key):
    """The bytes of a key in ascending order: keys compare as these do."""
    namespace, path = key
    pieces = [b"\x03" + _escaped(namespace)] if namespace else []
    for kind, identifier in path:
        last = b"\x10" + identifier.to_bytes(8, "big") if isinstance(identifier, int) else b"\x20" + _escaped(identifier)
        pieces.append(b"\x02" + _escaped(kind) + last)
    return b"".join(pieces) + b"\x01"


def fnv1a(content):
    """FNV-1a with 64 bits."""
    value = 14_695_981_039_346_656_037
    for byte in content:
        value = (value ^ byte) * 1_099_511_628_211 & 0xFFFF_FFFF_FFFF_FFFF
    return value


@functools.lru_cache(maxsize=None)
def shard_of(group, shards):
    """The number, from 0, of the shard that an entity group belongs to."""
    return fnv1a(encoded(group)) % shards


def word(text):
    """A name as a label shows it: as it is where nothing in it could mislead, else as a JSON text in ASCII."""
    if text and text.isprintable() and not text.isdigit() and not set(text) & set(' "/\\') and text[0] != "-":
        return text
    return json.dumps(text, ensure_ascii=not text.isprintable())


def cut(text, most=160):
    return text if len(text) <= most else text[: most - 1] + "…"


@functools.lru_cache(maxsize=None)
def label(key):
    """A key for the eye: `Guestbook main / Greeting 12`, with its namespace before it where it has one."""
    namespace, path = key
    shown = " / ".join(f"{word(kind)} {identifier if isinstance(identifier, int) else word(identifier)}" for kind, identifier in path)
    return cut(": ".join([*space(namespace), shown]))
