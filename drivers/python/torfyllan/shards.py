"""Which shard an entity group belongs to: the hash of its root key, as the server computes it.

A group's shard is FNV-1a of 64 bits over the bytes of the root key in ascending order, modulo the number of shards.
"""
from typing import Optional

from .spaces import space_out
from .values import Key

_START = 14_695_981_039_346_656_037
_TIMES = 1_099_511_628_211
_BITS = 2**64 - 1

FIRST_DRAWN = 2**52
"""The first id that the server draws; smaller ones are the application's own."""

LAST_ID = 2**63 - 1


def hash_of(text: bytes) -> int:
    """FNV-1a of 64 bits."""
    value = _START
    for byte in text:
        value = (value ^ byte) * _TIMES & _BITS
    return value


def _escaped(text: str) -> bytes:
    return text.encode("utf-8").replace(b"\x00", b"\x00\xff") + b"\x00\x01"


def key_bytes(key: Key, namespace: str = "") -> bytes:
    """The key's bytes, which sort as keys do. A key without a namespace stands in this one. A key without its id is a ValueError."""
    space = space_out(key.namespace, namespace)
    pieces = [b"\x03" + _escaped(space)] if space else []
    for kind, identifier in key.path:
        pieces.append(b"\x02" + _escaped(kind))
        if identifier is None:
            raise ValueError(f"{key!r} has no id yet: its group is known once it is put")
        pieces.append(b"\x20" + _escaped(identifier) if isinstance(identifier, str) else b"\x10" + identifier.to_bytes(8, "big"))
    return b"".join(pieces) + b"\x01"


def shard_of(key: Key, shards: int, namespace: str = "") -> int:
    """The shard, from 0, of the key's entity group among so many shards."""
    return hash_of(key_bytes(key.root, namespace)) % shards


# ---- tests that don't depend on each other

_NAMESPACE_BYTES = 100
_LETTERS = "pabcdefghijklmno"


def even_namespace(name: str, like: str = "") -> str:
    """A namespace of this name in which each group has the shard, of 1, 2, 4, 8 or 16, that it has in the namespace `like`.

    The hash modulo 16 goes through sixteen states; one letter at the end of the namespace leads to that of the other one.
    """
    wanted = hash_of(b"\x03" + _escaped(like)) % 16 if like else _START % 16
    name = "".join(letter if letter.isascii() and (letter.isalnum() or letter in "._-") else "-" for letter in name)
    name = name[: _NAMESPACE_BYTES - 1]
    for letter in _LETTERS:
        if hash_of(b"\x03" + _escaped(name + letter)) % 16 == wanted:
            return name + letter
    raise AssertionError("one letter of sixteen leads to each state")


# The sixteen lowest bits of an id, and the low four of each byte above: what its hash modulo 16 depends on, for so many ids on end.
_KEPT = 0x0F0F_0F0F_0F0F_FFFF


def even_start(least: int) -> Optional[int]:
    """The first id, at least this one, from which drawn ids have the shards, of 1, 2, 4, 8 or 16, that they have from the first one on.

    So it is for the next 65,536 of them. None where there is no such id.
    """
    start = ((least - 1) | _KEPT) + 1 & ~_KEPT if least > FIRST_DRAWN else FIRST_DRAWN
    return start if start <= LAST_ID - 2**20 else None
