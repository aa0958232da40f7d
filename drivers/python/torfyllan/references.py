"""Keys as App Engine writes them in URLs: the bytes of a `Reference`, a protocol buffer of the application, the namespace and the path.

Its fields are 13 the application, 14 the path, 20 the namespace and 23 the database. A path is a group 1 for each element, with 2 the kind, 3 the id
and 4 the name.
"""
from typing import Dict, Iterator, List, Sequence, Tuple, Union

Field = Tuple[int, Union[int, bytes]]

_APP, _PATH, _NAMESPACE, _DATABASE = 13, 14, 20, 23
_ELEMENT, _KIND, _ID, _NAME = 1, 2, 3, 4
_VARINT, _BYTES, _BEGIN, _END = 0, 2, 3, 4


def _varint(number: int) -> bytes:
    number &= 2**64 - 1
    pieces = bytearray()
    while number > 127:
        pieces.append(number & 127 | 128)
        number >>= 7
    pieces.append(number)
    return bytes(pieces)


def _text(field: int, text: str) -> bytes:
    content = text.encode("utf-8")
    return _varint(field << 3 | _BYTES) + _varint(len(content)) + content


def reference_bytes(app: str, namespace: str, path: Sequence[Tuple[str, Union[int, str, None]]]) -> bytes:
    """The bytes of a reference; the path is of pairs of a kind and an id, a name, or None of an incomplete key."""
    pieces: List[bytes] = []
    for kind, identifier in path:
        pieces += [_varint(_ELEMENT << 3 | _BEGIN), _text(_KIND, kind)]
        if isinstance(identifier, str):
            pieces.append(_text(_NAME, identifier))
        elif identifier is not None:
            pieces.append(_varint(_ID << 3 | _VARINT) + _varint(identifier))
        pieces.append(_varint(_ELEMENT << 3 | _END))
    content = b"".join(pieces)
    space = _text(_NAMESPACE, namespace) if namespace else b""
    return _text(_APP, app) + _varint(_PATH << 3 | _BYTES) + _varint(len(content)) + content + space


def reference_in(content: bytes) -> Tuple[str, str, List[Tuple[str, Union[int, str, None]]]]:
    """Application, namespace and path of a reference's bytes. What is none is a ValueError."""
    try:
        fields = dict(_fields(content, 0)[0])
        app, path, namespace, database = (_content(fields, field) for field in (_APP, _PATH, _NAMESPACE, _DATABASE))
        if not app or not path or database:
            raise ValueError("an application and a path are wanted, and no database")
        return app.decode("utf-8"), namespace.decode("utf-8"), list(_elements(path))
    except (ValueError, IndexError) as error:
        raise ValueError(f"this is no reference of a key: {content!r}") from error


def _content(fields: Dict[int, Union[int, bytes]], field: int) -> bytes:
    """The bytes of a field, none where it isn't there."""
    content = fields.get(field, b"")
    if isinstance(content, int):
        raise ValueError(f"field {field} is a text")
    return content


def _elements(content: bytes) -> Iterator[Tuple[str, Union[int, str, None]]]:
    at = 0
    while at < len(content):
        tag, at = _number(content, at)
        if tag != _ELEMENT << 3 | _BEGIN:
            raise ValueError("a path has elements alone")
        every, at = _fields(content, at, _ELEMENT)
        found = dict(every)
        identifier = found.get(_ID)
        if isinstance(identifier, bytes):
            raise ValueError("an id is a number")
        yield _content(found, _KIND).decode("utf-8"), _content(found, _NAME).decode("utf-8") if _NAME in found else identifier


def _fields(content: bytes, at: int, group: int = 0) -> Tuple[List[Field], int]:
    """The fields up to the end, or to the end of this group, and the place behind them."""
    found: List[Field] = []
    while at < len(content):
        tag, at = _number(content, at)
        form, field = tag & 7, tag >> 3
        if form == _END and field == group:
            return found, at
        value, at = _number(content, at)
        if form == _BYTES:
            if at + value > len(content):
                raise ValueError("a text ends early")
            found.append((field, content[at : at + value]))
            at += value
        elif form == _VARINT:
            found.append((field, value - 2**64 if value >= 2**63 else value))
        else:
            raise ValueError(f"a field of form {form}")
    if group:
        raise ValueError("a group has no end")
    return found, at


def _number(content: bytes, at: int) -> Tuple[int, int]:
    number = shift = 0
    while True:
        piece = content[at]
        number |= (piece & 127) << shift
        at, shift = at + 1, shift + 7
        if piece < 128:
            return number, at
        if shift > 63:
            raise ValueError("a number has 64 bits")
