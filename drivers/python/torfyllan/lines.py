"""Requests as lines, and lines as rounds, within the protocol's bounds."""
import json
from typing import Any, Dict, Iterator, Sequence, Tuple

from . import rules

# A report of pytest shows the test's own lines, and none of these.
__tracebackhide__ = True

ROUND_LINES = 65_535
ROUND_BYTES = 64 * 1024 * 1024
LINE_BYTES = 2_097_152
SPLIT_LINES = 1_000
"""The lines of a round where many may be split: each round has the time that is given to one."""


def line_of(members: Dict[str, Any], namespace: str) -> bytes:
    """The request as a line. One that is too long, or has no UTF-8, is a ValueError."""
    try:
        line = json.dumps(members, ensure_ascii=False, separators=(",", ":"), allow_nan=False).encode()
    except UnicodeEncodeError as error:
        half = error.object[error.start : error.end]
        raise ValueError(f"a text of the {members['op']} has half of a surrogate pair, which no UTF-8 has: {half!r}") from None
    if len(line) > LINE_BYTES:
        raise ValueError(_too_long(members, len(line)))
    return line


def _too_long(members: Dict[str, Any], length: int) -> str:
    bound = f"a line has at most {LINE_BYTES:,} bytes, and that of this {members['op']} has {length:,}"
    if "entity" not in members:
        return bound
    size = rules.entity_size(members["entity"])
    if size > 1_048_576:
        return f"the entity has {size:,} bytes, and an entity may have 1,048,576"
    return (
        f"{bound}: the entity itself is within its bound, with {size:,} of 1,048,576 bytes, but JSON writes control characters,"
        " quotes and backslashes by escapes of 2 to 6 bytes, and bytes in base64. Put such a text as Blob(text.encode()), or in two entities"
    )


def rounds_of(lines: Sequence[bytes], split: bool) -> Iterator[Tuple[int, int]]:
    """The first and the end of each round of these lines. Too many for one round are a ValueError, unless they may be split."""
    first, size, most = 0, 0, SPLIT_LINES if split else ROUND_LINES
    for place, line in enumerate(lines):
        if place - first >= most or size + len(line) + 2 >= ROUND_BYTES:
            if not split:
                raise ValueError(f"a round has at most {ROUND_LINES:,} lines and less than 64 MiB, and this one has {len(lines):,} lines")
            yield first, place
            first, size = place, 0
        size += len(line) + 1
    if first < len(lines):
        yield first, len(lines)
