"""Entities as JSON, one a line, in the form of the protocol: out of a server and into one."""
import contextlib
import json
import os
from typing import IO, TYPE_CHECKING, Any, Iterable, Iterator, Optional, Union

from .kept import read_kept
from .kept_faults import damage_of
from .rules import drawn_id
from .shards import key_bytes
from .values import Entity
from .wire import entity_in, key_out, properties_out

if TYPE_CHECKING:
    from .client import Client

_PAGE = 1000


@contextlib.contextmanager
def _opened(file: Any, mode: str) -> Iterator[IO[str]]:
    """A file of this name, or the open text file that is given."""
    if isinstance(file, (str, os.PathLike)):
        with open(file, mode, encoding="utf-8", newline="\n") as opened:
            yield opened
    else:
        yield file


def dump(client: "Client", file: Any, kind: Optional[str] = None) -> int:
    """Writes the entities of the client's namespace, by their keys, and gives their number. Keys of that namespace are written without it."""
    client.settle()
    with _opened(file, "w") as lines:
        return _write(lines, (entity for page in client.pages(kind, size=_PAGE) for entity in page))


def dump_kept(kept: Union[str, "os.PathLike[str]"], file: Any, kind: Optional[str] = None, *, namespace: str = "") -> int:
    """Writes the entities of a kept file that stand in this namespace, of this kind or of all, as `client.dump` does of a server's; gives their number.
    No server is needed. A file that is damaged is a `KeptFileError`, and nothing is written."""
    read = read_kept(kept)
    found = [entity_in(told, namespace) for path, told in read.entities().items() if path[0] == namespace]
    if read.damaged:
        raise damage_of(os.fspath(kept), read.place)
    with _opened(file, "w") as lines:
        return _write(lines, sorted((it for it in found if kind in (None, it.key.kind)), key=lambda it: key_bytes(it.key)))


def _write(lines: IO[str], entities: Iterable[Entity]) -> int:
    count = 0
    for entity in entities:
        told = {"key": key_out(entity.key, ""), "properties": properties_out(entity.properties, "")}
        lines.write(json.dumps(told, ensure_ascii=False, separators=(",", ":")) + "\n")
        count += 1
    return count


def load(client: "Client", file: Any) -> int:
    """Puts the entities of such a file, and gives their number. A line that is none is a ValueError with its number; nothing is then put."""
    entities, greatest = [], 0
    with _opened(file, "r") as lines:
        for number, line in enumerate(lines, 1):
            if not line.strip():
                continue
            try:
                told = json.loads(line)
                entities.append(entity_in({"key": told["key"], "properties": told.get("properties", {})}, ""))
            except (ValueError, KeyError, TypeError, IndexError) as error:
                raise ValueError(f"line {number} is no entity in JSON, as {{\"key\":[[\"T\",\"a\"]],\"properties\":{{}}}}: {error}") from None
            greatest = max(greatest, drawn_id(told["key"]) or 0)
    with client.server.without_faults():
        if greatest:
            client.server.reserve_ids(greatest)
        client.put_multi(entities)
        client.settle()
    return len(entities)
