"""Keys of the Cloud client."""
import base64
from typing import Any, Dict, List, Optional, Tuple, Union

from .. import values
from ..references import reference_bytes, reference_in
from .members import TABLE

Identifier = Union[int, str]


class Key:
    """A key: `client.key("Book", "main", "Greeting", 7)`, or `Key("Book", "main", project="shop")`. Without the last
    identifier it is partial: the put draws it.

    `kind`, `id`, `name` and `id_or_name` are of the last element, None where it has none. `parent` of a root is None.
    `namespace` is None for the one that the client of the server has. `project` and `database` have no effect.
    """

    namespace: Optional[str]
    project: str
    database: Optional[str]

    def __init__(self, *path: Any, parent: "Optional[Key]" = None, namespace: Optional[str] = None,
                 project: Optional[str] = None, database: Optional[str] = None) -> None:
        if not path:
            raise ValueError("a key has at least a kind")
        if parent is not None and parent.is_partial:
            raise ValueError(f"a partial key can't be a parent: {parent!r}")
        for at, part in enumerate(path):
            if at % 2 == 0 and not isinstance(part, str):
                raise ValueError(f"a kind is a str, and not {part!r}")
            if at % 2 and (isinstance(part, bool) or not isinstance(part, (int, str))):
                raise ValueError(f"an identifier is an int or a str, and not {part!r}")
        if parent is not None and (namespace or parent.namespace) != parent.namespace:
            raise ValueError(f"Child namespace must agree with parent's, {parent.namespace!r}")
        self.database = database
        self.flat_path: Tuple[Any, ...] = (parent.flat_path if parent is not None else ()) + path
        self.namespace = (parent.namespace if namespace is None and parent is not None else namespace) or None
        if project is None and parent is None:
            raise ValueError("A Key must have a project set: client.key(...) does it, or Key(..., project=...)")
        self.project = project or (parent.project if parent is not None else "")

    @property
    def path(self) -> List[Dict[str, Any]]:
        """A dict for each element, of its kind and its id or name."""
        pairs = [self.flat_path[at : at + 2] for at in range(0, len(self.flat_path), 2)]
        return [{"kind": kind, **{"name" if isinstance(last, str) else "id": last for last in rest}}
                for kind, *rest in pairs]

    @property
    def kind(self) -> str:
        return str(self.flat_path[-1 if self.is_partial else -2])

    @property
    def is_partial(self) -> bool:
        return len(self.flat_path) % 2 == 1

    @property
    def id_or_name(self) -> Optional[Identifier]:
        return None if self.is_partial else self.flat_path[-1]

    @property
    def id(self) -> Optional[int]:
        last = self.id_or_name
        return last if isinstance(last, int) else None

    @property
    def name(self) -> Optional[str]:
        last = self.id_or_name
        return last if isinstance(last, str) else None

    @property
    def parent(self) -> "Optional[Key]":
        above = self.flat_path[: -1 if self.is_partial else -2]
        return Key(*above, namespace=self.namespace, project=self.project) if above else None

    def completed_key(self, id_or_name: Identifier) -> "Key":
        """This partial key with an identifier."""
        if not self.is_partial:
            raise ValueError(f"the key is complete: {self!r}")
        return Key(*self.flat_path, id_or_name, namespace=self.namespace, project=self.project)

    def to_legacy_urlsafe(self, location_prefix: Optional[str] = None) -> bytes:
        """The key as App Engine writes it in URLs, with this before the project's name, as `"s~"`."""
        path = self.to_driver().path
        content = reference_bytes(f"{location_prefix or ''}{self.project}", self.namespace or "", path)
        return base64.urlsafe_b64encode(content).rstrip(b"=")

    @classmethod
    def from_legacy_urlsafe(cls, urlsafe: Union[str, bytes]) -> "Key":
        """The key of such a text. One that is none is a ValueError."""
        try:
            given = urlsafe.encode("ascii") if isinstance(urlsafe, str) else urlsafe
            content = base64.b64decode(given + b"=" * (-len(given) % 4), b"-_", validate=True)
        except ValueError as error:
            raise ValueError(f"this is no key of a URL: {urlsafe!r}") from error
        app, namespace, path = reference_in(content)
        if any(identifier is None for _, identifier in path[:-1]):
            raise ValueError(f"this is no key of a URL: {urlsafe!r}")
        flat = [part for kind, identifier in path for part in (kind, identifier) if part is not None]
        return cls(*flat, project=app.rpartition("~")[2], namespace=namespace or None)

    def __getattr__(self, name: str) -> Any:
        return TABLE.object_getattr(type(self), name)

    def __eq__(self, other: object) -> bool:
        if not isinstance(other, Key):
            return NotImplemented
        if self.is_partial or other.is_partial:
            return False
        return (self.flat_path, self.namespace) == (other.flat_path, other.namespace)

    def __hash__(self) -> int:
        return hash((self.flat_path, self.namespace))

    def __repr__(self) -> str:
        return f"<Key{self.flat_path!r}{f', namespace={self.namespace!r}' if self.namespace else ''}>"

    def to_driver(self) -> values.Key:
        """The driver's key."""
        return values.Key(*self.flat_path, *([None] if self.is_partial else []), namespace=self.namespace)


def from_driver(key: values.Key, project: str) -> Key:
    """The key of a driver's key."""
    return Key(*(part for pair in key.path for part in pair), namespace=key.namespace, project=project)
