"""Keys, entities, and the values that Python has no type for."""
import itertools
from typing import Any, Dict, Iterator, KeysView, List, Mapping, Optional, Tuple, Union

Identifier = Union[int, str, None]


class Key:
    """An entity's key: kinds and identifiers from the root, as `Key("Guestbook", "default", "Greeting", 7)`.

    An identifier is an id, a name, or in the last place of a new entity `None`: its id is then drawn by the server. A key
    without a namespace of its own stands in that of the client that sends it. A path that is none is a ValueError, a word of a wrong
    type a TypeError.
    """

    __slots__ = ("path", "namespace")

    def __init__(self, *path: Any, namespace: Optional[str] = None) -> None:
        if not path or len(path) % 2:
            raise ValueError(f"a key is a list of kinds, each with an identifier behind it, and not {path!r}")
        self.path: Tuple[Tuple[str, Identifier], ...] = tuple(zip(path[::2], path[1::2]))
        self.namespace = namespace
        for kind, identifier in self.path:
            if not isinstance(kind, str):
                raise TypeError(f"a kind is a str: {kind!r}")
            if isinstance(identifier, bool) or not isinstance(identifier, (int, str, type(None))):
                raise TypeError(f"an identifier is an int, a str or None: {identifier!r}")

    @property
    def kind(self) -> str:
        """The kind of the last element."""
        return self.path[-1][0]

    @property
    def identifier(self) -> Identifier:
        """The id or name of the last element; None of a key whose id is to be drawn."""
        return self.path[-1][1]

    @property
    def parent(self) -> "Optional[Key]":
        """The key of the path without its last element; None of a root."""
        above = self.path[:-1]
        return Key(*itertools.chain(*above), namespace=self.namespace) if above else None

    @property
    def root(self) -> "Key":
        """The key of the first element alone, which names the entity group."""
        return Key(*self.path[0], namespace=self.namespace)

    def child(self, kind: str, identifier: Identifier = None) -> "Key":
        """The key of one more element below this one."""
        return Key(*itertools.chain(*self.path), kind, identifier, namespace=self.namespace)

    def __eq__(self, other: object) -> bool:
        return isinstance(other, Key) and (self.path, self.namespace or "") == (other.path, other.namespace or "")

    def __hash__(self) -> int:
        return hash((self.path, self.namespace or ""))

    def __repr__(self) -> str:
        words = [repr(word) for word in itertools.chain(*self.path)]
        if self.namespace:
            words.append(f"namespace={self.namespace!r}")
        return f"Key({', '.join(words)})"


class Date(int):
    """A date as microseconds since 1970, for one that `datetime` can't hold."""


class Rating(int):
    """A rating from 0 to 100."""


class Text(str):
    """A long text, which is never indexed."""


class Blob(bytes):
    """Long bytes, which are never indexed."""


class Many(List[Any]):
    """A list that stays a list: `put(key, tags=Many(["home"]))`.

    The server keeps a list of one value as that value, and an empty list as no property. Once a property was put as `Many`, entities of its
    kind have it as `Many` in every reply to clients of that namespace, also with one value and with none. `Server(many=...)` says so of properties
    from the start.
    """

    def __repr__(self) -> str:
        return f"Many({list.__repr__(self)})"


class Unindexed:
    """A property that is stored and not indexed: `Unindexed("a note")`, `Unindexed([1, 2])`."""

    __slots__ = ("value",)

    def __init__(self, value: Any) -> None:
        self.value = value

    def __eq__(self, other: object) -> bool:
        return isinstance(other, Unindexed) and bool(self.value == other.value)

    def __hash__(self) -> int:
        return hash(("unindexed", repr(self.value)))

    def __repr__(self) -> str:
        return f"Unindexed({self.value!r})"


class Entity:
    """A key and properties by name; a result of a projection has the projected ones.

    It reads and writes as a dict of its properties: `entity["n"]`, `entity["n"] = 6`, `del entity["n"]`, `"n" in entity`, `dict(entity)`.
    Nothing of that reaches the server before the entity is put.
    """

    __slots__ = ("key", "properties")

    def __init__(self, key: Key, properties: Optional[Mapping[str, Any]] = None, /, **more: Any) -> None:
        self.key = key
        self.properties: Dict[str, Any] = {**(properties or {}), **more}

    def __getitem__(self, name: str) -> Any:
        return self.properties[name]

    def __setitem__(self, name: str, value: Any) -> None:
        self.properties[name] = value

    def __delitem__(self, name: str) -> None:
        del self.properties[name]

    def __contains__(self, name: object) -> bool:
        return name in self.properties

    def __iter__(self) -> Iterator[str]:
        return iter(self.properties)

    def __len__(self) -> int:
        return len(self.properties)

    def __bool__(self) -> bool:
        """True: an entity without properties is one all the same."""
        return True

    def keys(self) -> KeysView[str]:
        """The names of its properties, so that `dict(entity)` gives them with their values."""
        return self.properties.keys()

    def get(self, name: str, default: Any = None) -> Any:
        """The property's value, or the default where it has none of this name."""
        return self.properties.get(name, default)

    def many(self, name: str) -> Many:
        """The property's values as a list: of none, of one, or of several."""
        value = self.properties.get(name, [])
        if isinstance(value, Unindexed):
            value = value.value
        return Many(value if isinstance(value, list) else [value])

    def copy(self) -> "Entity":
        """An entity of the same key, with a dict of its own for the properties."""
        return Entity(self.key, self.properties)

    def __copy__(self) -> "Entity":
        return self.copy()

    def __eq__(self, other: object) -> bool:
        return isinstance(other, Entity) and (self.key, self.properties) == (other.key, other.properties)

    __hash__ = None  # type: ignore[assignment]

    def __repr__(self) -> str:
        words = [repr(self.key)]
        if all(name.isidentifier() for name in self.properties):
            words += [f"{name}={value!r}" for name, value in self.properties.items()]
        elif self.properties:
            words.append(repr(self.properties))
        return f"Entity({', '.join(words)})"
