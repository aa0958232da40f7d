"""Entities of the Cloud client, and their values."""
from typing import Any, Dict, Iterable, Optional, Set, Union

from .. import values
from ..facade import bare, loaded, stored, with_lists, without_lists
from .exceptions import InvalidArgument
from .helpers import GeoPoint
from .key import Key, from_driver
from .members import EMBEDDED, FLOATS, PLACES


class Entity(Dict[str, Any]):
    """A dict of properties, with its `key`, and the names that `exclude_from_indexes` keeps out of indexes."""

    def __init__(self, key: Optional[Key] = None, exclude_from_indexes: Iterable[str] = ()) -> None:
        super().__init__()
        if isinstance(exclude_from_indexes, str):
            raise TypeError("exclude_from_indexes is a list of names")
        self.key = key
        self.exclude_from_indexes: Set[str] = set(exclude_from_indexes)

    @property
    def kind(self) -> Optional[str]:
        """The kind of the key, if there is one."""
        return self.key.kind if self.key is not None else None

    @property
    def id(self) -> Any:
        """The id or name of the key, if there is one."""
        return self.key.id_or_name if self.key is not None else None

    def __eq__(self, other: object) -> bool:
        if not isinstance(other, Entity):
            return NotImplemented
        return (self.key, self.exclude_from_indexes, dict(self)) == (other.key, other.exclude_from_indexes, dict(other))

    def __ne__(self, other: object) -> bool:
        return not self == other

    __hash__ = None

    def __repr__(self) -> str:
        return f"<Entity{self.key.flat_path if self.key is not None else ''} {dict(self)!r}>"


class NotStored(NotImplementedError, TypeError):
    """A value of a type that the server has none for: a float, a place, an embedded entity or a dict."""


class NoValue(TypeError, ValueError):
    """A value of a type that the library has none for either. It raises a ValueError, and Python a TypeError."""


def value_out(name: str, value: Any, indexed: bool = True) -> Any:
    """The driver's value of one value. One that isn't stored is a NotStored, another that is none a NoValue."""
    for kinds, told in ((float, FLOATS), (GeoPoint, PLACES), (dict, EMBEDDED)):
        if isinstance(value, kinds):
            raise NotStored(f"{name}: {told}: {value!r}")
    try:
        return stored(value, indexed)
    except TypeError as error:
        raise NoValue(f"{name}: {error}") from None
    except ValueError as error:
        raise InvalidArgument(f"the property {name!r}: {error}") from None


def properties_out(entity: Entity) -> Dict[str, Any]:
    """The driver's values of an entity."""
    found: Dict[str, Any] = {}
    for name, value in entity.items():
        indexed = name not in entity.exclude_from_indexes
        is_list = isinstance(value, (list, tuple))
        given = [value_out(name, each, indexed) for each in value] if is_list else value_out(name, value, indexed)
        found[name] = given if indexed else values.Unindexed(given)
    return with_lists(found)


def entity_in(found: Union[values.Entity, values.Key], project: str) -> Entity:
    """The entity of a driver's entity, or one without properties of a driver's key."""
    if isinstance(found, values.Key):
        return Entity(from_driver(found, project))
    entity = Entity(from_driver(found.key, project))
    for name, value in without_lists(found.properties).items():
        given = bare(value)
        is_list = isinstance(given, list)
        many = [loaded(each, lambda key: from_driver(key, project)) for each in (given if is_list else [given])]
        entity[name] = many if is_list else many[0]
        if isinstance(value, (values.Unindexed, values.Text, values.Blob)):
            entity.exclude_from_indexes.add(name)
    return entity
