"""Classes of models that share a kind: `google.appengine.ext.ndb.polymodel`."""
from typing import Any, Dict, List, Tuple, Type

from ..facade import bare
from .datastore_errors import BadValueError
from .key import KINDS
from .kinds import StringProperty
from .members import TABLE
from .model import M, Model


class _ClassKeyProperty(StringProperty):
    """The names of an entity's classes, from the root of its kind on."""

    def __init__(self, name: str = "class", indexed: bool = True) -> None:
        super().__init__(name, indexed=indexed, repeated=True)

    def _set_value(self, entity: Any, value: Any) -> None:
        raise TypeError("class_ can't be set: it is the class of the entity")

    def _get_value(self, entity: Any) -> Any:
        if self._name not in entity._values and not entity._projection:
            entity._values[self._name] = list(entity._class_key())
        return super()._get_value(entity)

    def _prepare_for_put(self, entity: Any) -> None:
        self._get_value(entity)


class PolyModel(Model):
    """A model whose subclasses share its kind: a query of a class gives its entities and those of the classes below it.

        class Animal(polymodel.PolyModel): name = ndb.StringProperty()
        class Cat(Animal): lives = ndb.IntegerProperty()

    The property `class` has the names of an entity's classes from the root on.
    """

    class_: Any = _ClassKeyProperty()
    _class_map: Dict[Tuple[str, ...], Any] = {}

    @classmethod
    def _fix_up_properties(cls) -> None:
        super()._fix_up_properties()
        if cls._get_hierarchy():
            cls._class_map[cls._class_key()] = cls
            KINDS[cls._get_kind()] = cls._get_hierarchy()[0]

    @classmethod
    def _get_hierarchy(cls) -> List[Any]:
        """The classes from the root of the kind to this one."""
        # PolyModel has the map itself, and each class below it has it from there.
        return [each for each in reversed(cls.__mro__) if hasattr(each, "_class_map") and "_class_map" not in vars(each)]

    @classmethod
    def _class_name(cls) -> str:
        """The name of the class; a class may say otherwise."""
        return cls.__name__

    @classmethod
    def _class_key(cls) -> Tuple[str, ...]:
        """The names of the classes from the root of the kind to this one."""
        return tuple(each._class_name() for each in cls._get_hierarchy())

    @classmethod
    def _get_kind(cls) -> str:
        """The kind: the name of the root, unless that says otherwise."""
        hierarchy = cls._get_hierarchy()
        if not hierarchy or hierarchy[0] is cls:
            return cls.__name__
        return str(hierarchy[0]._get_kind())

    @classmethod
    def _default_filters(cls) -> Tuple[Any, ...]:
        if len(cls._get_hierarchy()) <= 1:
            return ()
        if not cls.class_._indexed:
            raise BadValueError(f"class_ of {cls.__name__} isn't indexed, so it can't be asked for by its class")
        return (cls.class_ == cls._class_name(),)

    @classmethod
    def _loaded_from(cls: Type[M], properties: Dict[str, Any], projection: Tuple[str, ...] = ()) -> M:
        """An entity of the class that it was put as; of the root, where that class isn't known."""
        given = bare(properties.get("class"))
        names = tuple(given if isinstance(given, list) else [given])
        known: Any = PolyModel._class_map.get(names, cls)
        own: Any = super(PolyModel, known)
        return own._loaded_from(properties, projection)  # type: ignore[no-any-return]


__all__ = ["PolyModel"]
__getattr__ = TABLE.module_getattr(__name__, "polymodel.")
