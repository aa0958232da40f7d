"""Properties that are models themselves: stored part by part, so that queries find the parts, or as one value."""
import copy
import json
from typing import Any, Callable, Dict, Iterator, List, Optional

from .. import values, wire
from ..facade import bare, without_lists
from .datastore_errors import BadFilterError
from .key import from_driver
from .members import TABLE
from .nodes import ConjunctionNode, DisjunctionNode, FilterNode, Sieve
from .kinds import BlobProperty
from .properties import Property, unindexed
from .running import value_order


class _OfModel(Property):
    _modelclass: Any

    def _as_model(self, value: Any) -> Any:
        if isinstance(value, dict):
            return self._modelclass(**value)
        if not isinstance(value, self._modelclass):
            raise self._expected(f"a {self._modelclass.__name__}", value)

    def _own_kinds(self) -> List[type]:
        """The classes of the application's own that this property is of, the last first."""
        kinds = type(self).__mro__
        return list(kinds[: next(at for at, kind in enumerate(kinds) if kind.__module__ == __name__)])

    def _model_of(self, value: Any) -> Any:
        """The model that is stored for a value: the value, unless a class of the application's own converts it."""
        if value is None:
            return None
        for kind in self._own_kinds():
            for name in ("_validate", "_to_base_type"):
                if name in kind.__dict__:
                    coerced = kind.__dict__[name](self, value)
                    value = value if coerced is None else coerced
        coerced = self._as_model(value)
        return value if coerced is None else coerced

    def _value_of(self, model: Any) -> Any:
        """The value for which a model is stored."""
        for kind in reversed(self._own_kinds()) if model is not None else ():
            if "_from_base_type" in kind.__dict__:
                coerced = kind.__dict__["_from_base_type"](self, model)
                model = model if coerced is None else coerced
        return model

    def _models(self, entity: Any) -> List[Any]:
        value = self._get_value(entity)
        return [self._model_of(each) for each in (value if self._repeated else [value]) if each is not None]

    def _prepare_for_put(self, entity: Any) -> None:
        for each in self._models(entity):
            each._prepare_for_put()

    def _missing(self, entity: Any) -> bool:
        return super()._missing(entity) or any(each._missing() for each in self._models(entity))


class StructuredProperty(_OfModel):
    """A model, stored as one property a part (`address.city`). A repeated one is stored as one list a part."""

    _validate = _OfModel._as_model

    def __init__(self, modelclass: Any, name: Optional[str] = None, **words: Any) -> None:
        self._modelclass = modelclass
        if words.get("repeated") and any(part._repeated for part in modelclass._properties.values()):
            raise TypeError(f"a repeated property can't be of {modelclass.__name__}, which has repeated ones itself")
        super().__init__(name, **words)

    def __getattr__(self, name: str) -> Any:
        if name.startswith("__") or "_modelclass" not in self.__dict__:
            raise AttributeError(name)
        part = next((each for each in self._modelclass._properties.values() if each._code_name == name), None)
        if part is None:
            TABLE.refuse(f"{type(self).__name__}.{name}")
            raise AttributeError(f"{self._modelclass.__name__} has no property {name!r}")
        return self._part(part)

    def _part(self, part: Property) -> Property:
        """A part as queries name it: `Person.address.city`."""
        named = copy.copy(part)
        named._name = named._code_name = f"{self._name}.{part._name}"
        named._indexed = self._indexed and part._indexed
        return named

    def _names(self) -> Iterator[str]:
        yield self._name
        for part in self._modelclass._properties.values():
            for name in part._names():
                yield f"{self._name}.{name}"

    def _parts(self, value: Any, indexed: bool) -> Dict[str, Any]:
        into: Dict[str, Any] = {}
        for part in value._properties.values() if value is not None else ():
            part._serialize(value, into, indexed)
        return {f"{self._name}.{name}": part for name, part in into.items()}

    def _serialize(self, entity: Any, into: Dict[str, Any], indexed: bool = True) -> None:
        value, indexed = self._get_value(entity), indexed and self._indexed
        if not self._repeated:
            if value is None:
                into[self._name] = None if indexed else values.Unindexed(None)
            into.update(self._parts(self._model_of(value), indexed))
            return
        every = [self._parts(self._model_of(each), indexed) for each in value]
        for name in dict.fromkeys(name for parts in every for name in parts):
            column = [parts.get(name) for parts in every]
            plain = [bare(each) for each in column]
            into[name] = unindexed(plain) if any(isinstance(each, values.Unindexed) for each in column) else plain

    def _deserialize(self, entity: Any, properties: Dict[str, Any]) -> None:
        start = f"{self._name}."
        parts = {name[len(start) :]: bare(value) for name, value in properties.items() if name.startswith(start)}
        shown = tuple(name[len(start) :] for name in entity._projection if name.startswith(start))
        if not self._repeated:
            if parts or self._name in properties:
                entity._values[self._name] = self._value_of(self._modelclass._loaded_from(parts, shown)) if parts else None
        elif parts or not entity._projection:
            columns = {name: value if isinstance(value, list) else [value] for name, value in parts.items()}
            every: List[Dict[str, Any]] = [{} for _ in range(max(map(len, columns.values()), default=0))]
            for name, column in columns.items():
                for each, value in zip(every, column):
                    each[name] = value
            entity._values[self._name] = [self._value_of(self._modelclass._loaded_from(each, shown)) for each in every]

    def _comparison(self, operator: str, value: Any) -> Any:
        if operator != "=":
            raise BadFilterError(f"{self._name} can be compared by == and IN alone")
        if value is None:
            return super()._comparison(operator, value)
        value = self._model_of(self._do_validate(value))
        wanted = [(part, part._get_value(value)) for part in value._properties.values()]
        filters = [self._part(part)._comparison("=", each)
                   for part, found in wanted if found is not None for each in (found if part._repeated else [found])]
        if not filters:
            raise BadFilterError(f"a {self._modelclass.__name__} without any value is compared with {self._name}")
        whole = ConjunctionNode(*filters)
        compared = [each for each in whole.branches()[0] if isinstance(each, FilterNode)]
        if self._repeated and len(compared) > 1:
            return ConjunctionNode(whole, Sieve(_one_element({each.name: each.value for each in compared})))
        return whole

    def IN(self, values: Any) -> Any:
        return DisjunctionNode(*(self._comparison("=", each) for each in values))

    _IN = IN


def _one_element(wanted: Dict[str, Any]) -> Callable[[Any], bool]:
    """Whether one element of a repeated structure has all of these values, by the names of its parts."""
    looked_for = {name: value_order(value) for name, value in wanted.items()}

    def passes(found: Any) -> bool:
        properties = without_lists(found.properties)
        columns = {name: bare(properties.get(name)) for name in looked_for}
        lists = [[value_order(each) for each in (column if isinstance(column, list) else [column])] for column in columns.values()]
        return any(each == tuple(looked_for.values()) for each in zip(*lists))

    return passes


class LocalStructuredProperty(_OfModel, BlobProperty):
    """A model, stored as one value, which no query looks into; its key is stored with `keep_keys=True` alone."""

    _validate = _OfModel._as_model

    def __init__(self, modelclass: Any, name: Optional[str] = None, compressed: bool = False, keep_keys: bool = False,
                 **words: Any) -> None:
        self._modelclass, self._keep_keys = modelclass, keep_keys
        if words.get("indexed"):
            raise NotImplementedError("a LocalStructuredProperty can't be indexed; a StructuredProperty can")
        super().__init__(name, compressed, **words)

    def _to_base_type(self, value: Any) -> Any:
        stored = {name: wire.property_out(part, "") for name, part in value._to_properties().items()}
        if self._keep_keys and value._key is not None:
            stored["__key__"] = wire.key_out(value._key.to_driver(), "")
        return json.dumps(stored, separators=(",", ":")).encode()

    def _from_base_type(self, value: Any) -> Any:
        given = json.loads(value)
        key = given.pop("__key__", None)
        made = self._modelclass._loaded_from({name: wire.value_in(part, "") for name, part in given.items()})
        if key is not None:
            made._key = from_driver(wire.key_in(key, ""))
        return made
