"""Properties of models: what they have in common."""
from typing import Any, Callable, Dict, Iterable, Iterator, Optional, Tuple

from .. import values
from ..facade import bare, loaded, stored
from .datastore_errors import BadArgumentError, BadFilterError, BadValueError, NotStoredError
from .datastore_errors import ReadonlyPropertyError, UnprojectedPropertyError
from .key import from_driver
from .members import TABLE
from .nodes import FilterNode, Order


def _comparing(operator: str) -> Callable[[Any, Any], Any]:
    return lambda prop, value: prop._comparison(operator, value)


class Property:
    """A property of a model. The classes below it are used; a class of one's own may define `_validate(value)`,
    `_to_base_type(value)` and `_from_base_type(value)`, which stack: each sees what the class below it made.
    """

    _indexed: bool = True
    _takes: str = "a value"
    _types: Tuple[type, ...] = (object,)

    def __init__(self, name: Optional[str] = None, indexed: Optional[bool] = None, repeated: bool = False,
                 required: bool = False, default: Any = None, choices: Optional[Iterable[Any]] = None,
                 validator: Optional[Callable[..., Any]] = None, verbose_name: Optional[str] = None,
                 write_empty_list: Optional[bool] = None) -> None:
        if name is not None and (not isinstance(name, str) or "." in name):
            raise TypeError(f"the name of a property is a text without a point: {name!r}")
        if repeated and (required or default is not None):
            raise ValueError("a repeated property can't be required and has no default")
        self._name = self._code_name = name or ""
        self._indexed = self._indexed if indexed is None else indexed
        self._repeated, self._required = repeated, required
        self._choices = None if choices is None else frozenset(choices)
        self._validator, self._verbose_name = validator, verbose_name
        self._default = None if default is None else self._do_validate(default)

    def _fix_up(self, model: Any, code_name: str) -> None:
        self._code_name = code_name
        self._name = self._name or code_name

    def _validate(self, value: Any) -> Any:
        """Checks the type; a class of one's own may check more, and give another value."""
        if not isinstance(value, self._types):
            raise self._expected(self._takes, value)

    def _converted(self, value: Any, names: Tuple[str, ...], until: str = "", downwards: bool = False) -> Any:
        for kind in reversed(type(self).__mro__) if downwards else type(self).__mro__:
            for name in names:
                if name in kind.__dict__:
                    coerced = kind.__dict__[name](self, value)
                    value = value if coerced is None else coerced
            if until in kind.__dict__:
                break
        return value

    def _do_validate(self, value: Any) -> Any:
        """A value as an application sets it, checked, and coerced where the property does so."""
        value = self._converted(value, ("_validate",), "_to_base_type")
        if self._validator is not None:
            coerced = self._validator(self, value)
            value = value if coerced is None else coerced
        if self._choices is not None and value not in self._choices:
            raise BadValueError(f"{self._code_name} is one of {sorted(map(repr, self._choices))}, and not {value!r}")
        return value

    def _out(self, value: Any) -> Any:
        """The driver's value of a base value."""
        if isinstance(value, (str, bytes)) and not self._indexed:
            return values.Text(value) if isinstance(value, str) else values.Blob(value)
        return stored(value)

    def _in(self, value: Any) -> Any:
        """The base value of a driver's value."""
        return loaded(value, from_driver)

    def _stored(self, value: Any) -> Any:
        try:
            return None if value is None else self._out(self._converted(value, ("_validate", "_to_base_type")))
        except TypeError as error:
            raise NotStoredError(f"{self._code_name}: {error}") from error
        except ValueError as error:
            raise BadValueError(f"{self._code_name}: {error}") from error

    def _loaded(self, value: Any) -> Any:
        return None if value is None else self._converted(self._in(value), ("_from_base_type",), downwards=True)

    def _expected(self, what: str, value: Any) -> BadValueError:
        return BadValueError(f"{self._code_name or type(self).__name__} takes {what}, and not {value!r}")

    def _get_value(self, entity: Any) -> Any:
        if not entity._shows(self._name):
            raise UnprojectedPropertyError(f"{self._code_name} is not among the projected {entity._projection}")
        if self._repeated:
            return entity._values.setdefault(self._name, [])
        return entity._values.get(self._name, self._default)

    def _has_value(self, entity: Any, rest: Any = None) -> bool:
        """Whether the entity has a value of this property that was set or read, which may be None."""
        return self._name in entity._values

    def _retrieve_value(self, entity: Any, default: Any = None) -> Any:
        """The value that the entity has, without a check."""
        return entity._values.get(self._name, default)

    def _store_value(self, entity: Any, value: Any) -> None:
        """Sets the value, without a check."""
        entity._values[self._name] = value

    def _delete_value(self, entity: Any) -> None:
        """Forgets the value; the default is then read."""
        entity._values.pop(self._name, None)

    def _is_initialized(self, entity: Any) -> bool:
        """Whether the entity may be put, as far as this property goes."""
        return not self._missing(entity)

    def _set_value(self, entity: Any, value: Any) -> None:
        if entity._projection:
            raise ReadonlyPropertyError(f"{self._code_name} can't be set: the entity is the result of a projection")
        if self._repeated:
            if not isinstance(value, (list, tuple, set, frozenset)):
                raise self._expected("a list", value)
            value = [self._do_validate(each) for each in value]
        elif value is not None:
            value = self._do_validate(value)
        entity._values[self._name] = value

    def _prepare_for_put(self, entity: Any) -> None:
        """What happens before a put, as setting the time."""

    def _missing(self, entity: Any) -> bool:
        return self._required and self._get_value(entity) is None

    def _serialize(self, entity: Any, into: Dict[str, Any], indexed: bool = True) -> None:
        """Puts the driver's values of this property of an entity."""
        value = self._get_value(entity)
        given = [self._stored(each) for each in value] if self._repeated else self._stored(value)
        into[self._name] = given if self._indexed and indexed else unindexed(given)

    def _deserialize(self, entity: Any, properties: Dict[str, Any]) -> None:
        """Takes this property of an entity from the driver's values."""
        if self._name in properties:
            value = bare(properties[self._name])
            many = [self._loaded(each) for each in (value if isinstance(value, list) else [value])]
            entity._values[self._name] = many if self._repeated else many[-1] if many else None

    def _names(self) -> Iterator[str]:
        """The names under which this property is stored."""
        yield self._name

    def __get__(self, entity: Any, owner: Any = None) -> Any:
        return self if entity is None else self._get_value(entity)

    def __set__(self, entity: Any, value: Any) -> None:
        self._set_value(entity, value)

    def __delete__(self, entity: Any) -> None:
        self._delete_value(entity)

    def __getattr__(self, name: str) -> Any:
        return TABLE.object_getattr(type(self), name)

    def _comparable(self, value: Any) -> Any:
        if not self._indexed:
            raise BadFilterError(f"{self._name} isn't indexed, so no query can filter by it")
        return None if value is None else self._stored(self._do_validate(value))

    def _comparison(self, operator: str, value: Any) -> Any:
        return FilterNode(self._name, operator, self._comparable(value))

    __eq__, __ne__, __lt__, __le__, __gt__, __ge__ = map(_comparing, ("=", "!=", "<", "<=", ">", ">="))
    __hash__ = object.__hash__

    def IN(self, values: Any) -> FilterNode:
        """A filter: the property has one of these values."""
        if not isinstance(values, (list, tuple, set, frozenset)):
            raise BadArgumentError(f"IN takes a list, and not {values!r}")
        return FilterNode(self._name, "in", [self._comparable(each) for each in values])

    _IN = IN

    def __neg__(self) -> Order:
        return Order(self._name, True)

    def __pos__(self) -> Order:
        return Order(self._name)


def unindexed(given: Any) -> Any:
    """A driver's value, or list of them, marked as not indexed where its type doesn't say so already."""
    every = given if isinstance(given, list) else [given]
    return given if all(isinstance(each, (values.Text, values.Blob)) for each in every) else values.Unindexed(given)
