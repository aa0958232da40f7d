"""Models: classes whose entities the Datastore keeps."""
from typing import Any, Callable, Dict, Iterable, List, Optional, Tuple, Type, TypeVar

from .. import values
from ..facade import bare, with_lists, without_lists
from .context import get_context
from .datastore_errors import BadArgumentError, BadRequestError, BadValueError, KindError, asked
from .futures import Future, ran, twin
from .gql import GqlQuery, gql
from .key import KINDS, Key
from .kinds import GenericProperty
from .members import Refusing, package_getattr
from .options import ContextOptions, taken
from .properties import Property
from .query import Query
from .transactions import transaction

M = TypeVar("M", bound="Model")


class ModelKey(Property):
    """The key of an entity, `entity.key`, and in queries `Model.key`."""

    def __init__(self) -> None:
        super().__init__("__key__")

    def _get_value(self, entity: Any) -> Any:
        return entity._entity_key

    def _set_value(self, entity: Any, value: Any) -> None:
        if value is not None and not isinstance(value, Key):
            raise BadValueError(f"the key of an entity is a Key, and not {value!r}")
        if value is not None and value.kind() != entity._get_kind():
            raise KindError(f"a {entity._get_kind()} has a key of its kind, and not {value!r}")
        entity._entity_key = value

    def _delete_value(self, entity: Any) -> None:
        entity._entity_key = None

    def _comparable(self, value: Any) -> Any:
        if not isinstance(value, Key):
            raise BadValueError(f"a key is compared with a Key, and not with {value!r}")
        return value.to_driver()


class MetaModel(Refusing):
    """The class of model classes, for an application that derives one of its own from it."""

    def __init__(cls, name: str, bases: Any, classdict: Any, **words: Any) -> None:
        super().__init__(name, bases, classdict, **words)


class Model(metaclass=MetaModel):
    """A class of entities: `class Greeting(ndb.Model): content = ndb.TextProperty()`.

    `Greeting(content="Hello", parent=book)` makes one; `key`, `id`, `parent` and `namespace` say which key it has. The
    class's name is the kind, unless `_get_kind` gives another.
    """

    _properties: Dict[str, Any] = {}
    _kind_map = KINDS
    _projection: Tuple[str, ...] = ()
    _entity_key: Optional[Key] = None
    _use_cache: Optional[bool] = None
    key: Any = ModelKey()
    _key: Any = key

    def __init__(self, **words: Any) -> None:
        self._values: Dict[str, Any] = {}
        key, id_, parent, namespace = (self._taken(words, name) for name in ("key", "id", "parent", "namespace"))
        app, projection = self._taken(words, "app"), self._taken(words, "projection")
        if key is not None and (id_ is not None or parent is not None or namespace is not None):
            raise BadArgumentError("an entity is made with a key, or with id, parent and namespace")
        if key is not None:
            self._key = key
        elif id_ is not None or parent is not None or namespace is not None:
            self._key = Key(self._get_kind(), id_, parent=parent, namespace=namespace, app=app)
        self.populate(**words)
        self._projection = tuple(projection or ())

    @classmethod
    def _taken(cls, words: Dict[str, Any], name: str) -> Any:
        """The value of a word that isn't a property; with `_` before it where a property has its name."""
        if f"_{name}" in words:
            return words.pop(f"_{name}")
        own = getattr(cls, name, None)
        return words.pop(name, None) if name == "key" or not isinstance(own, Property) else None

    def __init_subclass__(cls) -> None:
        cls._fix_up_properties()

    @classmethod
    def _fix_up_properties(cls) -> None:
        cls._properties = {}
        for base in reversed(cls.__mro__):
            for name, prop in list(vars(base).items()):
                if isinstance(prop, Property) and not isinstance(prop, ModelKey) and getattr(cls, name) is prop:
                    if name.startswith("_"):
                        raise TypeError(f"{cls.__name__}.{name}: the name of a property doesn't begin with _")
                    prop._fix_up(cls, name)
                    cls._properties[prop._name] = prop
        if cls.__module__ != __name__:
            KINDS[cls._get_kind()] = cls

    @classmethod
    def _get_kind(cls) -> str:
        """The kind: the name of the class, unless a class says otherwise."""
        return cls.__name__

    @classmethod
    def _lookup_model(cls, kind: str, default_model: Any = None) -> Any:
        """The class of a kind, or the default one."""
        if kind not in KINDS and default_model is None:
            raise KindError(f"no model class of kind {kind!r} was made; import the module that has it")
        return KINDS.get(kind, default_model)

    @classmethod
    def _default_filters(cls) -> Tuple[Any, ...]:
        """Filters that each query of this class has."""
        return ()

    # -- hooks, for classes to define: before and after an operation; those after it are given its future

    def _pre_put_hook(self) -> None: ...
    def _post_put_hook(self, future: "Future[Key]") -> None: ...
    _pre_get_hook = _pre_delete_hook = classmethod(lambda cls, key: None)
    _post_get_hook = _post_delete_hook = classmethod(lambda cls, key, future: None)
    _pre_allocate_ids_hook = classmethod(lambda cls, size, max, parent: None)
    _post_allocate_ids_hook = classmethod(lambda cls, size, max, parent, future: None)

    def populate(self, **words: Any) -> None:
        """Sets properties by name."""
        for name, value in words.items():
            prop = getattr(type(self), name)  # An AttributeError where there is none, as in App Engine.
            if not isinstance(prop, Property):
                raise TypeError(f"{name!r} is no property of {type(self).__name__}")
            prop._set_value(self, value)

    def to_dict(self, include: Optional[Iterable[str]] = None, exclude: Iterable[str] = ()) -> Dict[str, Any]:
        """The values by the names of the properties, structured ones as dicts; `include` and `exclude` choose."""
        if isinstance(include, str) or isinstance(exclude, str):
            raise TypeError("include and exclude are lists of names")

        def plain(value: Any) -> Any:
            value = [plain(each) for each in value] if isinstance(value, list) else value
            return value.to_dict() if isinstance(value, Model) else value

        chosen = {prop._code_name: prop for prop in self._properties.values() if self._shows(prop._name)}
        return {name: plain(prop._get_value(self)) for name, prop in chosen.items()
                if (include is None or name in include) and name not in (exclude or ())}

    def _shows(self, name: str) -> bool:
        """Whether the entity has this property: the result of a projection has only the projected ones."""
        return not self._projection or any(each == name or each.startswith(f"{name}.") for each in self._projection)

    def __eq__(self, other: object) -> bool:
        if not isinstance(other, Model) or type(self) is not type(other):
            return False
        if (self._key, self._projection) != (other._key, other._projection):
            return False
        return self._properties.keys() == other._properties.keys() and all(
            prop._get_value(self) == other._properties[name]._get_value(other)
            for name, prop in self._properties.items() if self._shows(name))

    __hash__ = None  # type: ignore[assignment]

    def __repr__(self) -> str:
        words = [f"key={self._key!r}"] if self._key is not None else []
        for prop in self._properties.values():
            if prop._name in self._values or (not self._projection and prop._get_value(self) not in (None, [])):
                words.append(f"{prop._code_name}={prop._get_value(self)!r}")
        return f"{type(self).__name__}({', '.join(words)})"

    def _prepare_for_put(self) -> None:
        for prop in self._properties.values():
            prop._prepare_for_put(self)

    def _missing(self) -> List[str]:
        return [prop._code_name for prop in self._properties.values() if prop._missing(self)]

    def _to_properties(self) -> Dict[str, Any]:
        if missing := self._missing():
            raise BadValueError(f"a required {type(self).__name__} property has no value: {', '.join(sorted(missing))}")
        into: Dict[str, Any] = {}
        for prop in self._properties.values():
            prop._serialize(self, into)
        own = {name: into[name] for name in into if name in self._properties and name not in type(self)._properties}
        return {**into, **with_lists(own)}

    @classmethod
    def _loaded_from(cls: Type[M], properties: Dict[str, Any], projection: Tuple[str, ...] = ()) -> M:
        """An entity of these values of the driver. What the class doesn't know is kept, and put with it again."""
        entity = cls.__new__(cls)
        entity._values, entity._projection = {}, projection
        properties = without_lists(properties)
        known = set()
        for prop in cls._properties.values():
            prop._deserialize(entity, properties)
            known.update(prop._names())
        unknown = [name for name in properties if name not in known]
        if unknown:
            entity._properties = dict(cls._properties)
        for name in unknown:
            value = properties[name]
            indexed = not isinstance(value, (values.Unindexed, values.Text, values.Blob))
            prop = GenericProperty(indexed=indexed, repeated=isinstance(bare(value), list))
            prop._name = prop._code_name = name
            entity._properties[name] = prop
            prop._deserialize(entity, properties)
        return entity

    def _ready(self) -> None:
        if self._projection:
            raise BadRequestError("the result of a projection is a part of an entity, and can't be put")
        self._prepare_for_put()
        if self._key is None:
            self._key = Key(self._get_kind(), None)
        self._pre_put_hook()

    def put(self, **options: Any) -> Key:
        """Writes the entity, and gives its key."""
        given = taken("Model.put", options)
        self._ready()
        return get_context().write(self, given)

    put_async = twin(put)

    def has_complete_key(self) -> bool:
        """Whether the entity has a key with an identifier."""
        return self._key is not None and self._key.id() is not None

    _has_complete_key = has_complete_key

    @classmethod
    def get_by_id(cls, id: Any, parent: Optional[Key] = None, namespace: Optional[str] = None, app: Optional[str] = None,
                  **options: Any) -> Any:
        """The entity of this kind and identifier, or None."""
        given = taken("Model.get_by_id", options)
        key = Key(cls._get_kind(), id, parent=parent, namespace=namespace, app=app)
        return get_context().hooked("get", key, given)

    @classmethod
    def get_or_insert(cls, name: str, /, parent: Optional[Key] = None, namespace: Optional[str] = None,
                      app: Optional[str] = None, context_options: Any = None, **words: Any) -> Any:
        """The entity of this name; if there is none, one is put, in a transaction, with the values that are given."""
        if not isinstance(name, str) or not name:
            raise TypeError(f"get_or_insert takes a name, and not {name!r}")
        given = {each: words.pop(each) for each in ContextOptions._names if each in words and each not in cls._properties}
        options = taken("Model.get_or_insert", {**given, "context_options": context_options})
        key = Key(cls._get_kind(), name, parent=parent, namespace=namespace, app=app)

        def work() -> Any:
            entity = get_context().hooked("get", key, options)
            if entity is None:
                entity = cls(key=key, **words)
                entity._ready()
                get_context().write(entity, options)
            return entity

        if get_context().in_transaction():
            return work()
        found = get_context().hooked("get", key, options)
        return transaction(work) if found is None else found

    @classmethod
    def allocate_ids(cls, size: Optional[int] = None, max: Optional[int] = None, parent: Optional[Key] = None,
                     **options: Any) -> Tuple[int, int]:
        """Draws ids that no put draws: the first and the last of `size` of them."""
        taken("Model.allocate_ids", {**options, "max": max})
        if size is None:
            raise BadArgumentError("allocate_ids takes a size")
        cls._pre_allocate_ids_hook(size, max, parent)
        drawn: "Future[Any]" = ran(asked, get_context().client.allocate_ids, size)
        cls._post_allocate_ids_hook(size, max, parent, drawn)
        first = drawn.get_result().first
        return first, first + size - 1

    @classmethod
    def query(cls, *filters: Any, **words: Any) -> Query:
        """A query of this kind; `Query` tells its words. `distinct=True` gives each row of the projection once."""
        if words.pop("distinct", False):
            if not words.get("projection") or words.get("group_by"):
                raise TypeError("distinct=True stands beside projection=, and not beside group_by=")
            words["group_by"] = words["projection"]
        return Query(kind=cls._get_kind(), **words).filter(*cls._default_filters(), *filters)

    @classmethod
    def gql(cls, text: str, *args: Any, **words: Any) -> GqlQuery:
        """A query of this kind by the rest of a GQL statement: `Greeting.gql("WHERE author = :1", name)`."""
        return gql(f"SELECT * FROM {cls._get_kind()} {text}", *args, **words)

    _put, _put_async, _populate, _to_dict = put, put_async, populate, to_dict
    _get_by_id, _get_or_insert, _allocate_ids, _query, _gql = get_by_id, get_or_insert, allocate_ids, query, gql
    get_by_id_async = classmethod(twin(get_by_id.__func__))  # type: ignore[attr-defined]
    get_or_insert_async = classmethod(twin(get_or_insert.__func__))  # type: ignore[attr-defined]
    allocate_ids_async = classmethod(twin(allocate_ids.__func__))  # type: ignore[attr-defined]


class Expando(Model):
    """A model whose entities may have properties beyond the class's: `entity.name = value`, `del entity.name`."""

    _default_indexed = True

    def populate(self, **words: Any) -> None:
        for name, value in words.items():
            setattr(self, name, value)

    def _own(self) -> Dict[str, Any]:
        if "_properties" not in self.__dict__:
            self._properties = dict(type(self)._properties)
        return self._properties

    def __getattr__(self, name: str) -> Any:
        prop = None if name.startswith("_") else self._properties.get(name)
        if prop is None:
            raise AttributeError(f"this {type(self).__name__} has no property {name!r}")
        return prop._get_value(self)

    def __setattr__(self, name: str, value: Any) -> None:
        if name.startswith("_") or hasattr(type(self), name):
            super().__setattr__(name, value)
            return
        made = GenericProperty(name, indexed=self._default_indexed, repeated=isinstance(value, list))
        self._own()[name] = made
        made._set_value(self, value)

    def __delattr__(self, name: str) -> None:
        if name.startswith("_") or hasattr(type(self), name):
            super().__delattr__(name)
        elif name not in self._properties:
            raise AttributeError(f"this {type(self).__name__} has no property {name!r}")
        else:
            del self._own()[name]
            self._values.pop(name, None)


def put_multi(entities: Iterable[Any], **options: Any) -> List[Key]:
    """Writes entities, each as `put` does, and gives their keys. All are checked before the first is sent."""
    context, given, every = get_context(), taken("put_multi", options), list(entities)
    for entity in every:
        entity._ready()
    ready = [entity._to_properties() for entity in every]
    return [context.write(entity, given, properties) for entity, properties in zip(every, ready)]


def _each(call: str, name: str, told: str) -> Callable[..., List[Any]]:
    def several(these: Iterable[Any], **options: Any) -> List[Any]:
        given = taken(call, options)
        return [getattr(each, name)(**given) for each in these]

    several.__doc__, several.__name__ = told, call
    return several


get_multi = _each("get_multi", "get", "The entities of keys, each of which may be None.")
delete_multi = _each("delete_multi", "delete", "Deletes the entities of keys.")
put_multi_async = _each("put_multi_async", "put_async", "As `put_multi`; a future for each.")
get_multi_async = _each("get_multi_async", "get_async", "As `get_multi`; a future for each.")
delete_multi_async = _each("delete_multi_async", "delete_async", "As `delete_multi`; a future for each.")


__getattr__ = package_getattr(__name__)
