"""Keys of ndb."""
import base64
import functools
import os
from typing import Any, Dict, Optional, Tuple, Union

from .. import values
from ..references import reference_bytes, reference_in
from . import context, namespace_manager
from .datastore_errors import BadArgumentError, BadRequestError, BadValueError
from .futures import twin
from .members import TABLE, Refusing, package_getattr
from .options import taken

Identifier = Union[int, str, None]

KINDS: Dict[str, Any] = {}
"""The model class of each kind."""


def application_id() -> str:
    """The application's id in keys as texts: that of the environment's APPLICATION_ID, or else the one of App Engine's testbed."""
    return os.environ.get("APPLICATION_ID") or "testbed-test"


class UrlSafe(str):
    """A text that can stand in a URL. `decode()` gives it too, for code that expects bytes, as of ndb in Python 3."""

    def decode(self, encoding: str = "ascii", errors: str = "strict") -> str:
        return str(self)


@functools.total_ordering
class Key(metaclass=Refusing):
    """A key: `Key("Book", "main", "Greeting", 7)`, `Key(Greeting, 7, parent=book)`, `Key(urlsafe=text)`.

    A kind is a text or a model class; an identifier is an id, a name, or in the last place None: the put then draws the
    id. `flat` and `pairs` begin at the root. The namespace is that of `namespace_manager` where none is given; the empty
    one is that of the client.
    """

    _namespace: str
    _app: Optional[str]

    def __init__(self, *path: Any, pairs: Any = None, flat: Any = None, urlsafe: Any = None, serialized: Any = None,
                 parent: "Optional[Key]" = None, namespace: Optional[str] = None, app: Optional[str] = None,
                 **words: Any) -> None:
        TABLE.refuse_words("Key", words)
        if urlsafe is not None or serialized is not None:
            app, namespace, flat = _decoded(urlsafe, serialized)
        flat = tuple(path or flat or [part for pair in pairs or () for part in pair])
        if not flat or len(flat) % 2:
            raise BadArgumentError(f"a key is a list of kinds, each with an identifier behind it: {flat!r}")
        if None in flat[:-1]:
            raise BadArgumentError("only the last identifier of a key may be None")
        self._flat = tuple(_identifier(part) if at % 2 else _kind_of(part) for at, part in enumerate(flat))
        if parent is not None:
            if not isinstance(parent, Key):
                raise BadValueError(f"the parent of a key is a Key: {parent!r}")
            if parent.id() is None:
                raise BadArgumentError(f"an incomplete key can't be a parent: {parent!r}; put its entity first")
            self._flat = parent._flat + self._flat
            if namespace is not None and namespace != parent._namespace:
                raise ValueError(f"the namespace {namespace!r} isn't that of the parent {parent!r}")
            namespace, app = parent._namespace, app or parent._app
        self._namespace = namespace_manager.get_namespace() if namespace is None else namespace
        self._app = app if app and app != application_id() else None

    def kind(self) -> str:
        return str(self._flat[-2])

    def id(self) -> Identifier:
        """The last identifier: an id, a name, or None."""
        return self._flat[-1]

    def string_id(self) -> Optional[str]:
        """The last identifier if it is a name, else None."""
        last = self.id()
        return last if isinstance(last, str) else None

    def integer_id(self) -> Optional[int]:
        """The last identifier if it is an id, else None."""
        last = self.id()
        return last if isinstance(last, int) else None

    def parent(self) -> "Optional[Key]":
        """The key without its last pair; None of a root."""
        return Key(flat=self._flat[:-2], namespace=self._namespace, app=self._app) if len(self._flat) > 2 else None

    def root(self) -> "Key":
        """The key of the first pair, which names the entity group."""
        return Key(flat=self._flat[:2], namespace=self._namespace, app=self._app)

    def pairs(self) -> Tuple[Tuple[str, Identifier], ...]:
        return tuple(zip(map(str, self._flat[::2]), self._flat[1::2]))

    def flat(self) -> Tuple[Any, ...]:
        return self._flat

    def namespace(self) -> str:
        return self._namespace

    def app(self) -> str:
        """The application's id: `application_id()`, unless the key was read from a text of another application."""
        return self._app or application_id()

    project = app

    def serialized(self) -> bytes:
        """The key as bytes, App Engine's `Reference`; `Key(serialized=content)` reads them."""
        return reference_bytes(self.app(), self._namespace, self.pairs())

    def urlsafe(self) -> UrlSafe:
        """The key as a text for URLs, as App Engine writes it; `Key(urlsafe=text)` reads it."""
        return UrlSafe(base64.urlsafe_b64encode(self.serialized()).decode("ascii").rstrip("="))

    def get(self, **options: Any) -> Any:
        """The entity, up to date (or as this context has it), or None."""
        return context.get_context().hooked("get", self, taken("Key.get", options))

    def delete(self, **options: Any) -> None:
        """Deletes the entity, if there is one."""
        context.get_context().hooked("delete", self, taken("Key.delete", options))

    get_async = twin(get)
    delete_async = twin(delete)

    def to_driver(self) -> values.Key:
        """The driver's key. One of another application is a `BadRequestError`."""
        if self._app is not None:
            raise BadRequestError(f"{application_id()} can't reach the entities of {self._app}, as {self!r}")
        return values.Key(*self._flat, namespace=self._namespace or None)

    def __getattr__(self, name: str) -> Any:
        return TABLE.object_getattr(type(self), name)

    def __eq__(self, other: object) -> bool:
        return isinstance(other, Key) and (self._flat, self._namespace, self._app) == (other._flat, other._namespace, other._app)

    def __hash__(self) -> int:
        return hash((self._flat, self._namespace))

    def __lt__(self, other: "Key") -> bool:
        if not isinstance(other, Key):
            return NotImplemented
        mine, others = (values.Key(*each._flat, namespace=each._namespace) for each in (self, other))
        return (self.app(), order_of(mine)) < (other.app(), order_of(others))

    def __repr__(self) -> str:
        words = [repr(part) for part in self._flat] + ([f"app={self._app!r}"] if self._app else [])
        words += [f"namespace={self._namespace!r}"] if self._namespace else []
        return f"Key({', '.join(words)})"


def from_driver(key: values.Key) -> Key:
    """The key of a driver's key."""
    return Key(pairs=key.path, namespace=key.namespace or "")


def order_of(key: values.Key) -> Tuple[Any, ...]:
    """What driver's keys are ordered by: at each place the kind, then ids before names."""
    parts = [(kind.encode(), isinstance(last, str), last.encode() if isinstance(last, str) else last or 0)
             for kind, last in key.path]
    return (key.namespace or "").encode(), parts


def _kind_of(kind: Any) -> str:
    kind = kind._get_kind() if isinstance(kind, type) and hasattr(kind, "_get_kind") else kind
    if not isinstance(kind, str) or not kind:
        raise TypeError(f"a kind is a text or a model class, and not {kind!r}")
    return kind


def _identifier(given: Any) -> Identifier:
    if given is not None and (isinstance(given, bool) or not isinstance(given, (int, str))):
        raise TypeError(f"an identifier is an int or a str, and not {given!r}")
    if isinstance(given, int) and not 0 < given < 2**63:
        raise BadRequestError(f"an id is from 1 to 2^63 - 1, and not {given}")
    return given


def _decoded(text: Any, content: Any) -> Tuple[str, str, Any]:
    """Application, namespace, and the kinds and identifiers, of a text of `urlsafe` or of its bytes."""
    try:
        if content is None:
            given = (text.encode("ascii") if isinstance(text, str) else bytes(text)).rstrip(b"=")
            content = base64.b64decode(given + b"=" * (-len(given) % 4), b"-_", validate=True)
        app, namespace, path = reference_in(bytes(content))
        flat = [part for pair in path for part in pair]
        Key(flat=flat, namespace=namespace)
    except (ValueError, TypeError, BadArgumentError) as error:
        raise BadRequestError(f"this is no key as App Engine writes one: {content if text is None else text!r}") from error
    return app, namespace, flat


__getattr__ = package_getattr(__name__)
