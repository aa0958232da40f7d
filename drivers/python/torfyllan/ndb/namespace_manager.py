"""The namespace that keys and queries have which name none: `google.appengine.api.namespace_manager`. It counts for its thread, and each
block of `ndb.use` begins with the empty one."""
import contextlib
import threading
from typing import Any, Iterator, Optional, Type

from ..rules import namespace_fault
from .datastore_errors import BadValueError
from .members import TABLE


class _Current(threading.local):
    name = ""


_current = _Current()


def get_namespace() -> str:
    """The namespace of this thread; the empty one is that of the server's client."""
    return _current.name


def set_namespace(namespace: Optional[str]) -> None:
    """Makes this the namespace of the thread; None is the empty one."""
    if namespace is not None:
        validate_namespace(namespace)
    _current.name = namespace or ""


def validate_namespace(value: Any, exception: Type[Exception] = BadValueError) -> None:
    """Raises the exception where this can be no namespace."""
    if fault := namespace_fault(value):
        raise exception(fault)


def google_apps_namespace() -> str:
    """The empty namespace: no domain of Google Apps stands behind a request."""
    return ""


@contextlib.contextmanager
def entered(namespace: str = "") -> Iterator[None]:
    """A block that begins with this namespace, after which the thread has the one that it had."""
    before = get_namespace()
    set_namespace(namespace)
    try:
        yield
    finally:
        _current.name = before


__getattr__ = TABLE.module_getattr(__name__, "namespace_manager.")
