"""What `google.cloud.ndb` has beside the names of App Engine: a client whose context is a request; and requests of a WSGI application."""
import contextlib
from typing import Any, Callable, Iterable, Iterator, List, Optional

from ..facade import spare_client
from . import context as contexts
from . import namespace_manager
from .context import Context
from .members import TABLE


class Client:
    """A client: each block of `with ndb.Client().context():` is a request, with a cache of its own.

    It speaks with the client of a server that it is given, or else with that of the block of `ndb.use` that is open, in this thread or,
    where none is, in another one. `project`, `credentials` and the like have no effect; `namespace` is that of keys and queries which name none.
    """

    def __init__(self, project: Any = None, namespace: Optional[str] = None, credentials: Any = None, **words: Any) -> None:
        TABLE.refuse_words("Client", words)
        self._given = project if hasattr(project, "begin") else None
        self.project = "torfyllan" if project is None or self._given is not None else project
        self.namespace = namespace

    @contextlib.contextmanager
    def context(self, namespace: Optional[str] = None, cache_policy: Any = None, **words: Any) -> Iterator[Context]:
        """A block that is a request."""
        TABLE.refuse_words("Client.context", words)
        space = self.namespace if namespace is None else namespace
        with _connected(self._given) as connection, contexts.use(connection) as context:
            context.set_cache_policy(cache_policy)
            with namespace_manager.entered(space or ""):
                yield context

    def __getattr__(self, name: str) -> Any:
        return TABLE.object_getattr(type(self), name)


@contextlib.contextmanager
def _connected(given: Any) -> Iterator[Any]:
    """A client of a server for a request: that of this thread's block, unless its transaction is open; else one that nobody uses."""
    here = contexts._contexts.last
    if given is not None:
        yield given
    elif here is not None and not here.in_transaction():
        yield here.client
    else:
        other = here.client if here is not None else contexts.client_of_any_thread()
        if other is None:
            raise RuntimeError("ndb has no server here: open a context in `with ndb.use(server.client()):`, or make the client by"
                               " ndb.Client(server.client())")
        with spare_client(other) as connection:
            yield connection


def wsgi_middleware(application: Callable[..., Iterable[bytes]], client: Any = None) -> Callable[..., List[bytes]]:
    """A WSGI application in which each request is one of ndb: it has a cache, and a client of the server that no other request has.

    `client` is a client of a server; where it isn't given, that of the block of `ndb.use` which is open, in any thread, at each request. The
    body is read whole before the request ends.
    """

    def called(environ: Any, start_response: Any) -> List[bytes]:
        other = client if client is not None else contexts.client_of_any_thread()
        if other is None:
            raise RuntimeError("ndb has no server here: serve in `with ndb.use(server.client()):`, or give wsgi_middleware a client")
        with spare_client(other) as connection, contexts.use(connection):
            body = application(environ, start_response)
            try:
                return list(body)
            finally:
                getattr(body, "close", lambda: None)()

    return called
