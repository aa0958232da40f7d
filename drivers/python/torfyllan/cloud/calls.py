"""Calls of the server: outside of transactions, and with what an application gives as `retry=`."""
import contextlib
import threading
from typing import Any, Callable, Iterator

from ..facade import spare_client
from .exceptions import asked

turn = threading.RLock()
"""Held while it is settled which client of the server a call speaks with, and until that call is answered."""


def ask(retry: Any, work: Callable[..., Any], *args: Any, **words: Any) -> Any:
    """Calls the driver; a refusal is raised as Google's exception. `retry` is a decorator, as `google.api_core.retry.Retry`, or no function."""

    def called() -> Any:
        return asked(work, *args, **words)

    return retry(called)() if callable(retry) else called()


@contextlib.contextmanager
def outside(connection: Any) -> Iterator[Any]:
    """The connection, or where it has an open transaction another client of the same server and namespace."""
    with turn:
        if not connection.in_transaction:
            yield connection
            return
        with spare_client(connection) as other:
            yield other
