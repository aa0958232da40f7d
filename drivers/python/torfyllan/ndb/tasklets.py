"""Tasklets: generators that yield futures and are sent their results. One runs when it is called, as far as what it waits for is done."""
import functools
import types
from typing import Any, Callable, Optional

from . import context
from .context import Context, get_context
from .futures import Future, MultiFuture, QueueFuture, ReducingFuture, SerialQueueFuture, result_of
from .members import TABLE

__all__ = [
    "add_flow_exception", "Future", "get_context", "get_return_value", "make_context", "make_default_context",
    "MultiFuture", "QueueFuture", "ReducingFuture", "Return", "SerialQueueFuture", "set_context", "sleep",
    "synctasklet", "tasklet", "toplevel",
]


class Return(Exception):
    """Raised in a tasklet, with its result: `raise ndb.Return(value)`. `return value` does the same."""


def get_return_value(error: BaseException) -> Any:
    """The result that a `Return` has: None, a value, or a tuple of several."""
    return error.args if len(error.args) > 1 else error.args[0] if error.args else None


def tasklet(function: Callable[..., Any]) -> Callable[..., "Future[Any]"]:
    """A decorator: the function gives a future. Where it is a generator, it is sent the result of each future that it yields,
    or of a list of futures the list of their results."""

    @functools.wraps(function)
    def called(*args: Any, **words: Any) -> "Future[Any]":
        try:
            result = function(*args, **words)
        except Return as returned:
            return result_of(get_return_value(returned))
        if not isinstance(result, types.GeneratorType):
            return result_of(result)
        name = getattr(function, "__name__", repr(function))
        future: "Future[Any]" = Future(f"tasklet {name}")
        _advance(result, future, name, None)
        return future

    return called


def _advance(steps: Any, future: "Future[Any]", name: str, waited: "Optional[Future[Any]]") -> None:
    """Runs a generator until it ends, or waits for what isn't done."""
    while True:
        try:
            if waited is None:
                given = next(steps)
            elif waited._exception is not None:
                given = steps.throw(waited._exception)
            else:
                given = steps.send(waited._result)
        except (StopIteration, Return) as ended:
            future.set_result(ended.value if isinstance(ended, StopIteration) else get_return_value(ended))
            return
        except Exception as error:
            future.set_exception(error)
            return
        try:
            waited = _awaited(given, name)
        except Exception as error:
            steps.close()
            future.set_exception(error)
            return
        if not waited.done():
            waited.add_callback(_advance, steps, future, name, waited)
            return


def _awaited(given: Any, name: str) -> "Future[Any]":
    """The future that a tasklet waits for."""
    if isinstance(given, Future):
        return given
    if isinstance(given, (list, tuple)):
        several = MultiFuture()
        for each in given:
            several.add_dependent(each)
        several.complete()
        return several
    raise RuntimeError(f"A tasklet should not yield a plain value: {name} yielded {given!r:.200}")


def synctasklet(function: Callable[..., Any]) -> Callable[..., Any]:
    """A decorator as `tasklet`; the function gives the result and no future."""
    made = tasklet(function)

    @functools.wraps(function)
    def called(*args: Any, **words: Any) -> Any:
        return made(*args, **words).get_result()

    return called


def toplevel(function: Callable[..., Any]) -> Callable[..., Any]:
    """A decorator as `synctasklet`; the function runs in a context of its own, with an empty cache."""
    made = synctasklet(function)

    @functools.wraps(function)
    def called(*args: Any, **words: Any) -> Any:
        with context.entered(make_default_context()):
            return made(*args, **words)

    return called


def make_default_context() -> Context:
    """A context with an empty cache, over the client that this thread has."""
    return Context(get_context().client)


def make_context(conn: Any = None, config: Any = None) -> Context:
    """A context with an empty cache, over the client that this thread has."""
    TABLE.refuse_words("make_context", {"conn": conn, "config": config})
    return make_default_context()


def set_context(new: Optional[Context]) -> None:
    """Makes this the context of the thread, in place of the one that it has; None makes a new one."""
    context.replace(new if new is not None else make_default_context())


def sleep(dt: float) -> "Future[None]":
    """A future that is done; nothing waits, since nothing else runs meanwhile."""
    return result_of(None)


def add_flow_exception(exc: Any) -> None:
    """Nothing: no exception of a tasklet is logged."""


__getattr__ = TABLE.module_getattr(__name__, "tasklets.")
