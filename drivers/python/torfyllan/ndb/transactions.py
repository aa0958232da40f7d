"""Transactions: run again after a conflict, joined by what runs inside, or left by it."""
import functools
from typing import Any, Callable, Optional

from ..facade import end_transaction, spare_client
from .context import Context, entered, get_context
from .datastore_errors import BadArgumentError, BadRequestError, Rollback, TransactionFailedError, asked
from .futures import Future, twin
from .options import TransactionOptions, taken
from .tasklets import tasklet

_NESTED, _MANDATORY, _ALLOWED, _INDEPENDENT = 1, 2, 3, 4


def in_transaction() -> bool:
    """Whether a transaction is open in this context."""
    return get_context().in_transaction()


def transaction(callback: Callable[[], Any], **options: Any) -> Any:
    """Gives what `callback()` gives, run in a transaction; after a conflict it is run again, at most `retries` times (3).

    `xg=True` allows several entity groups, at most 25. `propagation` says what an open transaction means: an error (as
    where it isn't given), that it is joined (as by `join=True`), or that another one is made beside it. `ndb.Rollback` raised in the callback
    ends the transaction without an error; any other exception rolls it back and goes on. `TransactionFailedError` after
    the last try. A transaction that only read one entity group is rolled back at its end, which never fails.
    """
    return _run(callback, taken("transaction", options), _NESTED)


transaction_async = twin(transaction)


def _run(callback: Callable[[], Any], options: "dict[str, Any]", default: int) -> Any:
    context, propagation = get_context(), options.get("propagation", _ALLOWED if options.get("join") else default)
    retries = options.get("retries", 3)
    if propagation not in (_NESTED, _MANDATORY, _ALLOWED, _INDEPENDENT):
        raise BadArgumentError(f"propagation is one of those that TransactionOptions has, and not {propagation!r}")
    if isinstance(retries, bool) or not isinstance(retries, int):
        raise BadArgumentError(f"retries is a number of further tries, and not {retries!r}")
    if not context.in_transaction():
        if propagation == _MANDATORY:
            raise BadRequestError("Requires an existing transaction.")
        return _tried(callback, context, bool(options.get("xg")), retries)
    if propagation == _NESTED:
        raise BadRequestError("Nested transactions are not supported; @ndb.transactional joins the open one")
    if propagation == _INDEPENDENT:
        return _beside(context, lambda outer: _tried(callback, outer, bool(options.get("xg")), retries))
    return _outcome(callback())


def _outcome(result: Any) -> Any:
    return result.get_result() if isinstance(result, Future) else result


def _tried(callback: Callable[[], Any], context: Context, xg: bool, retries: int) -> Any:
    client = context.client
    for left in reversed(range(max(0, retries) + 1)):
        asked(client.begin, xg=xg)
        inner = Context(client, context)
        try:
            with entered(inner):
                result = _outcome(callback())
        except BaseException as error:
            if client.in_transaction and client.server.is_alive:
                client.rollback()
            if isinstance(error, Rollback):
                return None
            raise
        try:
            asked(end_transaction, client)
        except TransactionFailedError:
            if left:
                continue
            raise
        context._cache.update(inner._cache)
        for call in inner._on_commit:
            call()
        return result


def _beside(context: Context, work: Callable[[Context], Any]) -> Any:
    """Runs work outside of the open transaction, with a client of its own."""
    assert context.outside is not None
    with spare_client(context.client) as client:
        outer = Context(client)
        outer._cache, outer._policies = context.outside._cache, context._policies
        with entered(outer):
            return work(outer)


def transactional(function: Any = None, **options: Any) -> Any:
    """A decorator, plain or with options of `transaction`: the function runs in one, and joins one that is open."""
    if function is None:
        return functools.partial(transactional, **options)
    given = taken("transactional", options)

    @functools.wraps(function)
    def called(*args: Any, **words: Any) -> Any:
        return _run(functools.partial(function, *args, **words), given, _ALLOWED)

    return called


def transactional_async(function: Any = None, **options: Any) -> Any:
    """As `transactional`; the function gives a future."""
    if function is None:
        return functools.partial(transactional_async, **options)
    return twin(transactional(function, **taken("transactional_async", options)))


def transactional_tasklet(function: Any = None, **options: Any) -> Any:
    """As `transactional_async`, of a tasklet."""
    if function is None:
        return functools.partial(transactional_tasklet, **options)
    return twin(transactional(tasklet(function), **taken("transactional_tasklet", options)))


def non_transactional(function: Any = None, allow_existing: Optional[bool] = True) -> Any:
    """A decorator: the function runs outside of the open transaction, with a client of its own.

    With `allow_existing=False` it is a `BadRequestError` to call it in a transaction.
    """
    if function is None:
        return functools.partial(non_transactional, allow_existing=allow_existing)

    @functools.wraps(function)
    def called(*args: Any, **words: Any) -> Any:
        context = get_context()
        if context.outside is None:
            return function(*args, **words)
        if not allow_existing:
            raise BadRequestError(f"{function.__name__} can't be called in a transaction")
        return _beside(context, lambda outer: function(*args, **words))

    return called


__all__ = [
    "in_transaction", "non_transactional", "transaction", "transaction_async", "transactional", "transactional_async",
    "transactional_tasklet", "TransactionOptions",
]
