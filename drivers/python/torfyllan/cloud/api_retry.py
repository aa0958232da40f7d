"""The names of `google.api_core.retry`, for where that package can't be imported."""
import functools
import random
import time
from typing import Any, Callable, Dict, Iterable, Iterator, List, Optional, Tuple, Type

from . import exceptions
from .members import API_CORE

__all__ = [
    "build_retry_error", "exponential_sleep_generator", "if_exception_type", "if_transient_error", "Retry",
    "retry_target",
]

Predicate = Callable[[Exception], bool]
OnError = Optional[Callable[[Exception], Any]]


def if_exception_type(*exception_types: Type[BaseException]) -> Predicate:
    """A predicate that holds of exceptions of these classes."""

    def holds(error: Exception) -> bool:
        return isinstance(error, exception_types)

    return holds


if_transient_error = if_exception_type(
    exceptions.InternalServerError, exceptions.TooManyRequests, exceptions.ServiceUnavailable,
)
"""Whether an exception tells of what may be over by the next try."""


def exponential_sleep_generator(initial: float, maximum: float, multiplier: float = 2.0) -> Iterator[float]:
    """Seconds to wait, each drawn from 0 to a bound that grows by the multiplier up to the maximum."""
    bound = min(initial, maximum)
    while True:
        yield random.uniform(0.0, bound)
        bound = min(bound * multiplier, maximum)


def build_retry_error(exc_list: List[Exception], reason: Any = None, timeout_val: Optional[float] = None,
                      **words: Any) -> Tuple[Exception, Optional[Exception]]:
    """The exception of a call whose time is over, and its cause."""
    last = exc_list[-1] if exc_list else None
    return exceptions.RetryError(f"Timeout of {timeout_val:.1f}s exceeded" if timeout_val is not None else "", last), last


def retry_target(target: Callable[[], Any], predicate: Predicate, sleep_generator: Iterable[float],
                 timeout: Optional[float] = None, on_error: OnError = None,
                 exception_factory: Callable[..., Tuple[Exception, Optional[Exception]]] = build_retry_error,
                 **words: Any) -> Any:
    """Gives what `target()` gives, tried again after an exception of which the predicate holds, for so many seconds.

    Behind that time it raises what the factory makes, a `RetryError`, and any other exception at once.
    """
    timeout = words.get("deadline", timeout)
    end = None if timeout is None else time.monotonic() + timeout
    errors: List[Exception] = []
    for seconds in sleep_generator:
        try:
            return target()
        except Exception as error:
            if not predicate(error):
                raise
            errors.append(error)
            if on_error is not None:
                on_error(error)
        if end is not None and time.monotonic() + seconds > end:
            made, cause = exception_factory(errors, None, timeout)
            raise made from cause
        time.sleep(seconds)
    raise ValueError("the generator of seconds to wait has ended")


class Retry:
    """A decorator: calls of the function are tried again after an exception of which the predicate holds.

    As `retry=` of the Cloud client's calls it does the same to what the call asks of the server. Times are seconds.
    """

    def __init__(self, predicate: Predicate = if_transient_error, initial: float = 1.0, maximum: float = 60.0,
                 multiplier: float = 2.0, timeout: Optional[float] = 120.0, on_error: OnError = None,
                 **words: Any) -> None:
        self._predicate, self._initial, self._maximum, self._multiplier = predicate, initial, maximum, multiplier
        self._timeout: Optional[float] = words.pop("deadline", timeout)
        self._on_error = on_error
        API_CORE.refuse_words("retry.Retry", words)

    @property
    def timeout(self) -> Optional[float]:
        """The seconds for which a call is tried; None is without end."""
        return self._timeout

    @property
    def deadline(self) -> Optional[float]:
        """The same, by its older name."""
        return self._timeout

    def __call__(self, func: Callable[..., Any], on_error: OnError = None) -> Callable[..., Any]:
        @functools.wraps(func)
        def tried(*args: Any, **words: Any) -> Any:
            waits = exponential_sleep_generator(self._initial, self._maximum, self._multiplier)
            target = functools.partial(func, *args, **words)
            return retry_target(target, self._predicate, waits, self._timeout, on_error or self._on_error)

        return tried

    def _with(self, **words: Any) -> "Retry":
        own: Dict[str, Any] = {"predicate": self._predicate, "initial": self._initial, "maximum": self._maximum,
               "multiplier": self._multiplier, "timeout": self._timeout, "on_error": self._on_error}
        return type(self)(**{**own, **words})

    def with_timeout(self, timeout: Optional[float]) -> "Retry":
        """The same, tried for so many seconds."""
        return self._with(timeout=timeout)

    def with_deadline(self, deadline: Optional[float]) -> "Retry":
        """The same as `with_timeout`, by its older name."""
        return self._with(timeout=deadline)

    def with_predicate(self, predicate: Predicate) -> "Retry":
        """The same, by another predicate."""
        return self._with(predicate=predicate)

    def with_delay(self, initial: Optional[float] = None, maximum: Optional[float] = None,
                   multiplier: Optional[float] = None) -> "Retry":
        """The same, with other times between the tries."""
        given = {"initial": initial, "maximum": maximum, "multiplier": multiplier}
        return self._with(**{name: value for name, value in given.items() if value is not None})


__getattr__ = API_CORE.module_getattr(__name__, "retry.")
