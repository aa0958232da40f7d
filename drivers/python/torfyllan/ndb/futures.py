"""Futures. What ndb itself gives is done when it is made, since there is no event loop; an application may make others."""
import collections
import functools
from typing import Any, Callable, Deque, Generic, Iterable, List, Optional, TypeVar, cast

T = TypeVar("T")


class Future(Generic[T]):
    """The outcome of work: its result, or its exception, once one of them is set."""

    IDLE, RUNNING, FINISHING = 0, 1, 2

    def __init__(self, info: Optional[str] = None) -> None:
        self._info = info
        self._done = False
        self._result: Optional[T] = None
        self._exception: Optional[BaseException] = None
        self._callbacks: List[Callable[[], Any]] = []

    def __repr__(self) -> str:
        state = "pending" if not self._done else repr(self._exception or self._result)
        return f"<{type(self).__name__}{' ' + self._info if self._info else ''}: {state}>"

    @property
    def state(self) -> int:
        """RUNNING, or FINISHING once it is done."""
        return self.FINISHING if self._done else self.RUNNING

    def set_result(self, result: T) -> None:
        """Makes it done, with this result."""
        self._end(result, None)

    def set_exception(self, exception: BaseException, traceback: Any = None) -> None:
        """Makes it done, with this exception."""
        if not isinstance(exception, BaseException):
            raise TypeError(f"an exception is wanted, and not {exception!r}")
        self._end(None, exception)

    def _end(self, result: Optional[T], exception: Optional[BaseException]) -> None:
        if self._done:
            raise RuntimeError(f"the result of {self!r} can't be set twice")
        self._done, self._result, self._exception = True, result, exception
        callbacks, self._callbacks = self._callbacks, []
        for call in callbacks:
            call()

    def add_callback(self, callback: Callable[..., Any], *args: Any, **words: Any) -> None:
        """Calls back once it is done; at once where it is."""
        call = functools.partial(callback, *args, **words)
        if self._done:
            call()
        else:
            self._callbacks.append(call)

    add_immediate_callback = add_callback

    def add_done_callback(self, callback: "Callable[[Future[T]], Any]") -> None:
        """As `add_callback`; the callback is given the future."""
        self.add_callback(callback, self)

    def get_result(self) -> T:
        """The result; raises the exception of the work. A RuntimeError where it isn't done: nothing is left that could end it."""
        self.check_success()
        return cast(T, self._result)

    def check_success(self) -> None:
        """Raises the exception of the work, if it ended with one."""
        self.wait()
        if self._exception is not None:
            raise self._exception

    def get_exception(self) -> Optional[BaseException]:
        """The exception of the work, or None."""
        self.wait()
        return self._exception

    def get_traceback(self) -> Any:
        """The traceback of the exception, or None."""
        error = self.get_exception()
        return error.__traceback__ if error is not None else None

    result, exception = get_result, get_exception

    def done(self) -> bool:
        """Whether there is a result or an exception."""
        return self._done

    def running(self) -> bool:
        """Whether it isn't done."""
        return not self._done

    def cancelled(self) -> bool:
        """False: no work is cancelled."""
        return False

    def wait(self) -> None:
        """Nothing where it is done; else a RuntimeError, since all other work has run."""
        if not self._done:
            raise RuntimeError(f"Deadlock waiting for {self!r}: nobody is left who could set its result")

    @staticmethod
    def wait_any(futures: "Iterable[Future[Any]]") -> "Optional[Future[Any]]":
        """One of these that is done; None where there are none."""
        every = list(futures)
        for each in every:
            if each.done():
                return each
        if every:
            every[0].wait()
        return None

    @staticmethod
    def wait_all(futures: "Iterable[Future[Any]]") -> None:
        """Waits until each is done."""
        for each in futures:
            each.wait()


class MultiFuture(Future[List[Any]]):
    """The results of several futures as one list: `add_dependent` or `putq` each, and then `complete()`."""

    def __init__(self, info: Optional[str] = None) -> None:
        super().__init__(info)
        self._full = False
        self._dependents: List[Future[Any]] = []

    def add_dependent(self, future: "Future[Any]") -> None:
        """Adds a future."""
        if not isinstance(future, Future):
            raise TypeError(f"a Future is wanted, and not {future!r}")
        if self._full:
            raise RuntimeError("nothing can be added after complete()")
        self._dependents.append(future)
        future.add_callback(self._signal)

    def putq(self, value: Any) -> None:
        """Adds a value, or a future of one."""
        self.add_dependent(value if isinstance(value, Future) else result_of(value))

    def complete(self) -> None:
        """Says that nothing more is added."""
        if self._full:
            raise RuntimeError("complete() is called once")
        self._full = True
        self._signal()

    def _signal(self) -> None:
        if self._full and not self._done and all(each.done() for each in self._dependents):
            failed = next((each for each in self._dependents if each._exception is not None), None)
            if failed is not None:
                self.set_exception(cast(BaseException, failed._exception))
            else:
                self.set_result(self._made([each._result for each in self._dependents]))

    def _made(self, results: List[Any]) -> Any:
        return results


class ReducingFuture(MultiFuture):
    """What a function makes of the list of several futures' results."""

    def __init__(self, reducer: Callable[[List[Any]], Any], info: Optional[str] = None, batch_size: int = 20) -> None:
        super().__init__(info)
        self._reducer = reducer

    def _made(self, results: List[Any]) -> Any:
        made = self._reducer(results)
        return made.get_result() if isinstance(made, Future) else made


class QueueFuture(Future[None]):
    """A queue of results: those of `add_dependent` and `putq` come out of `getq()`, which gives a future, as each is done.

    After `complete()` and the last result, the future of `getq()` has an `EOFError`.
    """

    _serial = False

    def __init__(self, info: Optional[str] = None) -> None:
        super().__init__(info)
        self._full = False
        self._open = 0
        self._arrived: "Deque[Future[Any]]" = collections.deque()
        self._wanted: "Deque[Future[Any]]" = collections.deque()

    def add_dependent(self, future: "Future[Any]") -> None:
        """Adds a future, whose result comes out once it is done."""
        if self._full:
            raise RuntimeError("nothing can be added after complete()")
        self._open += 1
        if self._serial:
            self._hand_out(future)
        future.add_callback(self._signal, future)

    def putq(self, value: Any) -> None:
        """Adds a value, or a future of one."""
        self.add_dependent(value if isinstance(value, Future) else result_of(value))

    def complete(self) -> None:
        """Says that nothing more is added."""
        self._full = True
        self._finish()

    def getq(self) -> "Future[Any]":
        """A future of the next result."""
        if self._arrived:
            return self._arrived.popleft()
        next_one: Future[Any] = Future("getq")
        self._wanted.append(next_one)
        self._finish()
        return next_one

    def _signal(self, future: "Future[Any]") -> None:
        self._open -= 1
        if not self._serial:
            self._hand_out(future)
        self._finish()

    def _hand_out(self, future: "Future[Any]") -> None:
        if self._wanted:
            future.add_callback(passed_on, future, self._wanted.popleft())
        else:
            self._arrived.append(future)

    def _finish(self) -> None:
        if self._full and not self._open:
            if not self._done:
                self.set_result(None)
            while self._wanted:
                self._wanted.popleft().set_exception(EOFError("the queue is empty"))


class SerialQueueFuture(QueueFuture):
    """A queue whose results come out in the order in which they were added."""

    _serial = True


def passed_on(done: "Future[Any]", to: "Future[Any]") -> None:
    """Ends a future as another one ended."""
    to._end(done._result, done._exception)


def result_of(value: Any) -> "Future[Any]":
    """A future that has this result."""
    made: Future[Any] = Future()
    made.set_result(value)
    return made


def ran(work: Callable[..., T], *args: Any, **words: Any) -> "Future[T]":
    """Runs work at once, and gives its outcome."""
    future: "Future[T]" = Future()
    try:
        result = work(*args, **words)
    except Exception as error:
        future.set_exception(error)
    else:
        future.set_result(result)
    return future


def twin(work: Callable[..., T]) -> Callable[..., "Future[T]"]:
    """The async twin of a function: it runs at once, and gives a future."""

    @functools.wraps(work)
    def at_once(*args: Any, **words: Any) -> "Future[T]":
        return ran(work, *args, **words)

    at_once.__doc__ = f"As `{work.__name__}`, which runs at once; gives a `Future`."
    return at_once
