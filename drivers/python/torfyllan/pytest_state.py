"""What the fixtures and the hooks of pytest know of the test that runs."""
import contextlib
from typing import Any, Iterator, List, Optional

import pytest

from .errors import TorfyllanError
from .excerpt import Excerpt
from .schedules import Run
from .server import Server
from .shards import FIRST_DRAWN

_KEY: Any = pytest.StashKey()
KEEPS: Any = pytest.StashKey()
"""Of the configuration: whether the talk of every test is kept, as a report is asked for."""


class State:
    """The servers of a test, the schedule under which it runs, and what is kept of its talk.

    `run` is the schedule, None where the test runs as it is written; `number` tells the runs of one test apart, and is 0 of the first; `keeps` says
    whether an excerpt of each server's talk is kept, and `shows` whether this run is told where it fails; `ended` is the exception by which the
    test ended.
    """

    def __init__(self) -> None:
        self.number = 0
        self.keeps = False
        self.shows = True
        self.begin(None)

    def begin(self, run: Optional[Run]) -> None:
        """Before a run of the test."""
        self.run = run
        self.servers: List[Server] = []
        self.excerpts: List[Excerpt] = []
        self.ended: Optional[BaseException] = None


def state_of(test: Any) -> State:
    """The state of a test."""
    if _KEY not in test.stash:
        test.stash[_KEY] = State()
        test.stash[_KEY].keeps = test.config.stash.get(KEEPS, False)
    state: State = test.stash[_KEY]
    return state


@contextlib.contextmanager
def tested(server: Server, test: Any, next_id: int = FIRST_DRAWN, namespace: str = "") -> Iterator[None]:
    """A block in which the server is the test's: it goes by the test's schedule, if there is one, and what is asked is kept, if it is to be."""
    state = state_of(test)
    if state.run is not None and server.appliers:
        raise TorfyllanError("a schedule decides what is applied, so its server can't have background appliers: give it appliers=0")
    state.servers.append(server)
    for recorder in server._recorders:
        recorder.test_begins(test.nodeid, namespace, server._line)
    chosen = server._choices
    excerpt = Excerpt(server, next_id, namespace) if state.keeps else None
    if excerpt is not None:
        state.excerpts.append(excerpt)
        server._recorders.append(excerpt)
    if state.run is not None:
        server._choices = state.run
    try:
        yield
    finally:
        server._choices = chosen
        if excerpt is not None and excerpt in server._recorders:
            server._recorders.remove(excerpt)
