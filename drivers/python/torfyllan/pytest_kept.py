"""Fixtures for pytest over a kept file: `datastore_kept`, a client of a server that keeps its journal in the file that the ini file names."""
from typing import Any, Iterator

import pytest

from .client import Client
from .pytest_state import tested
from .server import Server


@pytest.fixture(scope="session")
def datastore_kept_server(pytestconfig: Any) -> Iterator[Server]:
    """One server over the kept file for all tests of a run that use it, as a file has one server at a time."""
    from . import pytest_plugin

    name = pytestconfig.getini("datastore_kept")
    if not name:
        raise pytest.UsageError("the fixture datastore_kept serves a file that the ini file names, as `datastore_kept = data.kept`")
    file = pytest_plugin._root(pytestconfig) / name
    server = pytest_plugin.started(Server(**pytest_plugin.server_words(pytestconfig), kept=file), pytestconfig)
    yield server
    server.stop() if server.is_alive else server.kill()


@pytest.fixture
def datastore_kept(datastore_kept_server: Server, request: Any) -> Iterator[Client]:
    """A client in the default namespace of the server over the kept file: it finds what was committed before, by this run or earlier ones, and
    what it commits stays. `datastore_kept.server.reset()` starts the server anew over the file. Such a test isn't run under schedules."""
    from . import pytest_plugin

    server = datastore_kept_server
    if not server.is_alive:
        server._start_again()
    pytest_plugin._end_transactions(server)
    client = server.client()
    client.settle()
    with tested(server, request.node, server._steering.next_id):
        yield client
    pytest_plugin._end_transactions(server)
