"""Fixtures for pytest: `ndb_context`, a request of ndb, and `cloud_client`, a Cloud client, by that of `datastore`."""
from typing import Any, Iterator

import pytest


@pytest.fixture
def ndb_context(datastore: Any) -> Iterator[Any]:
    """A context of ndb in the test's own namespace; its `client` is that of the server, with `settle` and `apply`."""
    from . import ndb

    with ndb.use(datastore) as context:
        yield context


@pytest.fixture
def cloud_client(datastore: Any) -> Iterator[Any]:
    """A Cloud client in the test's own namespace. Clients that the application makes itself speak with the same one."""
    from . import cloud

    with cloud.use(datastore):
        yield cloud.Client(datastore)
