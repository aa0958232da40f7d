"""The names of `google.cloud.datastore` over a server: clients, keys, entities, queries, batches and transactions.

    from torfyllan import Server, cloud

    with Server() as server:
        client = cloud.Client(server.client())
        task = cloud.Entity(client.key("Task", "a"))
        task["done"] = False
        client.put(task)
        print(list(client.query(kind="Task").fetch()))     # []: the put is committed and not yet applied

`install()` makes `from google.cloud import datastore` give this module. Begin reading at `client`; `members` tells of each
public name of the library what is done here.
"""
import sys

from ..facade import stand_in
from . import aggregation, api_clients, api_exceptions, api_retry, exceptions, helpers, low_level, query, query_profile
from .batch import Batch
from .client import Client, use
from .entity import Entity
from .exceptions import Aborted, Conflict, FailedPrecondition, InvalidArgument
from .key import Key
from .members import TABLE
from .query import Query
from .transaction import Transaction
from .version import __version__

__all__ = [
    "__version__", "Aborted", "aggregation", "Batch", "Client", "Conflict", "Entity", "exceptions",
    "FailedPrecondition", "helpers", "install", "InvalidArgument", "Key", "Query", "query", "query_profile", "Transaction", "use",
]


def install() -> None:
    """Makes `from google.cloud import datastore` give this package, for the rest of the process.

    Where `google.api_core` can't be imported, its `exceptions` and `retry`, and `google.cloud.exceptions`, are stood in for too; where it
    can, its classes are those that are raised. So it is with what clients are made with, options and credentials. Call it before the
    application is imported, as at the top of `conftest.py`.
    """
    stand_in({"google.cloud.datastore": sys.modules[__name__]}, {
        "google.api_core.exceptions": api_exceptions,
        "google.api_core.retry": api_retry,
        "google.cloud.exceptions": exceptions,
        **{name: low_level for name in _LOW_LEVEL},
        **{name: api_clients for name in _CLIENTS},
    })


_LOW_LEVEL = ("google.cloud.datastore_v1", "google.cloud.datastore_admin", "google.cloud.datastore_admin_v1")
_CLIENTS = ("google.api_core.client_options", "google.api_core.gapic_v1.client_info", "google.auth", "google.auth.credentials",
            "google.oauth2.service_account")


__getattr__ = TABLE.module_getattr(__name__)
