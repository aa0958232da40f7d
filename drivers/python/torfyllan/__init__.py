"""Torfyllan from Python: start the server, speak with it, stop it.

    from torfyllan import Key, Server

    with Server() as server:                     # `run` of the repository, or what TORFYLLAN names
        client = server.client()
        client.put(Key("Task", "a"), n=5)
        print(client.query("Task").results)      # []: the put is committed and not yet applied
        client.settle()
        print(client.query("Task").results)      # [Entity(Key('Task', 'a'), n=5)]

It stands on the standard library alone, for Python 3.9 and later. A reply is an object that has the protocol's names as attributes
(`reply.commit`, `reply.place`, `reply.results`). A refusal is an exception named as the protocol names it (`Conflict`, `MissingIndex`), with its
number and its further members, and says in a sentence what was refused and why. A server that dies, a pipe that breaks and a line that is
no reply are a `ServerFailed`, and so is a reply that doesn't come in time.

Where to begin reading: `server` starts a server and sends rounds, `client` has a method for each operation, `wire` writes values as JSON and
reads them, `explain` says refusals as sentences, `journal` knows who wrote what, and `pytest_plugin` has the fixtures.
"""
from typing import TYPE_CHECKING

from .client import Client
from .dumps import dump_kept
from .errors import BlockEnded, IndexFileError, NotLegal, ServerFailed, TorfyllanError, UnknownCommit
from .kept_faults import KeptFileError
from .refusals import (
    BadCursor,
    BadGql,
    BadJson,
    BadKey,
    BadQuery,
    BadRequest,
    BadValue,
    Conflict,
    CursorMismatch,
    Expired,
    IdNotIssued,
    IdsExhausted,
    InTransaction,
    LineTooLong,
    MissingIndex,
    NeedAncestor,
    NoMemory,
    NoTransaction,
    Refused,
    SecondGroup,
    TooLarge,
    TooManyGroups,
    TooManyRows,
    TooManySubqueries,
    TooManyWrites,
)
from .replies import Reply
from .rounds import Pending, Round
from .server import CLIENTS, Server
from .shards import shard_of
from .values import Blob, Date, Entity, Key, Many, Rating, Text, Unindexed
from .version import __version__ as __version__

if TYPE_CHECKING:
    from .pytest_plugin import datastore as datastore, datastore_kept as datastore_kept, datastore_server as datastore_server
    from .pytest_plugin import fresh_datastore as fresh_datastore
else:

    def __getattr__(name):
        """The fixtures of pytest, which is imported where they are asked for."""
        if name in ("datastore", "datastore_kept", "datastore_server", "fresh_datastore"):
            from . import pytest_plugin

            return getattr(pytest_plugin, name)
        raise AttributeError(f"module {__name__!r} has no attribute {name!r}")


__all__ = [
    "BadCursor",
    "BadGql",
    "BadJson",
    "BadKey",
    "BadQuery",
    "BadRequest",
    "BadValue",
    "Blob",
    "BlockEnded",
    "Client",
    "CLIENTS",
    "Conflict",
    "CursorMismatch",
    "Date",
    "dump_kept",
    "Entity",
    "Expired",
    "IdNotIssued",
    "IdsExhausted",
    "IndexFileError",
    "InTransaction",
    "KeptFileError",
    "Key",
    "LineTooLong",
    "Many",
    "MissingIndex",
    "NeedAncestor",
    "NoMemory",
    "NoTransaction",
    "Pending",
    "Rating",
    "Refused",
    "Reply",
    "Round",
    "SecondGroup",
    "Server",
    "NotLegal",
    "ServerFailed",
    "shard_of",
    "Text",
    "TooLarge",
    "TooManyGroups",
    "TooManyRows",
    "TooManySubqueries",
    "TooManyWrites",
    "TorfyllanError",
    "Unindexed",
    "UnknownCommit",
]
