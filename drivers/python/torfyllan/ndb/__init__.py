"""The names of `google.appengine.ext.ndb` over a server: models, keys, queries and transactions.

    from torfyllan import Server, ndb

    class Greeting(ndb.Model):
        content = ndb.TextProperty()
        date = ndb.DateTimeProperty(auto_now_add=True)

    with Server() as server, ndb.use(server.client()):
        Greeting(content="Hello").put()
        print(Greeting.query().fetch())     # []: the put is committed and not yet applied

A block of `use` is one request: it has a connection and a cache of entities of its own. `install()` makes
`from google.appengine.ext import ndb` and `from google.cloud import ndb` give this module. `members` says what is done for each name of the
library. Begin at `model`, then `properties`, `query` and `context`.
"""
import sys

from ..facade import stand_in
from .context import Context, get_context, use  # First, since keys and contexts know each other.
from . import blobstore, cloud_ndb, datastore_errors, datastore_stub_util, key, metadata, model, msgprop, namespace_manager
from . import polymodel, query, stats, tasklets, testbed
from .cloud_ndb import Client, wsgi_middleware
from .datastore_errors import BadProjectionError, ComputedPropertyError, ContextError, InvalidPropertyError, KindError
from .datastore_errors import NotStoredError, ReadonlyPropertyError, Rollback, UnprojectedPropertyError
from .futures import Future, MultiFuture, QueueFuture, ReducingFuture, SerialQueueFuture
from .gql import GqlQuery, gql
from .key import Key
from .kinds import BlobKey, BlobKeyProperty, BlobProperty, BooleanProperty, CompressedTextProperty, ComputedProperty
from .kinds import DateProperty, DateTimeProperty
from .kinds import FloatProperty, GenericProperty, GeoPt, GeoPtProperty, IntegerProperty, JsonProperty, KeyProperty
from .kinds import PickleProperty, StringProperty, TextProperty, TimeProperty, UserProperty
from .members import TABLE
from .model import Expando, MetaModel, Model, ModelKey, delete_multi, delete_multi_async, get_multi, get_multi_async
from .model import put_multi, put_multi_async
from .nodes import AND, OR, ConjunctionNode, DisjunctionNode, FalseNode, FilterNode, Node
from .options import EVENTUAL_CONSISTENCY, STRONG_CONSISTENCY, ContextOptions, QueryOptions, TransactionOptions
from .properties import Property
from .query import Cursor, Query, QueryIterator
from .structured import LocalStructuredProperty, StructuredProperty
from .tasklets import Return, add_flow_exception, get_return_value, make_context, make_default_context, set_context, sleep
from .tasklets import synctasklet, tasklet, toplevel
from .transactions import in_transaction, non_transactional, transaction, transaction_async, transactional
from .transactions import transactional_async, transactional_tasklet

exceptions = datastore_errors
EVENTUAL, STRONG = EVENTUAL_CONSISTENCY, STRONG_CONSISTENCY
PolyModel = polymodel.PolyModel
wait_all, wait_any = Future.wait_all, Future.wait_any

__all__ = [
    "add_flow_exception", "AND", "BadProjectionError", "BlobKey", "BlobKeyProperty", "BlobProperty", "BooleanProperty",
    "Client", "CompressedTextProperty", "ComputedProperty", "ComputedPropertyError", "ConjunctionNode", "Context", "ContextError",
    "ContextOptions", "Cursor", "datastore_errors", "DateProperty", "DateTimeProperty", "delete_multi",
    "delete_multi_async", "DisjunctionNode", "EVENTUAL", "EVENTUAL_CONSISTENCY", "exceptions", "Expando", "FalseNode",
    "FilterNode", "FloatProperty", "Future", "GenericProperty", "GeoPt", "GeoPtProperty", "get_context", "get_multi",
    "get_multi_async", "get_return_value", "gql", "GqlQuery", "in_transaction", "install", "IntegerProperty",
    "InvalidPropertyError", "JsonProperty", "Key", "KeyProperty", "KindError", "LocalStructuredProperty",
    "make_context", "make_default_context", "MetaModel", "Model", "ModelKey", "MultiFuture", "Node", "non_transactional",
    "NotStoredError", "OR", "PickleProperty", "polymodel", "PolyModel", "Property", "put_multi", "put_multi_async", "query", "Query",
    "QueryIterator", "QueryOptions", "QueueFuture", "ReadonlyPropertyError", "ReducingFuture", "Return", "Rollback",
    "SerialQueueFuture", "set_context", "sleep", "StringProperty", "STRONG", "STRONG_CONSISTENCY", "StructuredProperty",
    "synctasklet", "tasklet", "tasklets", "TextProperty", "TimeProperty", "toplevel", "transaction",
    "transaction_async", "transactional", "transactional_async", "transactional_tasklet", "TransactionOptions",
    "UnprojectedPropertyError", "use", "UserProperty", "wait_all", "wait_any", "wsgi_middleware",
]

__getattr__ = TABLE.module_getattr(__name__)


def install() -> None:
    """Makes `google.appengine.ext.ndb` with its modules, `google.cloud.ndb`, and what stands beside them in App Engine (`datastore_errors` and
    `namespace_manager` of `google.appengine.api`, `testbed` of `ext`, `datastore_query` and `datastore_stub_util` of `datastore`) this package,
    for the rest of the process.

    Call it before the application is imported, as at the top of `conftest.py`.
    """
    stand_in({
        "google.appengine.ext.ndb": sys.modules[__name__],
        "google.appengine.ext.testbed": testbed,
        "google.appengine.api.datastore_errors": datastore_errors,
        "google.appengine.api.namespace_manager": namespace_manager,
        "google.appengine.datastore.datastore_query": query,
        "google.appengine.datastore.datastore_stub_util": datastore_stub_util,
        "google.cloud.ndb": sys.modules[__name__],
        "google.cloud.ndb.exceptions": datastore_errors,
    })
