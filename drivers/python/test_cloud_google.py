"""Tests of Google's exceptions and retries, as `torfyllan.cloud` has them where they are installed and where they aren't.

    python3 drivers/python/test_cloud_google.py
"""
import os
import pathlib
import subprocess
import sys
import tempfile
import unittest
from unittest import mock

HERE = os.path.dirname(os.path.abspath(__file__))
sys.path.insert(0, HERE)
from cloud_case import WithServer
from torfyllan.cloud import api_exceptions, api_retry, exceptions


REAL_EXCEPTIONS = '''\
class GoogleAPIError(Exception): pass
class GoogleAPICallError(GoogleAPIError):
    def __init__(self, message, errors=()):
        super().__init__(message)
        self.message = message
class BadRequest(GoogleAPICallError): code = 400
class InvalidArgument(BadRequest): pass
class FailedPrecondition(BadRequest): pass
class Conflict(GoogleAPICallError): code = 409
class Aborted(Conflict): pass
class ResourceExhausted(GoogleAPICallError): code = 429
class DeadlineExceeded(GoogleAPICallError): code = 504
class RetryError(GoogleAPIError): pass
'''

WITH_REAL = '''\
import sys
from torfyllan import Server, cloud
cloud.install()
from google.api_core import exceptions, retry
from google.cloud import datastore
from google.cloud.exceptions import Conflict
assert exceptions.__file__.startswith(sys.argv[1]) and retry.REAL, exceptions
assert Conflict is exceptions.Conflict is cloud.Conflict and cloud.exceptions.Aborted is exceptions.Aborted is cloud.Aborted
with Server() as server:
    client, other = datastore.Client(server.client(0)), datastore.Client(server.client(1))
    key = client.key("Task", "a")
    try:
        with client.transaction():
            client.get(key)
            other.put(datastore.Entity(key))
            client.put(datastore.Entity(key))
    except exceptions.Aborted as error:
        print(type(error).__module__, type(error).__name__, error.refusal.name)
    try:
        list(client.query(kind="Task", filters=[("a", "=", 1)], order=["b"]).fetch())
    except exceptions.FailedPrecondition as error:
        print(error.refusal.name)
'''


class GooglesExceptions(unittest.TestCase):
    def ran_without(self, code):
        """What code prints where there is a package `google` with nothing in it, which hides one that may be installed."""
        with tempfile.TemporaryDirectory() as folder:
            pathlib.Path(folder, "google").mkdir()
            pathlib.Path(folder, "google", "__init__.py").touch()
            return self.ran(code, folder)

    def ran(self, code, path):
        words = {**os.environ, "PYTHONPATH": os.pathsep.join([HERE, path]), "PYTHONDONTWRITEBYTECODE": "1"}
        ran = subprocess.run([sys.executable, "-c", code, path], capture_output=True, text=True, env=words)
        return ran.stdout + ran.stderr

    def test_where_the_package_is_installed_its_classes_are_raised(self):
        with tempfile.TemporaryDirectory() as folder:
            package = pathlib.Path(folder, "google", "api_core")
            package.mkdir(parents=True)
            for name, text in (("__init__", ""), ("exceptions", REAL_EXCEPTIONS), ("retry", "REAL = True\n")):
                pathlib.Path(package, f"{name}.py").write_text(text, encoding="utf-8")
            self.assertEqual(self.ran(WITH_REAL, folder), "google.api_core.exceptions Aborted Conflict\nMissingIndex\n")

    def test_where_it_is_not_they_are_stood_in_for(self):
        code = WITH_REAL.replace("assert exceptions.__file__.startswith(sys.argv[1]) and retry.REAL, exceptions\n", "retry.Retry, exceptions.RetryError\n")
        self.assertEqual(self.ran_without(code), "torfyllan.cloud.api_exceptions Aborted Conflict\nMissingIndex\n")

    def test_what_clients_are_made_with(self):
        code = """
import sys
from torfyllan import cloud
cloud.install()
import google.auth
from google.api_core.client_options import ClientOptions
from google.api_core.gapic_v1.client_info import ClientInfo
from google.auth.credentials import AnonymousCredentials
from google.cloud import datastore, datastore_v1
from google.oauth2 import service_account
credentials, project = google.auth.default()
options = ClientOptions(api_endpoint="localhost:8081")
client = datastore.Client("shop", credentials=AnonymousCredentials(), client_options=options, client_info=ClientInfo(user_agent="shop"))
credentials = service_account.Credentials.from_service_account_file("no such file").with_scopes(["x"])
print(client.project, options.api_endpoint, options.quota_project_id, isinstance(credentials, service_account.Credentials))
try:
    datastore_v1.DatastoreClient()
except NotImplementedError as error:
    print(error)
"""
        self.assertEqual(self.ran_without(code), "shop localhost:8081 None True\nDatastoreClient: calls of gRPC and jobs of administration aren't there: use google.cloud.datastore\n")

    def test_the_hierarchy(self):
        above = {
            "BadRequest": "ClientError", "InvalidArgument": "BadRequest", "FailedPrecondition": "BadRequest", "OutOfRange": "BadRequest",
            "Unauthenticated": "Unauthorized", "PermissionDenied": "Forbidden", "AlreadyExists": "Conflict", "Aborted": "Conflict", "Conflict": "ClientError",
            "ResourceExhausted": "TooManyRequests", "Cancelled": "ClientError", "Unknown": "ServerError", "DataLoss": "ServerError",
            "DeadlineExceeded": "GatewayTimeout", "GatewayTimeout": "ServerError", "ServiceUnavailable": "ServerError", "MovedPermanently": "Redirection",
            "GoogleAPICallError": "GoogleAPIError", "RetryError": "GoogleAPIError", "Redirection": "GoogleAPICallError",
        }
        for name, base in above.items():
            self.assertIs(getattr(api_exceptions, name).__base__, getattr(api_exceptions, base), name)
        codes = {"NotFound": 404, "Aborted": 409, "PreconditionFailed": 412, "Cancelled": 499, "InternalServerError": 500, "DeadlineExceeded": 504}
        self.assertEqual({name: getattr(api_exceptions, name).code for name in codes}, codes)
        self.assertEqual(str(api_exceptions.Aborted("the text")), "409 the text")
        self.assertEqual(api_exceptions.Aborted("the text").message, "the text")

    def test_exceptions_of_a_status(self):
        for status, kind in ((404, "NotFound"), (409, "Conflict"), (500, "InternalServerError"), (503, "ServiceUnavailable"), (418, "GoogleAPICallError")):
            error = api_exceptions.from_http_status(status, "text")
            self.assertEqual((type(error).__name__, error.code, error.message), (kind, status, "text"))
        for status, kind in (("ABORTED", "Aborted"), ("UNAVAILABLE", "ServiceUnavailable"), ("strange", "GoogleAPICallError")):
            error = api_exceptions.from_grpc_status(status, "text")
            self.assertEqual((type(error).__name__, error.grpc_status_code), (kind, status))


class Retries(WithServer):
    def test_what_is_tried_again(self):
        tries = []

        def target():
            tries.append(1)
            if len(tries) < 3:
                raise exceptions.ServiceUnavailable("not yet")
            return "there"

        with mock.patch("time.sleep") as slept:
            self.assertEqual((api_retry.Retry()(target)(), len(tries), slept.call_count), ("there", 3, 2))
            with self.assertRaises(exceptions.Aborted):
                api_retry.Retry()(mock.Mock(side_effect=exceptions.Aborted("text"), __name__="target"))()
            heard = []
            with self.assertRaises(exceptions.RetryError) as caught:
                api_retry.Retry(timeout=0.0, initial=9.0, on_error=heard.append)(mock.Mock(side_effect=exceptions.ServiceUnavailable("never"), __name__="t"))()
            self.assertEqual((type(caught.exception.cause), len(heard)), (exceptions.ServiceUnavailable, 1))
            self.assertIn("Timeout of 0.0s exceeded, last exception: 503 never", str(caught.exception))
        changed = api_retry.Retry().with_timeout(3.0).with_predicate(api_retry.if_exception_type(KeyError)).with_delay(initial=0.5, maximum=2.0)
        self.assertEqual((changed.timeout, changed.deadline, changed._initial, changed._maximum, changed._predicate(KeyError())), (3.0, 3.0, 0.5, 2.0, True))
        waits = api_retry.exponential_sleep_generator(1.0, 3.0)
        with mock.patch("random.uniform", side_effect=lambda least, most: most):
            self.assertEqual([next(waits) for _ in range(4)], [1.0, 2.0, 3.0, 3.0])

    def test_a_retry_that_calls_are_given_is_round_what_the_server_is_asked(self):
        tried = []

        def again(function):
            def called():
                tried.append(1)
                return function()

            return called

        entity, partial = self.made("Task", "a", n=1), self.client.key("Task")
        query = self.client.query(kind="Task")
        for work in (lambda: self.client.put(entity, retry=again), lambda: self.client.get(entity.key, retry=again), lambda: self.client.get_multi([entity.key], retry=again),
                     lambda: self.client.put_multi([entity], retry=again), lambda: self.client.allocate_ids(partial, 1, retry=again),
                     lambda: self.client.reserve_ids_multi([self.client.key("Task", 9)], retry=again), lambda: list(query.fetch(retry=again)),
                     lambda: list(self.client.aggregation_query(query).count().fetch(retry=again)), lambda: self.client.delete(entity.key, retry=again),
                     lambda: self.client.delete_multi([entity.key], retry=again)):
            before = len(tried)
            work()
            self.assertEqual(len(tried), before + 1)
        transaction = self.client.transaction()
        transaction.begin(retry=again)
        transaction.put(entity)
        transaction.commit(retry=again)
        self.assertEqual(len(tried), 12)


if __name__ == "__main__":
    unittest.main()
