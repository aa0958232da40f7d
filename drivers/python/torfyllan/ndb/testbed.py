"""The testbed of App Engine's test suites, over a server: `google.appengine.ext.testbed`.

    self.testbed = testbed.Testbed()
    self.testbed.activate()
    self.testbed.init_datastore_v3_stub(consistency_policy=policy)
    ...
    self.testbed.deactivate()

Each `init_datastore_v3_stub` gives a server without entities, and makes the tests until `deactivate` one request of it. A server is kept, and
started anew, for the next testbed of the same policy and index file.
"""
import atexit
import os
from typing import Any, Dict, List, Optional, Tuple

from .. import Client, Server
from . import context as contexts
from .datastore_stub_util import BaseConsistencyPolicy, MasterSlaveConsistencyPolicy
from .members import TABLE

DEFAULT_ENVIRONMENT = {
    "APPLICATION_ID": "testbed-test",
    "AUTH_DOMAIN": "gmail.com",
    "HTTP_HOST": "testbed.example.com",
    "CURRENT_MODULE_ID": "default",
    "CURRENT_VERSION_ID": "testbed-version",
    "REQUEST_ID_HASH": "testbed-request-id-hash",
    "REQUEST_LOG_ID": "7357B3D7091D",
    "SERVER_NAME": "testbed.example.com",
    "SERVER_SOFTWARE": "Development/1.0 (testbed)",
    "SERVER_PORT": "80",
    "USER_EMAIL": "",
    "USER_ID": "",
}
"""The environment of a testbed; `setup_env` adds to it."""

AUTO_ID_POLICY_SEQUENTIAL, AUTO_ID_POLICY_SCATTERED = "sequential", "scattered"

_servers: Dict[Tuple[Any, ...], Server] = {}


class NotActivatedError(Exception):
    """A call that an active testbed is needed for."""


class Testbed:
    """A testbed; `activate()` it first."""

    __test__ = False  # pytest collects no test from it.

    def __init__(self) -> None:
        self._active = False
        self._environment: Dict[str, Optional[str]] = {}
        self._block: Any = None
        self.client: Optional[Client] = None

    def activate(self) -> None:
        """Begins a test: sets the environment."""
        if self._active:
            return
        self._active = True
        self._set(DEFAULT_ENVIRONMENT, overwrite=False)

    def deactivate(self) -> None:
        """Ends a test: the environment is again what it was, and ndb has no server."""
        if not self._active:
            raise NotActivatedError("the testbed isn't active: call activate()")
        self._active = False
        self._leave()
        for name, value in self._environment.items():
            if value is None:
                os.environ.pop(name, None)
            else:
                os.environ[name] = value
        self._environment = {}

    def setup_env(self, overwrite: bool = False, **words: Any) -> None:
        """Sets variables of the environment, their names in capitals, until `deactivate`; `app_id` is APPLICATION_ID."""
        self._check()
        named = {{"app_id": "APPLICATION_ID"}.get(name, name.upper()): str(value) for name, value in words.items()}
        self._set(named, overwrite or "app_id" in words)

    def _set(self, variables: Dict[str, str], overwrite: bool) -> None:
        for name, value in variables.items():
            self._environment.setdefault(name, os.environ.get(name))
            if overwrite or name not in os.environ:
                os.environ[name] = value

    def _check(self) -> None:
        if not self._active:
            raise NotActivatedError("the testbed isn't active: call activate() first")

    def init_datastore_v3_stub(self, enable: bool = True, datastore_file: Optional[str] = None, use_sqlite: bool = False,
                               auto_id_policy: str = AUTO_ID_POLICY_SEQUENTIAL, consistency_policy: Any = None,
                               root_path: Optional[str] = None, **words: Any) -> None:
        """Gives the test a server without entities, which applies writes as the policy says. `client` is then its client, with `settle`.

        The index file is `index.yaml` of `root_path` or else of the current folder, where it is there; a missing index is told as elsewhere.
        """
        TABLE.refuse_words("testbed.Testbed.init_datastore_v3_stub", {**words, "datastore_file": datastore_file})
        self._check()
        self._leave()
        if not enable:
            return
        policy = consistency_policy if consistency_policy is not None else MasterSlaveConsistencyPolicy()
        if not isinstance(policy, BaseConsistencyPolicy):
            raise TypeError(f"consistency_policy is one of datastore_stub_util, and not {policy!r}")
        server = _served(policy, root_path)
        self.client = server.client()
        self._block = contexts.use(self.client)
        self._block.__enter__()

    def _leave(self) -> None:
        if self._block is not None:
            block, self._block, self.client = self._block, None, None
            block.__exit__(None, None, None)

    def init_memcache_stub(self, enable: bool = True, **words: Any) -> None:
        """Without effect: there is no memcache."""

    init_app_identity_stub = init_blobstore_stub = init_capability_stub = init_channel_stub = init_files_stub = init_memcache_stub
    init_images_stub = init_logservice_stub = init_mail_stub = init_modules_stub = init_search_stub = init_memcache_stub
    init_taskqueue_stub = init_urlfetch_stub = init_user_stub = init_xmpp_stub = init_memcache_stub

    def init_all_stubs(self, enable: bool = True) -> None:
        """As `init_datastore_v3_stub`: no other service is there."""
        self.init_datastore_v3_stub(enable)

    def __getattr__(self, name: str) -> Any:
        return TABLE.object_getattr(type(self), name, "testbed.")


def _served(policy: BaseConsistencyPolicy, root_path: Optional[str]) -> Server:
    """A server without entities, for this policy and the index file."""
    indexes = os.path.abspath(os.path.join(root_path or "", "index.yaml"))
    given: List[Any] = [indexes if os.path.exists(indexes) else None, policy.consistency, policy.seed]
    server = _servers.get(tuple(given))
    if server is None or not server.is_alive:
        server = _servers[tuple(given)] = Server(indexes=given[0], consistency=given[1], seed=given[2]).start()
        atexit.register(server.kill)
    else:
        server.reset()
    return server


__getattr__ = TABLE.module_getattr(__name__, "testbed.")
