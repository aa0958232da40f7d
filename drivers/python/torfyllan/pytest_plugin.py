"""Fixtures for pytest, which are there without a conftest where the package is installed.

`datastore_server` is one server for all tests of a run, `datastore` a client for one test in a namespace of its own, and
`fresh_datastore` a client of a server that was started for this test alone; `ndb_context` and `cloud_client` stand on
`datastore`, for applications of ndb and of the Cloud client; `datastore_kept` is a client of a server that keeps a file. The words of the server come from pytest's ini file:

    [pytest]
    datastore_indexes = index.yaml
    datastore_consistency = strong

A test that fails tells which of its queries would have found otherwise with what was written and not applied, and which faults it met
on purpose. Schedules stand in `pytest_schedules`, reports in `pytest_reports`, and what is known of the test that runs in `pytest_state`.
"""
import contextlib
import hashlib
import weakref
from typing import Any, Dict, Iterator, List, Optional, Union

import pytest

from . import pytest_reports, pytest_schedules
from .answers import FOUND, GONE
from .client import Client
from .excerpt import Excerpt
from .pytest_facades import cloud_client as cloud_client
from .pytest_facades import ndb_context as ndb_context
from .pytest_kept import datastore_kept as datastore_kept
from .pytest_kept import datastore_kept_server as datastore_kept_server
from .pytest_state import KEEPS, state_of, tested
from .server import Server
from .shards import even_namespace
from .spaces import OwnSpace

_WORDS = {
    "datastore_indexes": "the index file of the tests' server; a relative name stands beside the ini file",
    "datastore_auto_index": "true: the entry of each missing index is added to that file",
    "datastore_next_indexes": "a second index file, which serves from a test's datastore.server.use_next_indexes() on, up to the test's end",
    "datastore_after": "the rounds within which that call comes, 1 to 9999 (1000)",
    "datastore_shards": "the number of shards, 1 to 16 (16)",
    "datastore_consistency": "explicit (the default), strong, or a share from 0 to 1 of the writes that are applied at once",
    "datastore_conflicts": "the share, from 0 to 1, of the commits of transactions that conflict (0)",
    "datastore_unknown_commits": "the share, from 0 to 1, of the commits whose reply is withheld (0)",
    "datastore_seed": "the seed by which such shares are drawn (0)",
}
_SHARES = ("conflicts", "unknown_commits")
_SHOWN = 20


def pytest_addoption(parser: Any) -> None:
    """Adds the words of the server to the ini file, and those of a run to the command line."""
    for name, told in _WORDS.items():
        parser.addini(name, told, default=None)
    parser.addini("datastore_kept", "the file that the server of the fixture `datastore_kept` keeps; a relative name stands beside the ini file", default=None)
    parser.addini("datastore_report", "a folder for the page and the lines of each test that fails; a relative name stands beside the ini file", default=None)
    group = parser.getgroup("datastore")
    schedules = "run each test that uses the fixtures under N schedules: what queries see, which commits conflict, which replies are lost"
    group.addoption("--datastore-schedules", type=int, default=0, metavar="N", help=schedules)
    group.addoption("--datastore-schedule", default=None, metavar="WORDS", help="run each such test under this schedule, as a failing test told it: 5:stale,7:conflict")
    group.addoption("--datastore-seed", type=int, default=None, metavar="N", help="the seed of shares, in place of the ini file's datastore_seed")


def pytest_configure(config: Any) -> None:
    """Registers the mark, and refuses words that are no schedule."""
    config.addinivalue_line("markers", "datastore_as_written: the test isn't run under schedules, as it shows what one of its own does")
    pytest_schedules.check_words(config)
    config.stash[KEEPS] = pytest_reports.folder_asked(config) is not None


pytest_runtest_protocol: Any = pytest.hookimpl(tryfirst=True)(pytest_schedules.run_protocol)


def pytest_terminal_summary(terminalreporter: Any) -> None:
    """Says how many runs under schedules there were, and with a report which index definitions nothing used."""
    pytest_schedules.summary(terminalreporter)
    if terminalreporter.config.stash[KEEPS]:
        pytest_reports.index_summary(terminalreporter, server_words(terminalreporter.config).get("indexes"))


def server_words(config: Any) -> Dict[str, Any]:
    """The words for `Server` that the ini file gives."""
    words: Dict[str, Any] = {}
    for name in _WORDS:
        # Where a conftest imports the fixtures alone, the words of the ini file aren't pytest's to read.
        with contextlib.suppress(KeyError, ValueError):
            if config.getini(name):
                words[name[len("datastore_") :]] = config.getini(name)
    for name in ("indexes", "next_indexes"):
        if name in words:
            words[name] = str(_root(config) / words[name])
    if "auto_index" in words:
        words["auto_index"] = _truth("datastore_auto_index", words["auto_index"])
    for name in ("shards", "seed", "after"):
        if name in words:
            words[name] = _number(f"datastore_{name}", words[name])
    for name in _SHARES:
        if name in words:
            words[name] = _share(words[name])
    if words.get("consistency") not in (None, "explicit", "strong"):
        words["consistency"] = _share(words["consistency"])
    seed = config.getoption("datastore_seed", None)
    return words if seed is None else {**words, "seed": seed}


def _truth(name: str, text: str) -> bool:
    word = text.strip().lower()
    if word not in ("true", "yes", "on", "1", "false", "no", "off", "0"):
        raise pytest.UsageError(f"{name} of the ini file is yes or no, and not {text!r}")
    return word in ("true", "yes", "on", "1")


def _number(name: str, text: str) -> int:
    try:
        return int(text)
    except ValueError:
        raise pytest.UsageError(f"{name} of the ini file is a whole number, and not {text!r}") from None


def _share(text: str) -> Union[float, str]:
    try:
        return float(text)
    except ValueError:
        return text


def _root(config: Any) -> Any:
    return config.inipath.parent if config.inipath is not None else config.rootpath


def started(server: Server, config: Any) -> Server:
    """Starts a server; what a build tells meanwhile goes to the terminal, past pytest's capture."""
    capture = config.pluginmanager.getplugin("capturemanager")
    if capture is None:
        return server.start()
    with capture.global_and_fixture_disabled():
        return server.start()


def namespace_of(test: str, run: int = 0) -> str:
    """A namespace for the test of this id, and a run of it: its name as far as it fits, and its hash. Groups have the shards that they have without a
    namespace."""
    digest = hashlib.sha256(test.encode("utf-8", "surrogateescape")).hexdigest()[:10]
    return even_namespace(f"{test.rpartition('::')[2][:60]}-{digest}-" + (f"{run}-" if run else ""))


@pytest.fixture(scope="session")
def datastore_server(pytestconfig: Any) -> Iterator[Server]:
    """One server for all tests of a run. A project with other words gives its own fixture of this name."""
    server = started(Server(**server_words(pytestconfig)), pytestconfig)
    _ours.add(server)
    yield server
    server.stop() if server.is_alive else server.kill()


@pytest.fixture
def datastore(datastore_server: Server, request: Any) -> Iterator[Client]:
    """A client in a namespace that the test's own id names, which has a namespace of its own for each that the application names. What a
    test sees doesn't depend on the tests before it: what they left is applied, and ids are drawn from a place at which their groups have the
    same shards."""
    client = datastore_server.client(namespace=OwnSpace(namespace_of(request.node.nodeid, state_of(request.node).number)))
    _start_again_if_need_be(datastore_server, request.node)
    yield from _lent(client, datastore_server, request.node)


@pytest.fixture
def fresh_datastore(pytestconfig: Any, request: Any) -> Iterator[Client]:
    """A client of a server of its own: commits, places and ids are those of a first run."""
    server = started(Server(**server_words(pytestconfig)), pytestconfig)
    with tested(server, request.node):
        yield server.client()
    server.kill()


_ours: "weakref.WeakSet[Server]" = weakref.WeakSet()
_lent_commits: "weakref.WeakKeyDictionary[Server, int]" = weakref.WeakKeyDictionary()


def _start_again_if_need_be(server: Server, test: Any) -> None:
    """Starts a server that an earlier test has ended; and one whose index file got entries since, or that serves by a second one or soon would, if it is
    this module's and only tests wrote to it."""
    if server._process is not None and not server.is_alive:
        why = server._process.why
        started_again = f"the server that tests share had ended before this test ({why}); it was started anew, and what was written before is gone"
        server._start_again()
        test.warn(pytest.PytestWarning(started_again))
    elif server in _ours and (server._indexes.has_added or server._second.serves or server._second.is_near) and server._journal.last == _lent_commits.get(server, 0):
        server.reset()
    else:
        return
    _lent_commits[server] = 0


def _lent(client: Client, server: Server, test: Any) -> Iterator[Client]:
    _end_transactions(server)
    if not server._steering.is_all_applied or server.appliers:
        client.settle()
    next_id = server._even_ids()
    server._consistency.restart()
    server._choices.restart()
    server._stale.clear()
    before = server._journal.last
    with tested(server, test, next_id, client.namespace):
        yield client
    # A server that was started anew within the test has commits of this test alone.
    _lent_commits[server] = _lent_commits.get(server, 0) + server._journal.last - before if server._journal.last >= before else server._journal.last
    _end_transactions(server)


def _end_transactions(server: Server) -> None:
    for number, session in enumerate(server._sessions):
        if session.is_open and server.is_alive:
            session.leave_block()
            server.client(number).rollback()


# ---- what a failing test is told


def _with_what_it_met(item: Any, call: Any) -> Iterator[None]:
    """Adds to a failing test's report what its queries didn't see, and which faults it met on purpose."""
    outcome: Any = yield
    report, state = outcome.get_result(), state_of(item)
    if call.excinfo is not None and state.ended is None:
        state.ended = call.excinfo.value
    if report.when == "call" and report.failed:
        excerpts: List[Optional[Excerpt]] = [*state.excerpts] or [None] * len(state.servers)
        stale = [line for server, excerpt in zip(state.servers, excerpts) for line in stale_lines(server, excerpt)]
        faults = [line for server in state.servers for line in fault_lines(server)]
        for title, lines in (("queries that saw less than was written", stale), ("faults on purpose", faults)):
            if lines:
                report.sections.append((title, "\n".join(lines)))
    if report.failed and state.excerpts and state.shows:
        report.sections.append((pytest_reports.TITLE, "\n".join(pytest_reports.report_lines(item, state))))
    if report.when == "call":
        pytest_reports.note_indexes(report, state)


pytest_runtest_makereport: Any = pytest.hookimpl(hookwrapper=True)(_with_what_it_met)


def fault_lines(server: Server) -> List[str]:
    """Which commits met a fault on purpose, and the seed that repeats it."""
    return [line for line in [server._choices.told()] if line]


def stale_lines(server: Server, excerpt: Optional[Excerpt] = None) -> List[str]:
    """For each of the last queries whose results weren't those of all that was written: where it stands, and which writes made the difference. Commits have the
    numbers of the excerpt, if there is one."""
    lines: List[str] = []
    for client, sent, reply, site in list(server._stale)[-_SHOWN:]:
        effects = reply._stale.effects() if reply._stale is not None else {}
        what = f"query of {sent.get('kind') or 'all kinds'}" if sent["op"] == "query" else f"gql {sent['text']!r}"
        for effect, told in ((FOUND, "would have found"), (GONE, "would not have found")):
            writes = [write for write, its in effects.items() if its == effect]
            if writes:
                lines.append(f"{site}: the {what} has no ancestor; with what wasn't applied yet it {told}:")
                lines += [f"    {write.told(excerpt.commit(write.commit) if excerpt is not None else write.commit)}" for write in writes[:_SHOWN]]
            if len(writes) > _SHOWN:
                lines.append(f"    and {len(writes) - _SHOWN} more")
    return lines
