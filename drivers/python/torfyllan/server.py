"""The server, as a test has it: its clients, its rounds, and how it is started."""
import collections
import contextlib
import os
import tempfile
import threading
import weakref
from typing import Any, Collection, Deque, Dict, Iterator, List, Optional, Sequence, Set, Tuple, Type, Union

from . import indexes as index_files
from .arguments import check_arguments, check_client
from .auditing import Audit
from .choices import Chance, Choices, Request
from .client import Client
from .consistency import Consistency
from .drawing import Drawing
from .errors import ServerFailed, TorfyllanError
from .hearing import take
from .index_use import IndexUse
from .journal import DRIVER, Journal, Session, Site, calling_site
from .keeping import UNDRAWN, Keeping
from .lines import line_of, rounds_of
from .log import Log, Recorder
from .process import Process, Tell, found_program, tell_on_stderr
from .replies import Reply
from .rounds import Asked, Pending, Round
from .second_indexes import SecondIndexes, too_many_rows
from .shards import FIRST_DRAWN, LAST_ID, even_start
from .steering import Counts, Steering, has_ancestor
from .wire import lists_of

# A report of pytest shows the test's own lines, and none of these.
__tracebackhide__ = True

CLIENTS = 16
"""How many clients a server has; they are numbered from 0."""

_STALE_KEPT = 100


class Server:
    """A server as a context manager.

    `indexes` is the name of an index file, or its text, in any form that App Engine's tools read; where it isn't given there are no composite
    indexes. `auto_index` adds the entry of each `MissingIndex` to that file. `shards` is 1 to 16: a get, and a query with an ancestor,
    first apply what waits in the shard of their group, so with one shard any of them shows every earlier write to all queries; with the
    sixteen that are the default here a stale read stays stale for longer. `appliers` is the number of background appliers: with none, which
    is the default, a write is applied when a test says so, by `settle`, `apply` or a read that is up to date, and so each run of a test shows
    the same. `window` is how many entries a shard keeps its states after, 1 to
    65,536: once so many were applied since a transaction touched a group, a read of it there is `Expired`.
    `next_indexes` is a second index file, as `indexes` gives the first: its indexes are built while the first one serves, and from the call of
    `use_next_indexes` on it serves. That call has to come within the first `after` rounds, 1 to 9,999, and 1,000 where it isn't given; a call of a
    client is a round.

    `consistency` is `"explicit"` (as just told), `"strong"` (each write is applied before its call returns), or a share from 0 to 1 of the writes
    that are applied so, drawn by `seed`. `conflicts` and `unknown_commits` are shares of commits, drawn by `seed` too: before that of a transaction
    another client writes to a group that it touched, or a commit is made and its reply withheld, as an `UnknownCommit`. `many` names properties that are lists in each reply, as `"Task.tags"`, or `"tags"` of every kind.
    `kept` is the name of a file that keeps all that is committed: a later server over it begins with that, applied, also where this one was killed.
    A file that can't be served, as one that another server has, is a `KeptFileError`.
    `log` is the name of a file, as `run.jsonl`, that keeps the talk (see `torfyllan.log.Log`). `draw` is the name of a file, as `run.html`: a page
    that shows the run is written there when the server ends. With `audit` the talk is kept, and held against the definitions when the server ends:
    `stop`, `kill`, and the end of a `with` block, raise `NotLegal` where a reply is none that a legal run could give; what a build of the auditor
    tells goes to `tell`.

    `program` is the program, or a list of it and its first words; else it is what the environment's TORFYLLAN names, or `run` of the repository that
    this package stands in, which builds the server the first time: `start_timeout` seconds are given to it, and `tell` is called with
    the progress, which goes to standard error where it isn't given. A reply that doesn't come within `timeout` seconds is a `ServerFailed`.

    Several threads may use it, a client number each: their rounds are sent one after another.
    """

    def __init__(
        self,
        *,
        indexes: Union[str, "os.PathLike[str]", None] = None,
        auto_index: bool = False,
        next_indexes: Union[str, "os.PathLike[str]", None] = None,
        after: Optional[int] = None,
        shards: int = 16,
        appliers: int = 0,
        window: Optional[int] = None,
        consistency: Union[str, float] = "explicit",
        conflicts: float = 0.0,
        unknown_commits: float = 0.0,
        seed: int = 0,
        many: Collection[Any] = (),
        kept: Union[str, "os.PathLike[str]", None] = None,
        log: Optional[str] = None,
        draw: Union[str, "os.PathLike[str]", None] = None,
        audit: bool = False,
        program: Any = None,
        timeout: float = 60.0,
        start_timeout: float = 7200.0,
        tell: Optional[Tell] = None,
    ) -> None:
        check_arguments(shards=shards, appliers=appliers, window=window, timeout=timeout, start_timeout=start_timeout, seed=seed)
        self.shards = shards
        self.appliers = appliers
        self.window = window
        self._keeping = Keeping(kept) if kept is not None else None
        self._program: Optional[Sequence[str]] = [os.fspath(program)] if isinstance(program, (str, os.PathLike)) else program
        self._indexes = index_files.Given(indexes, auto_index)
        self._second = SecondIndexes(next_indexes, after, auto_index)
        if kept is not None and next_indexes is not None:
            raise ValueError("a server that keeps a file has one index file: give it kept= or next_indexes=")
        self._consistency = Consistency(consistency, seed)
        self._choices: Choices = Chance(conflicts, unknown_commits, seed)
        self._many_of_all = set(lists_of(many))
        self._audit = Audit(tell or tell_on_stderr) if audit else None
        self._recorders: List[Recorder] = [*([Log(log)] if log is not None else []), *([Drawing(draw)] if draw is not None else [])]
        if self._audit is not None:
            self._recorders.append(self._audit)
        self._timeout = timeout
        self._start_timeout = start_timeout
        self._tell = tell or tell_on_stderr
        self._lock = threading.RLock()
        self._folder: Optional["tempfile.TemporaryDirectory[str]"] = None
        self._process: Optional[Process] = None
        self._owner = os.getpid()
        self._image: Optional[Dict[str, Any]] = None
        self._clients: Dict[Tuple[int, str], Client] = {}
        self._forget()

    def _forget(self) -> None:
        """What is known of a run, as before its first line."""
        self._line = 1
        self._second.restart()
        self._journal = Journal(self.shards)
        self._sessions = [Session() for _ in range(CLIENTS)]
        self._many: Dict[str, Set[Tuple[str, str]]] = {}
        self._consistency.restart()
        self._choices.restart()
        self._steering = Steering(self)
        self._index_use = IndexUse()
        self._stale: Deque[Tuple[Client, Dict[str, Any], Reply, Site]] = collections.deque(maxlen=_STALE_KEPT)

    # -- starting and stopping

    def __enter__(self) -> "Server":
        return self.start()

    def __exit__(self, kind: Optional[Type[BaseException]], error: Optional[BaseException], trace: Any) -> None:
        if kind is None:
            self.stop()
            return
        self._end_now()
        self._raise_fault(error)

    @property
    def kept(self) -> Optional[str]:
        """The absolute name of the file in which the journal is kept; None where nothing is kept."""
        return self._keeping.file if self._keeping is not None else None

    @property
    def is_alive(self) -> bool:
        """Whether the program is running."""
        return self._process is not None and self._process.is_alive

    def start(self) -> "Server":
        """Starts the program, and waits until it has answered a first line. A wrong index file is an `IndexFileError`."""
        if self._process is not None:
            raise TorfyllanError("this server has been started before: make another one, or call reset()")
        return self._start()

    def _start_again(self) -> None:
        """Starts the program of a server that has ended, as `start` does. Clients that were made stay good."""
        self._close()
        self._start()

    def _start(self) -> "Server":
        self._read_index_files()
        program = self._found_program()
        self._folder, self._owner = tempfile.TemporaryDirectory(prefix="torfyllan-"), os.getpid()
        _STARTED.add(self)
        try:
            self._launch([*program, *self._words()], None)
        except BaseException:
            self._end_now()
            raise
        assert self._process is not None
        self._image = self._process.image()
        if self._audit is not None:
            self._audit.is_unproved = self._image is not None and self._image["executable"].endswith(".unproved")
        return self

    def _read_index_files(self) -> None:
        self._indexes.read()
        self._second.read()

    def _found_program(self) -> List[str]:
        return list(self._program or found_program("TORFYLLAN_KEPT" if self._keeping is not None else self._second.variable))

    def _plain_words(self) -> List[str]:
        given = (("--shards", self.shards), ("--appliers", self.appliers), ("--window", self.window))
        return [word for name, value in given if value is not None for word in (name, str(value))]

    def _words(self) -> List[str]:
        assert self._folder is not None
        words = [*(self._keeping.words if self._keeping is not None else []), *self._second.words(self._folder.name), *self._plain_words()]
        if self._indexes.text is not None:
            name = os.path.join(self._folder.name, "index.yaml")
            with open(name, "w", encoding="utf-8") as file:
                file.write(self._indexes.text)
            words += ["--indexes", name]
        return words

    def _launch(self, words: Sequence[str], executable: Optional[str]) -> None:
        """Starts the program, and has a first line answered."""
        assert self._folder is not None
        self._forget()
        copy = self._keeping.copied(self._folder.name) if self._keeping is not None and self._recorders else None
        self._process = Process(words, os.path.join(self._folder.name, "stderr"), executable, self.kept)
        for recorder in self._recorders:
            recorder.begin(self._plain_words(), self._indexes.text, copy)
            if self._second.change is not None:
                recorder.changes_indexes(*self._second.change)
        try:
            (settled,) = self._ask_round([(self.client(0), {"client": 0, "op": "settle"})], sites=[DRIVER], seconds=self._start_timeout, tell=self._tell)
        except ServerFailed as failed:
            self._indexes.explain(str(failed))
            self._second.explain(str(failed))
            raise
        if self._keeping is not None:
            # All that was found is applied from now on. A put that is refused tells which id is drawn next.
            self._journal = Journal(self.shards, settled.reply.place, settled.reply.applied)
            self._exchange([line_of(UNDRAWN, "")], self._timeout, None)

    def reset(self) -> None:
        """Starts the program anew, within some hundredths of a second: no entity, commit or open transaction is left, ids are drawn from
        the first on, and the index file is read again. Clients that were made stay good. Where a file is kept, all that was committed is there again."""
        self._check_owner()
        with self._lock:
            if self._process is None or self._folder is None:
                raise TorfyllanError("the server isn't running: start() it first")
            self._process.kill()
            self._end_recorders()
            self._read_index_files()
            words = self._words()
            try:
                if self._image is not None and os.path.exists(self._image["executable"]):
                    self._launch(self._image["words"], self._image["executable"])
                else:
                    self._launch([*self._found_program(), *words], None)
            except BaseException:
                self._end_now()
                raise

    def stop(self) -> None:
        """Ends the input, and waits for the server's end. A status that isn't 0 is a `ServerFailed`, and an audited run that isn't legal `NotLegal`."""
        if self._process is None or self._folder is None or self._owner != os.getpid():
            return
        try:
            self._process.stop(self._timeout)
        finally:
            self._close()
        self._raise_fault()

    def kill(self) -> None:
        """Ends the server at once. An audited run that isn't legal is a `NotLegal`, as in `stop`."""
        self._end_now()
        self._raise_fault()

    def _check_owner(self) -> None:
        """Refuses a process that was forked from the one that started the server: two can't share its pipes."""
        if self._owner != os.getpid():
            raise ServerFailed(f"this server was started by the process {self._owner}, of which this one, {os.getpid()}, is a fork: start a server here too, by Server().start()")

    def _end_now(self) -> None:
        if self._owner != os.getpid():
            return
        if self._process is not None:
            self._process.kill()
        self._close()

    def _raise_fault(self, cause: Optional[BaseException] = None) -> None:
        if self._audit is not None and self._audit.fault is not None:
            fault, self._audit.fault = self._audit.fault, None
            raise fault from cause

    def _close(self) -> None:
        if self._folder is not None:
            self._end_recorders()
            self._folder.cleanup()
            self._folder = None

    def _end_recorders(self) -> None:
        for recorder in self._recorders:
            recorder.end()

    # -- clients and rounds

    def client(self, number: int = 0, *, namespace: str = "") -> Client:
        """A client of this number, from 0 to 15. All that it names without a namespace stands in this one."""
        check_client(number, namespace, CLIENTS)
        return self._clients.setdefault((number, namespace), Client(self, number, namespace))

    def clients(self) -> List[Client]:
        """The clients that were made."""
        return list(self._clients.values())

    def round(self, *, raises: bool = True) -> Round:
        """A round of several clients' lines. With `raises=False` no refusal is raised at its end: each is the `refused` of its line."""
        return Round(self, raises)

    def _long_round(self) -> Round:
        """Lines that are sent as one round, or as several where they are too many."""
        return Round(self, split=True)

    def use_next_indexes(self) -> None:
        """Has the second index file serve from the next line on: ends the rounds up to `after` by lines that ask nothing, and waits until the server has
        changed. Open transactions, ids and what clients have seen go on, and all that was committed is applied. Where an entity has too many index
        rows under the second file the server ends, as a `ServerFailed` that names its commit."""
        self._check_owner()
        with self._lock:
            self._second.use(self)

    @property
    def serves_next_indexes(self) -> bool:
        """Whether the second index file serves."""
        return self._second.serves

    def reserve_ids(self, above: int) -> None:
        """Sees to it that ids up to this one, which entities of another store have, can be put, and that the server draws only greater ones."""
        if not 1 <= above < LAST_ID:
            raise ValueError(f"ids are 1 to {LAST_ID - 1}, and not {above}")
        if above < FIRST_DRAWN:
            return
        with self._lock:
            client = self.client(0)
            first = client.allocate_ids(1).first
            if first < above:
                client.allocate_ids(above - first)

    def _even_ids(self) -> int:
        """Draws ids so that the groups of those that come next have the shards that they have on a new server; gives the next one."""
        with self._lock:
            first = self._steering.next_id
            start = even_start(first)
            if start is not None and start > first:
                self.client(0).allocate_ids(start - first)
            return self._steering.next_id

    @contextlib.contextmanager
    def without_faults(self) -> Iterator[None]:
        """A block in which no commit meets a fault on purpose: for what a test sets up."""
        with self._lock:
            kept, self._choices = self._choices, Choices()
        try:
            yield
        finally:
            self._choices = kept

    def _note_many(self, namespace: str, kind: str, name: str) -> None:
        self._many.setdefault(namespace, set()).add((kind, name))

    # -- a round

    def _ask_round(
        self,
        asked: Sequence[Asked],
        pendings: Optional[Sequence[Pending]] = None,
        sites: Optional[Sequence[Site]] = None,
        split: bool = False,
        seconds: Optional[float] = None,
        tell: Optional[Tell] = None,
    ) -> Sequence[Pending]:
        """Sends lines as one round, or where `split` as several, and gives each its reply."""
        pendings = pendings if pendings is not None else [Pending() for _ in asked]
        sites = sites if sites is not None else [calling_site()] * len(asked)
        self._check_owner()
        with self._lock:
            if asked and (self._process is None or self._folder is None):
                never = "the server isn't running: start() it, or use it in a `with` block"
                raise ServerFailed(self._process.why if self._process is not None else never)
            requests = [self._choices.request(client.number, members, client.namespace, site) for (client, members), site in zip(asked, sites)]
            if self._choices.has_faults:
                self._steering.conflict(asked, requests)
            lines, owners = self._lines(asked, requests)
            for first, end in rounds_of(lines, split):
                members = self._exchange(lines[first:end], seconds or self._timeout, tell)
                take(self, asked, pendings, requests, owners[first:end], members)
                self._steering.apply_due()
        return pendings

    def _lines(self, asked: Sequence[Asked], requests: Sequence[Request]) -> Tuple[List[bytes], List[Optional[int]]]:
        """The lines to send, and to which of the asked each belongs; what the driver adds belongs to none: a settle that the consistency has behind
        a write, and what a schedule applies before a query."""
        lines: List[bytes] = []
        owners: List[Optional[int]] = []
        decides_queries, counts = self._choices.decides_queries, Counts(len(asked) == 1)
        open_now = {number: session.is_open for number, session in enumerate(self._sessions)}
        for place, (client, members) in enumerate(asked):
            op, number = members["op"], client.number
            if decides_queries and op in ("query", "gql") and not open_now[number] and not has_ancestor(members):
                added = self._steering.lines_before(requests[place], counts)
                lines += [line_of(one, "") for one in added]
                owners += [None] * len(added)
            lines.append(line_of(members, client.namespace))
            owners.append(place)
            if op == "begin" or op in ("commit", "rollback"):
                open_now[number] = op == "begin"
            is_strong = self._consistency.is_strong and not decides_queries
            if is_strong and (op == "commit" or (op in ("put", "delete") and not open_now[number])):
                lines.append(line_of({"client": number, "op": "settle"}, ""))
                owners.append(None)
        return lines, owners

    def _exchange(self, lines: Sequence[bytes], seconds: float, tell: Optional[Tell]) -> List[Dict[str, Any]]:
        """Sends a round, and gives the replies' members in the order of its lines."""
        first, self._line = self._line, self._line + len(lines) + 1
        numbers = range(first, first + len(lines))
        try:
            replied = self._talk(b"".join(line + b"\n" for line in lines) + b"\n", 1, len(lines), seconds, tell)
            assert self._process is not None
            by_line = {reply.get("line"): reply for reply in map(self._process.reply_in, replied)}
            missing = [number for number in numbers if number not in by_line]
            if missing:
                self._process.fail(f"line {missing[0]} got no reply")
        except BaseException:
            # Whatever went wrong in the middle of a round has ended the server.
            self._end_now()
            raise
        replies = [by_line[number] for number in numbers]
        for told in replies:
            self._steering.hear_ids(told)
        return replies

    def _talk(self, text: bytes, rounds: int, count: int, seconds: float, tell: Optional[Tell] = None) -> List[bytes]:
        """Sends so many rounds, which have this text together, and gives so many replies."""
        if self._process is None:
            raise ServerFailed("the server isn't running: start() it, or use it in a `with` block")
        if self._second.is_next:
            self._steering.hear_all_applied()
        for recorder in self._recorders:
            recorder.asked(text)
        try:
            replied = self._process.talk(text, count, seconds, tell)
        except ServerFailed as failed:
            raise too_many_rows(failed, self._journal) from failed.__cause__
        self._second.rounds += rounds
        for recorder in self._recorders:
            recorder.answered(replied)
        return replied


_STARTED: "weakref.WeakSet[Server]" = weakref.WeakSet()


def _leave_to_parent() -> None:
    """In a process that was forked: the folders of servers are the parent's to remove."""
    for server in _STARTED:
        if server._folder is not None:
            server._folder._finalizer.detach()  # type: ignore[attr-defined]


if hasattr(os, "register_at_fork"):
    os.register_at_fork(after_in_child=_leave_to_parent)
