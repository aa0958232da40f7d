"""Rounds: lines of several clients that the server is given at once."""
import contextlib
from typing import TYPE_CHECKING, Any, Callable, Dict, Iterator, List, NoReturn, Optional, Tuple, Type, Union

from .client import Client, Requests
from .errors import TorfyllanError, UnknownCommit
from .journal import Site, calling_site
from .refusals import Refused
from .replies import Reply

if TYPE_CHECKING:
    from .server import Server

# A report of pytest shows the test's own lines, and none of these.
__tracebackhide__ = True


class Pending:
    """A request of a round: once the round has run, `reply` gives its reply or raises its refusal."""

    def __init__(self) -> None:
        self._reply: Optional[Reply] = None
        self._refusal: Union[Refused, UnknownCommit, None] = None

    def _answer(self, reply: Reply, refusal: Union[Refused, UnknownCommit, None]) -> None:
        self._reply, self._refusal = reply, refusal

    def _ran(self) -> Reply:
        if self._reply is None:
            raise TorfyllanError("the round has not been run: leave its `with` block first")
        return self._reply

    @property
    def reply(self) -> Reply:
        """The reply; a refusal is raised, and an `UnknownCommit` where it was withheld on purpose."""
        reply = self._ran()
        if self._refusal is not None:
            raise self._refusal
        return reply

    @property
    def refused(self) -> Union[Refused, UnknownCommit, None]:
        """The refusal, or None; an `UnknownCommit` where the reply was withheld on purpose."""
        self._ran()
        return self._refusal

    def __repr__(self) -> str:
        return f"Pending({self._reply!r})"


Asked = Tuple[Client, Dict[str, Any]]


class ClientOfRound(Requests[Pending]):
    """A client whose calls are collected, and answered together."""

    def __init__(self, client: Client, collected: "Round") -> None:
        self._server = client._server
        self.number = client.number
        self.namespace = client.namespace
        self._client = client
        self._round = collected

    def _send(self, asked: Dict[str, Any]) -> Pending:
        self._server._sessions[self.number].check(asked["op"])
        return self._round._add(self._client, asked)

    def apply(self, shard: int = 0) -> Pending:
        """Applies one entry of a shard, where one waits."""
        if not isinstance(shard, int):
            raise TorfyllanError("a round is sent as a whole, and how many entries wait is known in between: give apply a shard, or call it outside")
        return self._ask("apply", shard=shard)

    @contextlib.contextmanager
    def transaction(self, xg: bool = False) -> Iterator[NoReturn]:
        """Refused: a round has no place in between at which a block could end."""
        raise TorfyllanError("a round is sent as a whole: use begin and commit in it")
        yield

    def run_in_transaction(self, work: Callable[[], Any], *, xg: bool = False, tries: int = 4) -> NoReturn:
        """Refused, as `transaction` is."""
        raise TorfyllanError("a round is sent as a whole: use begin and commit in it")


class Round:
    """Lines of several clients that the server runs at once; each client's lines are answered in their order.

        with server.round() as round:
            first = round.client(client).put(Key("T", "a"))
            second = round.client(other).get(Key("T", "a"))
        print(first.reply.commit, second.reply.entity)

    Where lines are refused, the first refusal is raised at the end of the block, once all are answered; `raises=False` leaves
    each to its `refused`.
    """

    def __init__(self, server: "Server", raises: bool = True, split: bool = False) -> None:
        self._server = server
        self._raises = raises
        self._split = split
        self._asked: List[Asked] = []
        self._sites: List[Site] = []
        self._pendings: List[Pending] = []

    def _add(self, client: Client, asked: Dict[str, Any]) -> Pending:
        pending = Pending()
        self._asked.append((client, asked))
        self._sites.append(calling_site())
        self._pendings.append(pending)
        return pending

    def client(self, client: Union[Client, int]) -> ClientOfRound:
        """The client, or the client of this number, with calls that are collected for this round."""
        return ClientOfRound(client if isinstance(client, Client) else self._server.client(client), self)

    def __enter__(self) -> "Round":
        return self

    def __exit__(self, kind: Optional[Type[BaseException]], error: Optional[BaseException], trace: Any) -> None:
        if kind is not None:
            return
        self._server._ask_round(self._asked, self._pendings, self._sites, split=self._split)
        refused = [pending.refused for pending in self._pendings if pending.refused is not None]
        if refused and self._raises:
            refused[0].others = len(refused) - 1
            raise refused[0]
