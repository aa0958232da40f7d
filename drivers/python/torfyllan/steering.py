"""How a server does what its choices say: conflicts by another client, replies that are withheld, and what is applied before a query.

Each is done by lines of the protocol, so it stands in the log of the run, and the audit judges it with the rest. A conflict is a delete, by a
client that has no open transaction, of a key that isn't there in a group that the transaction touched. A withheld reply is that of a commit that
is made. Before a query the entries that it is to see are applied one by one, by its own client.
"""
import re
from typing import TYPE_CHECKING, Any, Dict, List, Optional, Sequence

from .choices import Request
from .errors import UnknownCommit
from .journal import OnPurpose, Session, Write
from .lines import line_of
from .shards import FIRST_DRAWN, shard_of
from .values import Key
from .wire import key_in, key_out

if TYPE_CHECKING:
    from .rounds import Asked
    from .server import Server

# A report of pytest shows the test's own lines, and none of these.
__tracebackhide__ = True

NOTHING = "torfyllan.nothing"
"""The kind and name of the key that isn't there, and the kind that a query asks for which only tells what is applied."""

_QUOTED = re.compile(r"'(?:[^']|'')*'|\"[^\"]*\"")
_ANCESTOR = re.compile(r"\bANCESTOR\s+IS\b", re.IGNORECASE)


def has_ancestor(asked: Dict[str, Any]) -> bool:
    """Whether a query or a GQL text asks below an ancestor."""
    if asked["op"] != "gql":
        return asked.get("ancestor") is not None
    return _ANCESTOR.search(_QUOTED.sub("''", asked["text"])) is not None


class Steering:
    """What the driver does of its own accord in a round of a server."""

    def __init__(self, server: "Server") -> None:
        self._server = server
        self._applied = [0] * server.shards
        self._is_exact = True
        self._due: Dict[Key, None] = {}
        self._settle_due = False
        self.next_id = FIRST_DRAWN

    # -- what the consistency applies

    def draw(self, writes: Sequence[Write], is_unsettled: bool) -> None:
        """Keeps what the consistency wants applied behind these commits of a round; `is_unsettled` says that no settle stood behind some of them."""
        consistency = self._server._consistency
        if self._server._choices.decides_queries:
            return
        self._settle_due = self._settle_due or (consistency.is_strong and is_unsettled)
        if consistency.share is None:
            return
        for write in writes:
            for root in {key.root: None for key in write.keys}:
                if consistency.draw(root.namespace or ""):
                    self._due[root] = None

    def apply_due(self) -> None:
        """Applies it, by a client that has no open transaction; where all have one, it waits for the next round."""
        server = self._server
        if not self._due and not self._settle_due:
            return
        free = next((number for number, session in enumerate(server._sessions) if not session.is_open), None)
        if free is None:
            return
        lines: List[Dict[str, Any]] = [{"client": free, "op": "settle"}] if self._settle_due else []
        lines += [{"client": free, "op": "get", "key": key_out(root, "")} for root in self._due]
        self._due, self._settle_due = {}, False
        replies = server._exchange([line_of(members, "") for members in lines], server._timeout, None)
        self.hear([(server.client(free), members) for members in lines], replies)

    # -- conflicts

    def conflict(self, asked: Sequence["Asked"], requests: Sequence[Request]) -> None:
        """Before a round: has another client write where a commit of it is to conflict."""
        server, decided = self._server, set()
        for (client, members), request in zip(asked, requests):
            session = server._sessions[client.number]
            if members["op"] != "commit" or not session.is_open or client.number in decided:
                continue
            decided.add(client.number)
            group, other = _known_group(session), self._other()
            if group is None or other is None or not server._choices.conflicts(request):
                continue
            self._write_beside(other, key_out(group, client.namespace), request)

    def _other(self) -> Optional[int]:
        """A client without an open transaction, the last of them: tests use the first ones."""
        sessions = self._server._sessions
        return next((number for number in reversed(range(len(sessions))) if not sessions[number].is_open), None)

    def _write_beside(self, other: int, group: List[Any], request: Request) -> None:
        server = self._server
        lines = [{"client": other, "op": "delete", "key": [*group, [NOTHING, NOTHING]]}]
        if server._consistency.is_strong:
            lines.append({"client": other, "op": "settle"})
        replies = server._exchange([line_of(members, "") for members in lines], server._timeout, None)
        told = replies[0]
        if "commit" in told:
            space = group[0] if isinstance(group[0], str) else ""
            key = Key(*group[-1], NOTHING, NOTHING, namespace=space)
            site = OnPurpose(f"{request.site}, on purpose, so that the commit there conflicts")
            server._journal.record([Write(told["commit"], other, "delete", {key: None}, site, told["line"])])
        self.hear([None] * len(replies), replies)

    # -- replies that are withheld

    def withheld(self, request: Request, write: Optional[Write]) -> Optional[UnknownCommit]:
        """The error in place of the reply of a commit that is made; None where its reply comes."""
        if write is None or not write.keys or not self._server._choices.withholds(request):
            return None
        return UnknownCommit(write.commit, f"{write.op} of client {write.client} at {write.site}")

    # -- what is applied, and which ids are drawn

    @property
    def is_all_applied(self) -> bool:
        """Whether nothing is known to wait."""
        return self._applied == self._server._journal.counts()

    def hear_ids(self, told: Dict[str, Any]) -> None:
        """Keeps up to which id the server has drawn, as a reply tells."""
        if told.get("ok") == "allocate_ids":
            self.next_id = max(self.next_id, told["first"] + told["count"])
        elif told.get("ok") == "put" and len(told["key"]) and isinstance(told["key"][-1][1], int):
            self.next_id = max(self.next_id, told["key"][-1][1] + 1)
        elif told.get("name") == "IdNotIssued":
            self.next_id = max(self.next_id, told["next"])

    def hear(self, sent: Sequence[Optional["Asked"]], told: Sequence[Dict[str, Any]]) -> None:
        """Keeps what the replies of a round tell of what is applied, once its commits are in the journal. A line of the driver's own has no request
        here. Where a query sees more or less than the replies before it tell, these don't suffice: then the server is asked before each query that is
        decided on."""
        is_ordered = len({reply.get("client") for reply in told}) == 1
        for asked, reply in zip(sent, told):
            counts = reply.get("applied")
            if isinstance(counts, list):
                self._is_exact = self._is_exact and (not is_ordered or reply["ok"] == "settle" or counts == self._applied)
                for shard, count in enumerate(counts):
                    self._hear_count(shard, count)
            elif reply.get("ok") == "apply":
                self._hear_count(reply["shard"], reply["count"])
            elif asked is not None and reply.get("ok") in ("get", "query", "gql"):
                self._hear_read(asked, reply["place"])

    def hear_all_applied(self) -> None:
        """All that is committed is applied, as where the server goes on with a second index file."""
        for shard, count in enumerate(self._server._journal.counts()):
            self._hear_count(shard, count)

    def _hear_read(self, asked: "Asked", place: int) -> None:
        """A read that was up to date has applied what the shard of its group had at its place."""
        client, members = asked
        named = members.get("key") or members.get("ancestor")
        if named is None:
            self._is_exact = False
            return
        shard = shard_of(key_in(named, client.namespace), self._server.shards, client.namespace)
        self._hear_count(shard, self._server._journal.count_at(shard, place))

    def _hear_count(self, shard: int, count: int) -> None:
        before = self._applied[shard]
        if count > before:
            self._server._journal.forget(shard, before, count)
            self._applied[shard] = count

    # -- what is applied before a query

    def lines_before(self, request: Request, counts: "Counts") -> List[Dict[str, Any]]:
        """The lines that go before a query of this round. `counts` tells what is applied by then, and is brought up to date."""
        server = self._server
        if counts.applied is None:
            counts.applied = self._applied if self._is_exact or self.is_all_applied else self._probed(request)
        sight = server._choices.missed(request, server._journal.behind(counts.applied))
        if not counts.is_alone and not sight.misses:
            # What the round itself writes before the query is applied too.
            counts.applied = server._journal.counts()
            return [{"client": request.client, "op": "settle"}]
        counts.applied = [one + more for one, more in zip(counts.applied, sight.applied)]
        return [{"client": request.client, "op": "apply", "shard": shard} for shard, count in enumerate(sight.applied) for _ in range(count)]

    def _probed(self, request: Request) -> List[int]:
        """How many entries of each shard are applied, as the server tells with a query that finds nothing."""
        server = self._server
        asked = {"client": request.client, "op": "query", "kind": NOTHING, "select": "keys"}
        told = server._exchange([line_of(asked, "")], server._timeout, None)[0]
        counts: List[int] = told["applied"]
        return counts


class Counts:
    """How many entries of each shard are applied as the lines of a round go on; None until it is asked. `is_alone`: the round has one line."""

    def __init__(self, is_alone: bool) -> None:
        self.applied: Optional[List[int]] = None
        self.is_alone = is_alone


def _known_group(session: Session) -> Optional[Key]:
    """A group that the transaction touched and that others can know: not one whose id it drew itself. A read one is rather taken than one that
    it only writes."""
    groups = [group for group in session.touched if group not in session.drawn]
    written = {key.root.path for key in session.written}
    return next((group for group in groups if group.path not in written), groups[0] if groups else None)
