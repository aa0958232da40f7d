"""What a server's replies to a round say: the reply or the refusal of each line, commits, open transactions, and queries that missed something."""
from typing import TYPE_CHECKING, Any, Dict, List, Optional, Sequence, Set

from .choices import Request
from .client import Client
from .journal import Site, Write
from .refusals import MissingIndex, Refused, refusal
from .replies import Reply
from .rounds import Asked, Pending
from .spaces import space_out
from .values import Key
from .wire import key_in

if TYPE_CHECKING:
    from .server import Server

# A report of pytest shows the test's own lines, and none of these.
__tracebackhide__ = True


def take(
    server: "Server",
    asked: Sequence[Asked],
    pendings: Sequence[Pending],
    requests: Sequence[Request],
    owners: Sequence[Optional[int]],
    members: Sequence[Dict[str, Any]],
) -> None:
    """Gives each line that was asked its reply of these members, and keeps what they say of commits and transactions. `owners` tells to which line
    that was asked each reply belongs; one to a line of the driver's own belongs to none."""
    writes: List[Write] = []
    unsettled: Set[int] = set()
    for owner, told in zip(owners, members):
        if owner is None:
            if "error" not in told:
                unsettled.discard(told["client"])
            continue
        client, sent = asked[owner]
        reply = _reply(server, client, sent, told)
        request = requests[owner]
        for recorder in server._recorders:
            recorder.asked_at(told["line"], request.site)
        write = _hear(server, client, sent, reply, request.site)
        if write is not None:
            write.request, write.name = request.number, request.name
            writes.append(write)
            unsettled.add(client.number)
        server._choices.answered(request, told)
        if "results" in told:
            server._index_use.served(sent)
        fault = _refused(server, client, sent, reply) if "error" in told else server._steering.withheld(request, write)
        pendings[owner]._answer(reply, fault)
    server._steering.draw(writes, bool(unsettled))
    server._journal.record(writes)
    for owner, told in zip(owners, members):
        reply_or_none = pendings[owner]._reply if owner is not None else None
        if owner is not None and reply_or_none is not None and "results" in reply_or_none._members and "applied" in reply_or_none._members:
            client, sent = asked[owner]
            reply_or_none._is_stale(server._journal, sent, told["results"])
            if reply_or_none._stale is not None:
                server._stale.append((client, sent, reply_or_none, requests[owner].site))
    server._steering.hear([asked[owner] if owner is not None else None for owner in owners], members)


def _reply(server: "Server", client: Client, sent: Dict[str, Any], told: Dict[str, Any]) -> Reply:
    select = sent.get("select")
    projected = isinstance(select, list)
    if sent["op"] == "gql":
        words = sent["text"].split(None, 2)
        projected = len(words) > 1 and words[0].upper() == "SELECT" and not words[1].startswith("*")
    return Reply(told, client.namespace, projected, server._many_of_all | server._many.get(client.namespace, set()))


def _hear(server: "Server", client: Client, sent: Dict[str, Any], reply: Reply, site: Site) -> Optional[Write]:
    """Keeps what a reply says of the client's transaction; gives the commit that it tells."""
    op, session, told = sent["op"], server._sessions[client.number], reply._members
    if "error" in told:
        if told["name"] in ("Conflict", "Expired"):
            session.end(told["name"])
        return None
    if op == "begin":
        session.begin(bool(sent.get("xg")), site)
    elif op == "rollback":
        session.end(op)
    elif op == "commit":
        written = session.written
        session.end(op)
        return Write(told["commit"], client.number, op, written, site, told["line"])
    elif op in ("put", "delete"):
        key = _absolute(told["key"], client.namespace)
        content = sent["entity"]["properties"] if op == "put" else None
        if "commit" in told:
            return Write(told["commit"], client.number, op, {key: content}, site, told["line"])
        session.written[key] = content
        session.touched[key.root] = None
        if op == "put" and len(key.path) == 1 and sent["entity"]["key"][-1][1] is None:
            session.drawn[key.root] = None
    elif session.is_open and (sent.get("key") or sent.get("ancestor")):
        session.touched[key_in(sent.get("key") or sent["ancestor"], client.namespace).root] = None
    return None


def _refused(server: "Server", client: Client, sent: Dict[str, Any], reply: Reply) -> Refused:
    refused = refusal(reply, sent, client.namespace, server.shards)
    session = server._sessions[client.number]
    if refused.name == "Conflict":
        refused.writer = server._journal.writer(reply.commit)
    refused.begun = session.begun if session.is_open else None
    refused.touched = tuple(session.touched)
    if isinstance(refused, MissingIndex):
        server._index_use.missing[refused.index_yaml] = None
        add = server._second.add if server._second.serves else server._indexes.add
        refused.added_to = add(refused.index_yaml)
    return refused


def _absolute(key: Key, namespace: str) -> Key:
    """The key with the server's namespace written out."""
    return Key(*(word for pair in key.path for word in pair), namespace=space_out(key.namespace, namespace))
