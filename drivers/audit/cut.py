"""The two judgements that together judge a run whose index file changes behind round N.

Until the end of round N each reply answers by the first index file, and from then on by the second; all else that a legal run is stays as it is.
The auditor takes one index file, so it is asked twice:

- `before`: rounds 1 to N, their replies, the first file, and the journal's first commits, those that these replies acknowledge;
- `after`: the whole run, its whole journal, and the second file, where of rounds 1 to N each reply that the index file has a say in is replaced, with
  its line, by one that every index file allows and that shows the client the same.

What is replaced, in `Pairs.replaced`:

- a query or statement that was answered, by one of no results, `"limit":0` without a filter or an order, over the same ancestor or none: its reply has
  the same place or counts, from which alone follows what the client has seen, and which group a transaction touches;
- one that came too late (`Expired`), by the same one, with the reply as it was;
- the reply to a query, statement or put that was refused and changed nothing, by `NoMemory`, which may be the reply to any line and changes nothing;
- an entity that a put wrote in a transaction that ended without a commit, or that wasn't written as no such id was drawn, by one without properties
  under the same key: nobody ever sees it.

So every client stands at the end of round N where it stood, by the first judgement rightly, and the second one goes on from there.
`docs/theorem.md` says why both together are a run with a cut.
"""
import contextlib
import json

from journal_of import ancestor_of, journal, text

BLANK = b" \t\r"
MOST_ROUND_LINES, MOST_ROUND_BYTES, MOST_LINE_BYTES = 65_536, 67_108_864, 2_097_152
CONFLICT, ID_NOT_ISSUED, IDS_EXHAUSTED, EXPIRED, NO_MEMORY = 13, 21, 22, 23, 24
# What a reply that may not be read as JSON, or is of another shape, leads to.
UNREADABLE = (ValueError, KeyError, IndexError, TypeError, AttributeError, RecursionError)


def first_rounds(lines, rounds):
    """How many of these lines, each a text of bytes, stand up to the last one of so many rounds, and how many of them are answered. None where no
    line behind them is answered."""
    ended, count, size, answered, end = 0, 0, 0, 0, 0
    for at, line in enumerate(lines):
        blank = not line.strip(BLANK)
        if ended == rounds and not blank:
            return end, answered
        if blank:
            ended += count > 0 and ended < rounds
            count = size = 0
            continue
        count, size, answered, end = count + 1, size + min(len(line), MOST_LINE_BYTES + 1), answered + 1, at + 1
        if count >= MOST_ROUND_LINES or size >= MOST_ROUND_BYTES:
            ended, count, size = ended + 1, 0, 0
    return None


def lost_puts(replies):
    """The numbers of the lines whose put was in a transaction that no reply says to be committed."""
    lost, open_by = set(), {}
    for line in replies:
        with contextlib.suppress(*UNREADABLE):
            reply = json.loads(line)
            client, said = reply["client"], reply.get("ok")
            if said == "begin":
                open_by[client] = []
            elif said == "put" and client in open_by and "commit" not in reply:
                open_by[client].append(reply["line"])
            elif said == "commit":
                open_by.pop(client, None)
            elif said == "rollback" or reply.get("error") in (CONFLICT, EXPIRED):
                lost.update(open_by.pop(client, ()))
    return lost.union(*open_by.values())


def without_properties(asked):
    return {**asked, "entity": {"key": asked["entity"]["key"], "properties": {}}}


def without_results(asked):
    """A query that any index file serves, over the same ancestor or none, and that finds nothing."""
    ancestor = ancestor_of(asked)
    over = {} if ancestor is None else {"ancestor": ancestor}
    client = {"client": asked["client"]} if asked.get("client") is not None else {}
    return {**over, **client, "kind": "none", "limit": 0, "op": "query"}


def replaced(asked, reply, is_lost):
    """A line and its reply as any index file allows them, of a line as JSON and a reply to it; None for each that stays."""
    op, error = asked.get("op"), reply.get("error")
    if op not in ("query", "gql", "put"):
        return None, None
    if op == "put":
        if error in (ID_NOT_ISSUED, IDS_EXHAUSTED) or (error is None and is_lost):
            return without_properties(asked), None
    elif error is None:
        kept = {name: reply[name] for name in ("applied", "place") if name in reply}
        return without_results(asked), {**kept, "client": reply["client"], "line": reply["line"], "ok": "query", "results": []}
    elif error == EXPIRED:
        return without_results(asked), None
    if error in (None, NO_MEMORY):
        return None, None
    return None, {"client": reply["client"], "error": NO_MEMORY, "line": reply["line"], "name": "NoMemory"}


def compact(members):
    return text(dict(sorted(members.items()))).encode(errors="surrogatepass")


def acknowledged(replies):
    """How many commits these replies tell."""
    count = 0
    for line in replies:
        with contextlib.suppress(*UNREADABLE):
            reply = json.loads(line)
            count += "ok" in reply and "commit" in reply
    return count


def judgements(lines, replies, rounds):
    """What the auditor is to be asked of the bytes of an input and of its replies: for each index file an input, replies and a journal, and the number
    of the last line of these rounds. The second is None where the input has no line behind these rounds."""
    asked, answered, told = lines.split(b"\n"), replies.split(b"\n"), journal(lines, replies)
    early = first_rounds(asked, rounds)
    if early is None:
        return (lines, replies, told), None, len(asked)
    end, count = early
    first, commits = answered[:-1][:count], told.splitlines(keepends=True)
    before = (b"\n".join(asked[:end]), b"".join(it + b"\n" for it in first), b"".join(commits[: acknowledged(first)]))
    lost = lost_puts(answered)
    for at, line in enumerate(first):
        with contextlib.suppress(*UNREADABLE):
            reply = json.loads(line)
            number = reply["line"]
            if 1 <= number <= end:
                new_line, new_reply = replaced(json.loads(asked[number - 1]), reply, number in lost)
                if new_line is not None:
                    asked[number - 1] = compact(new_line)
                if new_reply is not None:
                    answered[at] = compact(new_reply)
    return before, (b"\n".join(asked), b"\n".join(answered), told), end
