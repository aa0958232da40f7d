"""What a run's lines and replies tell: rounds, commits with their writes, transactions, and the entries of each shard."""
import collections
import json

import asked
import keys
from asked import number, read_json

ROUND_LINES, ROUND_BYTES, KEPT_BYTES = 65_536, 67_108_864, 2_097_153
OPS = ("put", "delete", "get", "query", "gql", "begin", "commit", "rollback", "settle", "apply", "allocate_ids", "?", "test", "cut")
# Operations of rows that no line has.
HEADINGS = ("test", "cut")


class Line:
    """A request with its reply: `number` counts from 1 through the whole input, empty lines too; `round` from 1; `client` from 0."""

    def __init__(self, at, round_number, text):
        self.number, self.round, self.text, self.request = at, round_number, text, read_json(text)
        self.answer, self.reply = None, {}
        self.group = self.scope = self.counts = self.transaction = self.read_at = self.over = None

    def understand(self, lines, shards):
        """Reads what is shown of the line. `lines` is the number of the last one: no commit and no place is above it."""
        request, reply = self.request, self.reply
        self.ok = "ok" in reply
        client = number(reply.get("client"), 0, 15)
        self.client = client if client is not None else number(request.get("client"), 0, 15) or 0
        op = reply["ok"] if self.ok else request.get("op")
        self.op = op if op in OPS and op not in HEADINGS else "?"
        self.commit = number(reply.get("commit"), 1, lines)
        self.place = number(reply.get("place"), 0, lines)
        counts = reply.get("applied")
        if isinstance(counts, list) and len(counts) == shards and all(number(count, 0, 2**53) is not None for count in counts):
            self.counts = counts
        entity = request.get("entity")
        self.key = keys.read_key(reply.get("key")) or keys.read_key(request.get("key")) or keys.read_key(entity.get("key") if isinstance(entity, dict) else None)
        if self.op in ("query", "gql"):
            kind, ancestor, self.label = (asked.of_gql if self.op == "gql" else asked.of_query)(request)
            space = request.get("namespace")
            self.scope = space if isinstance(space, str) else "", kind
            self.group = keys.group_of(ancestor) if ancestor else None
        else:
            self.label = keys.cut(json.dumps(self.text[:200])[1:-1]) if self.op == "?" else asked.text_of(self.op, request, self.key)
            self.group = keys.group_of(self.key) if self.key else None


class Heading:
    """A row above the lines of a test, with its name: it has what a line has that asks nothing, and stands with the line below it."""

    op, text, answer, ok, over = "test", "", "", True, None
    group = scope = counts = commit = place = None
    request = reply = {}

    def __init__(self, name, line):
        self.label, self.number, self.client, self.round = name, line.number, line.client, line.round


class Cut(Heading):
    """A row where the second index file begins to serve."""

    op = "cut"

    def __init__(self, line):
        super().__init__("From here on the second index file serves", line)


class Transaction:
    """From begin to its end: first and last line, the first touches as (line, group, place), the writes as (key, is it a delete)."""

    def __init__(self, begin):
        self.first = self.last = begin
        self.touches, self.touched, self.writes, self.contents, self.end = [], set(), [], {}, "open"

    def follow(self, line):
        """Takes the next line of its client; says whether it ends the transaction."""
        self.last = line
        if line.ok and line.group and line.place is not None and line.group not in self.touched:
            self.touched.add(line.group)
            self.touches.append((line, line.group, line.place))
        if line.ok and line.op in ("put", "delete") and line.key:
            self.writes.append((line.key, line.op == "delete"))
            self.contents[line.key] = content_of(line)
        if line.reply.get("name") in ("Conflict", "Expired"):
            self.end = "conflict" if line.reply["name"] == "Conflict" else "expiry"
        elif line.ok and line.op in ("commit", "rollback"):
            self.end = line.op
        return self.end != "open"


def content_of(line):
    """The properties that a put's line gives an entity, as the protocol has them; None of a delete."""
    entity = line.request.get("entity")
    properties = entity.get("properties") if isinstance(entity, dict) else None
    return None if line.op == "delete" else properties if isinstance(properties, dict) else {}


class Commit:
    """The line that was answered with the number, its writes as (key, is it a delete), and the same by entity group, in the groups' order; `contents` are
    the properties of what it wrote by keys, None of what it deleted."""

    def __init__(self, line, writes, contents):
        self.line, self.writes, self.contents, groups = line, writes, contents, {}
        for write in writes:
            groups.setdefault(keys.group_of(write[0]), []).append(write)
        self.groups = {group: groups[group] for group in sorted(groups, key=keys.encoded)}


class Run:
    """A run: `lines` in the order of the input, `commits` by number, `transactions`, and of each shard its `entries` as (commit, group).

    A line's `over` is the commit of another client that a write outside of a transaction wrote over, where its client had read the entity
    before that commit and not since. `shards` is their number; where it isn't given, that of the counts in the replies. `notes` are sentences on what doesn't fit together.
    """

    def __init__(self, lines, replies, shards=None):
        self.lines, self.notes = read_lines(lines), []
        self._read_replies(replies)
        counts = [it.reply["applied"] for it in self.lines if isinstance(it.reply.get("applied"), list)]
        told = collections.Counter(len(it) for it in counts if 1 <= len(it) <= 16)
        self.shards = shards or max(told, key=told.get, default=1)
        if set(told) - {self.shards}:
            self.notes.append(f"Some replies tell counts of {', '.join(map(str, sorted(set(told) - {self.shards})))} shards, and not of {self.shards}: "
                              "they are drawn without them. --shards N says how many there were.")
        self.commits, self.transactions = {}, []
        self._follow()
        self.entries, writers = [[] for _ in range(self.shards)], {}
        for number_of, commit in sorted(self.commits.items()):
            for group in commit.groups:
                self.entries[keys.shard_of(group, self.shards)].append((number_of, group))
            for key, _ in commit.writes:
                last, client = writers.get(key, (0, None))
                if commit.line.read_at is not None and last > commit.line.read_at and client != commit.line.client:
                    commit.line.over = last
                writers[key] = number_of, commit.line.client
        unknown = max(self.commits, default=0) - len(self.commits)
        if unknown:
            self.notes.append(f"No reply tells {unknown} of the commits before the last one; what shards had applied is drawn without them.")

    def _read_replies(self, replies):
        by_number, strange = {line.number: line for line in self.lines}, 0
        for text in replies.split(b"\n"):
            shown = text.decode("utf-8", "backslashreplace")
            reply = read_json(shown)
            line = by_number.get(number(reply.get("line"), 1, 2**53))
            if line and line.answer is None and isinstance(reply.get("ok", reply.get("name")), str):
                line.answer, line.reply = shown, reply
            elif shown.strip():
                strange += 1
        silent = sum(line.answer is None for line in self.lines)
        if strange:
            self.notes.append(f"{strange} lines of the replies answer no line of the requests, or answer one again. Are both files of one run?")
        if silent:
            self.notes.append(f"{silent} of {len(self.lines)} lines have no reply.")

    def _follow(self):
        last, open_ones, read_at = self.lines[-1].number if self.lines else 0, {}, {}
        for line in self.lines:
            line.understand(last, self.shards)
            if line.ok and line.op == "begin":
                open_ones[line.client] = Transaction(line)
                self.transactions.append(open_ones[line.client])
            transaction = line.transaction = open_ones.get(line.client)
            if transaction and transaction.follow(line):
                del open_ones[line.client]
            if line.ok and line.op == "get" and not transaction:
                read_at[line.client, line.key] = line.place
            if line.ok and line.commit and line.commit not in self.commits:
                alone = [(line.key, line.op == "delete")] if line.op in ("put", "delete") and line.key else []
                if alone:
                    line.read_at = read_at.pop((line.client, line.key), None)
                is_whole = line.op == "commit" and transaction
                contents = transaction.contents if is_whole else {key: content_of(line) for key, _ in alone}
                self.commits[line.commit] = Commit(line, transaction.writes if is_whole else alone, contents)


def read_lines(data):
    """The lines of an input that aren't empty, with their numbers and rounds."""
    found, round_number, in_round, held = [], 1, 0, 0
    for at, piece in enumerate(data.split(b"\n"), 1):
        empty = not piece.strip(b" \t\r")
        if not empty:
            found.append(Line(at, round_number, piece.decode("utf-8", "backslashreplace")))
            in_round, held = in_round + 1, held + min(len(piece), KEPT_BYTES)
        if in_round and (empty or in_round == ROUND_LINES or held >= ROUND_BYTES):
            round_number, in_round, held = round_number + 1, 0, 0
    return found
