"""What holds of the replies of every run, judged from its lines and replies alone, without a server beside it.

It is smaller than the definitions that the server is proved by, and written apart from them: each line has one reply, in the order of rounds, clients
and lines; the acknowledged commits are numbered from one without a gap, and the drawn ids from 2^52; a get, an ancestor query and a query of a
kind answer from the acknowledged writes at their printed places and counts; what a client has seen only grows; and a commit or a conflict agrees with the
commits between. Queries with filters, orders or windows are judged by their form alone.
"""
import json

FIRST_ID = 2**52
ROUND_LINES, ROUND_BYTES, KEPT = 65_536, 67_108_864, 2_097_153
NO_MEMORY = 24


def rounds_of(text):
    """The rounds of an input, each a list of (number, line)."""
    found, now, kept = [], [], 0
    lines = text.split(b"\n")
    if not lines[-1]:
        lines.pop()
    for number, line in enumerate(lines, 1):
        if not line.strip(b" \t\r"):
            if now:
                found.append(now)
            now, kept = [], 0
            continue
        now.append((number, line))
        kept += min(len(line), KEPT)
        if len(now) == ROUND_LINES or kept >= ROUND_BYTES:
            found.append(now)
            now, kept = [], 0
    return found + [now] if now else found


def read(line):
    """The line's object, or an empty one."""
    try:
        value = json.loads(line.decode())
    except (ValueError, RecursionError):
        return {}
    return value if isinstance(value, dict) else {}


def client_of(request):
    client = request.get("client")
    return client if type(client) is int and 0 <= client <= 15 else 0


def compact(value):
    return json.dumps(value, separators=(",", ":"), sort_keys=True, ensure_ascii=False).encode()


# ---- keys

def split(key):
    """Namespace and elements."""
    return (key[0], key[1:]) if key and isinstance(key[0], str) else ("", key)


def hashable(key):
    space, path = split(key)
    return (space, *((kind, identifier) for kind, identifier in path))


def order(key):
    space, *path = hashable(key)
    return (space.encode(), [(kind.encode(), isinstance(it, str), it.encode() if isinstance(it, str) else it) for kind, it in path])


def encoded(group):
    """The bytes of a root key, from which its shard comes."""
    def escape(text):
        return text.encode().replace(b"\0", b"\0\xff") + b"\0\1"
    space, (kind, it) = group
    front = b"\3" + escape(space) if space else b""
    return front + b"\2" + escape(kind) + (b"\x20" + escape(it) if isinstance(it, str) else b"\x10" + it.to_bytes(8, "big")) + b"\1"


def shard_of(group, shards):
    number = 14695981039346656037
    for byte in encoded(group):
        number = (number ^ byte) * 1099511628211 % 2**64
    return number % shards


def printed(properties):
    """Properties as they are printed."""
    def plain(value):
        if isinstance(value, dict) and set(value) == {"unindexed"}:
            inner = plain(value["unindexed"])
            return None if inner is EMPTY else {"unindexed": inner}
        if isinstance(value, list):
            return EMPTY if not value else value[0] if len(value) == 1 else value
        return value
    found = {name: plain(value) for name, value in properties.items()}
    return {name: value for name, value in found.items() if value is not EMPTY and not (isinstance(properties[name], dict) and value is None)}


EMPTY = object()


# ---- a run

class Law:
    """Judges the replies of a run. `faults` is what is wrong, as sentences; no fault says that all above holds."""

    def __init__(self, text, output, shards=1, ended=True):
        """`ended`: whether the input was read to its end, so that each line must have its reply; else whole rounds may lack from some on."""
        self.shards, self.faults = shards, []
        self.commits, self.drawn, self.open, self.replies, self.no_memory = {}, [], {}, [], 0
        self.seen = {}
        replies = output.split(b"\n")
        if replies.pop():
            self.faults.append("the output ends within a line")
        at = 0
        for lines in rounds_of(text):
            these = replies[at:at + len(lines)]
            at += len(lines)
            if not ended and not these:
                break
            self.take_round(dict(lines), these)
            if self.faults:
                return
        if at < len(replies):
            self.faults.append(f"{len(replies) - at} replies too many")
        if not self.faults:
            self.judge()

    def take_round(self, lines, texts):
        if len(texts) != len(lines):
            self.faults.append(f"{len(texts)} replies to the {len(lines)} lines from {min(lines)} on")
            return
        last, given = (-1, 0), set()
        round_replies = []
        for text in texts:
            try:
                reply = json.loads(text)
                at = (reply["client"], reply["line"])
            except (ValueError, TypeError, KeyError):
                self.faults.append(f"no reply: {text[:200]!r}")
                return
            request = read(lines.get(at[1], b""))
            if compact(reply) != text:
                self.faults.append(f"not compact, or members out of order: {text[:200]!r}")
            if at <= last:
                self.faults.append(f"the reply to line {at[1]} of client {at[0]} is out of order")
            if at[1] not in lines or at[1] in given:
                self.faults.append(f"a reply to line {at[1]}, which has one or isn't in this round")
            is_refused = reply.get("error") == NO_MEMORY
            if at[0] != client_of(request) and not (is_refused and at[0] == 0):
                self.faults.append(f"the reply to line {at[1]} is of client {at[0]}, and not {client_of(request)}")
            if ("ok" in reply) == ("error" in reply) or "ok" in reply and reply["ok"] != request.get("op"):
                self.faults.append(f"no reply to its line: {text[:200]!r}")
            self.no_memory += is_refused
            last = at
            given.add(at[1])
            round_replies.append((request, reply))
        self.replies.append(round_replies)
        for request, reply in sorted(round_replies, key=lambda it: it[1]["line"]):
            if "ok" in reply:
                self.follow(request, reply)
            elif reply.get("name") in ("Conflict", "Expired"):
                self.ended(request, reply)

    def follow(self, request, reply):
        """Notes a commit, a drawn id, and what a transaction does."""
        client, op = reply["client"], reply["ok"]
        if op in ("put", "delete"):
            key = hashable(reply["key"])
            asked = request["entity"] if op == "put" else None
            entity = {"key": reply["key"], "properties": printed(asked.get("properties") or {})} if asked else None
            if asked and split(asked["key"])[1][-1][1] is None:
                self.drawn.append((key[-1][1], 1))
            elif compact(reply["key"]) != compact(asked["key"] if asked else request["key"]):
                self.faults.append(f"line {reply['line']} prints another key")
            if "commit" in reply:
                self.note(reply["commit"], [(key, entity)], {}, reply)
            elif client in self.open:
                self.open[client]["writes"].append((key, entity))
                self.open[client]["touched"].setdefault(key[:2], reply["place"])
            else:
                self.faults.append(f"line {reply['line']} is put into a transaction that isn't begun")
        elif op == "begin":
            if client in self.open:
                self.faults.append(f"line {reply['line']} begins a transaction in one")
            self.open[client] = {"writes": [], "touched": {}, "gql": False}
        elif op in ("commit", "rollback"):
            transaction = self.open.pop(client, None)
            if transaction is None:
                self.faults.append(f"line {reply['line']} ends a transaction that isn't begun")
            elif op == "commit":
                self.note(reply["commit"], transaction["writes"], transaction["touched"], reply)
        elif op == "get" and client in self.open:
            self.open[client]["touched"].setdefault(hashable(request["key"])[:2], reply["place"])
        elif op == "query" and client in self.open and "place" in reply:
            self.open[client]["touched"].setdefault(hashable(request["ancestor"])[:2], reply["place"])
        elif op == "gql" and client in self.open:
            self.open[client]["gql"] = True
        elif op == "allocate_ids":
            self.drawn.append((reply["first"], reply["count"]))
        reply["in transaction"] = client in self.open

    def ended(self, request, reply):
        transaction = self.open.pop(reply["client"], None)
        if transaction is None:
            self.faults.append(f"line {reply['line']} ends a transaction that isn't begun")
        elif reply["name"] == "Conflict":
            reply["touched"] = None if transaction["gql"] else transaction["touched"]

    def note(self, number, writes, touched, reply):
        if number in self.commits:
            self.faults.append(f"commit {number} is acknowledged to lines {self.commits[number][2]['line']} and {reply['line']}")
        self.commits[number] = (writes, touched, reply)

    # ---- when all replies are read

    def judge(self):
        count = len(self.commits)
        if sorted(self.commits) != list(range(1, count + 1)):
            missing = next(it for it in range(1, count + 2) if it not in self.commits)
            self.faults.append(f"{count} commits are acknowledged, and none with the number {missing}")
            return
        upto = FIRST_ID
        for first, length in sorted(self.drawn):
            if first != upto:
                self.faults.append(f"the id {first} is drawn, where {upto} comes next")
                return
            upto += length
        self.history, self.entries = {}, [[] for _ in range(self.shards)]
        self.group_commits = {}
        for number in range(1, count + 1):
            writes, _, _ = self.commits[number]
            for key, entity in writes:
                self.history.setdefault(key, []).append((number, entity))
            for group in sorted({key[:2] for key, _ in writes}, key=encoded):
                self.group_commits.setdefault(group, []).append(number)
                self.entries[shard_of(group, self.shards)].append((number, group))
        for number in range(1, count + 1):
            for group, place in self.commits[number][1].items():
                if any(place < it < number for it in self.group_commits.get(group, [])):
                    self.faults.append(f"commit {number} passes a conflict over {group}")
        together = (0, [0] * self.shards)
        for replies in self.replies:
            self.seen = {}
            for request, reply in replies:
                place, counts = self.seen.get(reply["client"], together)
                self.seen[reply["client"]] = self.judge_reply(request, reply, place, list(counts))
            shown = list(self.seen.values()) or [together]
            together = (max(it[0] for it in shown), [max(it[1][shard] for it in shown) for shard in range(self.shards)])

    def upto(self, shard, place):
        """How many of the shard's entries are of commits up to the place."""
        entries, low, high = self.entries[shard], 0, len(self.entries[shard])
        while low < high:
            middle = (low + high) // 2
            low, high = (middle + 1, high) if entries[middle][0] <= place else (low, middle)
        return low

    def judge_reply(self, request, reply, place, counts):
        """Judges a reply against what its client has seen; gives what it has seen then."""
        if "ok" not in reply:
            if reply.get("name") == "Conflict":
                self.judge_conflict(reply)
            return place, counts
        op, line = reply["ok"], reply["line"]
        now = reply.get("place", place)
        if not 0 <= now <= len(self.commits):
            self.faults.append(f"line {line}: place {now} of {len(self.commits)} commits")
            return place, counts
        if now < place and not reply["in transaction"] or reply.get("commit", place + 1) <= place:
            self.faults.append(f"line {line} is answered at {reply.get('commit', now)}, and its client had seen {place}")
        if op == "get":
            found = reply["entity"]
            if compact(found) != compact(self.at(hashable(request["key"]), now)):
                self.faults.append(f"line {line}: another entity than at place {now}: {compact(found)!r}")
        printed_counts = reply.get("applied") if isinstance(reply.get("applied"), list) else None
        if printed_counts is not None:
            for shard, (count, before) in enumerate(zip(printed_counts, counts)):
                if not before <= count <= len(self.entries[shard]):
                    self.faults.append(f"line {line}: {count} entries of shard {shard}, which had shown {before} and has {len(self.entries[shard])}")
                    return place, counts
            if len(printed_counts) != self.shards or op == "settle" and any(self.upto(shard, now) > count for shard, count in enumerate(printed_counts)):
                self.faults.append(f"line {line}: counts {printed_counts} at place {now}")
                return place, counts
            counts = list(printed_counts)
            place = max([place, *(self.entries[shard][count - 1][0] for shard, count in enumerate(counts) if count)])
        if op == "apply":
            shard, count = reply["shard"], reply["count"]
            if not counts[shard] <= count <= len(self.entries[shard]) or now < place:
                self.faults.append(f"line {line}: {count} entries of shard {shard}, which had shown {counts[shard]} and has {len(self.entries[shard])}")
                return place, counts
            counts[shard] = count
            place = max(place, self.entries[shard][count - 1][0] if count else 0)
        if op == "query":
            self.judge_query(request, reply, now, counts)
        if op in ("get", "query") and "place" in reply:
            shard = shard_of(hashable(request["key"] if op == "get" else request["ancestor"])[:2], self.shards)
            counts[shard] = max(counts[shard], self.upto(shard, now))
        return max(place, now, reply.get("commit", 0)), counts

    def judge_conflict(self, reply):
        group, at, place = hashable(reply["group"]), reply["commit"], reply["place"]
        wrote = [it for it in self.group_commits.get(group, []) if it <= place]
        # A statement's ancestor isn't read here, so what a transaction with one has touched isn't known.
        touched = -1 if reply["touched"] is None else reply["touched"].get(group, at)
        if not wrote or wrote[-1] != at or touched >= at or place > len(self.commits):
            self.faults.append(f"line {reply['line']}: no such conflict: commit {at} at place {place}, where the group's commits are {wrote[-3:]}")

    def at(self, key, place):
        found = None
        for number, entity in self.history.get(key, []):
            if number > place:
                break
            found = entity
        return found

    def judge_query(self, request, reply, place, counts):
        if any(request.get(it) for it in ("filters", "orders", "offset", "start", "end")) or request.get("limit") is not None or isinstance(request.get("select"), list):
            return
        space, ancestor = request.get("namespace") or "", request.get("ancestor")
        under = hashable(ancestor) if ancestor else None
        found = []
        places = {}
        if not ancestor:
            for shard, count in enumerate(counts):
                places.update({group: number for number, group in self.entries[shard][:count]})
        for key in self.history:
            if key[0] != space or request.get("kind") not in (None, key[-1][0]) or under and key[:len(under)] != under:
                continue
            entity = self.at(key, place if ancestor else places.get(key[:2], 0))
            if entity is not None:
                found.append(entity)
        found.sort(key=lambda entity: order(entity["key"]))
        wanted = [entity["key"] for entity in found] if request.get("select") == "keys" else found
        if compact(reply["results"]) != compact(wanted):
            self.faults.append(f"line {reply['line']}: results {compact(reply['results'])!r}, and not {compact(wanted)!r}")


def faults(text, output, shards=1, ended=True):
    """What is wrong with the replies of a run over these lines."""
    return Law(text, output, shards, ended).faults
