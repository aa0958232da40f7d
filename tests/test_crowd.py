"""Sixteen clients at once, with background appliers, and what they are told.

Each run has its own number of shards, of appliers and of kept versions, the most of each in every second one. Its rounds have puts, new ids, transactions
that conflict, gets, queries with limits, statements, and pages that begin at the cursor of an earlier page. Each line must have its reply, none may tell that
there was no memory, and the replies keep the law of `law`; those of the audited runs are legal for the auditor too, which sees all that a reply says.
Over all runs some transaction must conflict, some read in one come too late for the kept versions, and some query not show what is committed.
The whole of it are 300 runs, all of which are audited.
"""
import collections
import json
import random
import time

from tests import clients, law
from tests.auditing import Audits
from tests.case import SEED, WHOLE, Talk, sample

# A sample ends after so many seconds, of which so many are audits.
SECONDS, SECONDS_OF_AUDITS = 45, 15
RUNS, LEAST_RUNS, LINES = 300, 4, 200
ROUNDS = sample(25, 5, 25)
MOST = {"shards": 16, "appliers": 8, "window": 65_536}
# What a run may begin with in place of the most of each.
DRAWN = {"shards": (1, 2, 3, 4, 7), "appliers": (0, 1, 2, 5), "window": (1, 2, 20, 1_000)}


def settings(draw, number):
    if number % 2 == 0:
        return dict(MOST)
    # Every fourth run has no appliers, and then no settles either: its queries leave out what isn't applied.
    return {name: draw.choice(values) for name, values in DRAWN.items()} | ({"appliers": 0} if number % 4 == 1 else {})


def page(draw, cursors):
    """A page of a kind: the first, or the one behind a cursor that was told in an earlier round."""
    kind = draw.choice("GTN")
    request = {"op": "query", "kind": kind, "limit": draw.randrange(1, 4), "cursor": True, "orders": [["n", draw.choice(["asc", "desc"])]]}
    if cursors and draw.random() < 0.7:
        kind, order, cursor = draw.choice(cursors)
        request |= {"kind": kind, "orders": [["n", order]], "start": cursor}
    return request


def statement(draw):
    kind, group = draw.choice("GTN"), draw.randrange(1, 13)
    return {"op": "gql", **draw.choice([
        {"text": f"SELECT * FROM {kind} WHERE n >= :1 ORDER BY n LIMIT 5", "args": [draw.randrange(2_000)]},
        {"text": f"SELECT __key__ FROM {kind} WHERE ANCESTOR IS :g", "names": {"g": {"key": [["G", group]]}}},
        {"text": f"SELECT n FROM {kind} ORDER BY n DESC"},
    ])}


def requests(draw, words, cursors):
    """A round: mostly what `clients` makes, and pages and statements among it."""
    found = []
    for line in clients.rounds(draw.randrange(2**32), 1, LINES)[0]:
        request = json.loads(line)
        if draw.random() < 0.1:
            request = {"client": request["client"], **(page(draw, cursors) if draw.random() < 0.5 else statement(draw))}
        elif request["op"] == "settle" and not words["appliers"]:
            request["op"] = "apply"
        if request["op"] == "apply":
            request["shard"] = draw.randrange(words["shards"])
        found.append(request)
    return found


def outcomes(judged):
    """How many replies there are of each name; and how many queries didn't show all that was acknowledged in earlier rounds."""
    found, known = collections.Counter(), 0
    for replies in judged.replies:
        for _, reply in replies:
            found[reply.get("name") or "ok"] += 1
            counts = reply.get("applied")
            if reply.get("ok") == "query" and isinstance(counts, list):
                found["stale"] += any(judged.upto(shard, known) > count for shard, count in enumerate(counts))
        known = max([known, *(reply["commit"] for _, reply in replies if "ok" in reply and "commit" in reply)])
    return found


class Crowd(Audits):
    def test_crowd(self):
        draw, told, began, number = random.Random(SEED), collections.Counter(), time.monotonic(), 0
        while number < RUNS if WHOLE else number < LEAST_RUNS or time.monotonic() - began < SECONDS:
            self.run_of(draw, number, told)
            number += 1
        outcome = ", ".join(f"{count} {name}" for name, count in told.most_common())
        print(f"{number} runs of {ROUNDS * LINES} lines, {self.audited} of them audited: {outcome}")
        for name in ("Conflict", "Expired", "stale"):
            self.expect(f"whether over all runs some reply was {name} ({outcome})", told[name] > 0, True)

    def run_of(self, draw, number, told):
        words = settings(draw, number)
        given = [word for name, value in words.items() for word in (f"--{name}", str(value))]
        what = f"run {number} of seed {SEED} ({' '.join(f'{name} {value}' for name, value in words.items())})"
        text, output, cursors = [], [], []
        with Talk(given) as talk:
            for _ in range(ROUNDS):
                asked = requests(draw, words, cursors)
                lines = [json.dumps(request).encode() for request in asked]
                replies = talk.round(lines)
                before = len(text)
                text += [*lines, b""]
                output += replies
                if len(replies) < len(lines):
                    self.fault(what, f"{len(replies)} replies to {len(lines)} lines behind line {before}")
                    break
                for reply in map(law.read, replies):
                    request = asked[reply["line"] - before - 1] if 0 <= reply.get("line", 0) - before - 1 < len(asked) else {}
                    if "cursor" in reply and "orders" in request and len(reply["results"]) == request["limit"]:
                        cursors.append((request["kind"], request["orders"][0][1], reply["cursor"]))
                cursors = cursors[-40:]
        self.expect(f"{what}: status, error text, bytes behind the replies", talk.end, (0, "", b""))
        lines, replies = b"\n".join([*text, b""]), b"".join(output)
        judged = law.Law(lines, replies, words["shards"])
        self.holds(what, judged.faults)
        self.tried += len(output)
        self.expect(f"{what}: replies that there was no memory", judged.no_memory, 0)
        if WHOLE or not self.audited or self.seconds < SECONDS_OF_AUDITS:
            self.audit(what, lines, replies, given)
        if not judged.faults:
            told.update(outcomes(judged))
