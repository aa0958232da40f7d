"""A run that keeps its index file, judged as if that file followed itself behind some round, has the verdict of the plain judgement.

Runs of sixteen clients at random are judged so with the cut behind many rounds, as they are and with a reply changed by hand. So what stands in for the
replies before a cut shows the clients what these showed: a count, a place, a touched group, an id, an open transaction that was another behind the cut
would make a legal run not legal, or the other way round.
"""
import json
import random

from tests import clients
from tests.auditing import verdict
from tests.case import SEED, Case, Talk, sample
from tests.test_audited import CHANGES, compact
from tests.test_crowd import statement

import cut

RUNS, ROUNDS, LINES, CUTS = sample(4, 2, 40), 12, 40, 4
SETTINGS = (["--shards", "1", "--appliers", "0", "--window", "2"], ["--shards", "3", "--appliers", "2", "--window", "65536"], ["--shards", "16", "--appliers", "8", "--window", "20"])


def rounds_of(draw, shards):
    """Rounds of requests as `clients` makes them, with statements and lines that are refused among them."""
    found = []
    for lines in clients.rounds(draw.randrange(2**32), ROUNDS, LINES):
        for at, line in enumerate(lines):
            request, chance = json.loads(line), draw.random()
            if request["op"] == "apply":
                request["shard"] = draw.randrange(shards)
            elif chance < 0.08:
                request = {"client": request["client"], **statement(draw)}
            elif chance < 0.12:
                request = {"client": request["client"], "op": "put", "entity": {"key": [["G", 2**52 + draw.randrange(400)]], "properties": {"n": 1}}}
            elif chance < 0.15:
                request = {"client": request["client"], "op": "query", "kind": "T", "filters": [["n", "=", 1]], "orders": [["s", "asc"]]}
            lines[at] = json.dumps(request).encode()
        found.append(lines)
    return found


class CutAnywhere(Case):
    def test_verdicts_are_those_without_a_cut(self):
        draw, legal, wrong = random.Random(SEED), 0, 0
        for number in range(RUNS):
            words = SETTINGS[number % len(SETTINGS)]
            rounds, replies = rounds_of(draw, int(words[1])), []
            with Talk(words) as talk:
                for lines in rounds:
                    replies += talk.round(lines)
            self.expect(f"run {number}: status", talk.end, (0, "", b""))
            lines = clients.text_of(rounds)
            for after in draw.sample(range(1, ROUNDS), CUTS):
                what = f"run {number} of seed {SEED}, cut behind round {after}"
                self.expect(what, self.with_cut(lines, b"".join(replies), words, after), (True, True))
                legal += 1
            for changed in (self.changed(draw, replies) for _ in range(CUTS)):
                after = draw.randrange(1, ROUNDS)
                plain = verdict(lines, changed, words).output == b"legal\n"
                both = self.with_cut(lines, changed, words, after)
                wrong += not plain
                self.expect(f"run {number} of seed {SEED}, a reply changed, cut behind round {after}: whether it is legal", both == (True, True), plain)
        self.expect("whether some runs were legal and some weren't", (legal > 0, wrong > 0), (True, True))

    @staticmethod
    def changed(draw, replies):
        """The replies with one changed, in one of the ways of `test_audited`."""
        while True:
            at, change = draw.randrange(len(replies)), draw.choice(CHANGES)
            changed = change(json.loads(replies[at]), 1_000)
            if changed is not None:
                return b"".join([*replies[:at], compact(changed).encode() + b"\n", *replies[at + 1 :]])

    @staticmethod
    def with_cut(lines, replies, words, after):
        """Whether each of the two judgements finds the run legal."""
        return tuple(verdict(asked, answered, words, told).output == b"legal\n" for asked, answered, told in cut.judgements(lines, replies, after)[:2])
