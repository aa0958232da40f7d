"""A server that is refused memory, one call after the other, and what it answers.

A sample of refusals of three examples and of twelve puts with settles, and some runs of 16 clients; the whole of it is every call that takes memory in
these, from the first to the last, once alone and once with all behind it, and 40 runs of 16 clients in which a share is refused at random.

A run must end with status 0 and some replies 24, or with 6 and `no memory` after whole rounds. Only calls that are refused alone may go unseen, since a
line that can't be read in the quick way because memory is refused is read in the general one; then all replies are those of a run without refusals. Each other
reply is the one that a run without refusals gives to the same lines with the refused ones taken out, which have left nothing behind; only entries may
have been applied. The replies also keep the law of `law`; and where the status is 0 they are legal for the auditor, of a sample those of the first runs.
"""
import functools
import json
import random
import re

from tests import clients, law
from tests.auditing import Audits
from tests.case import INDEXED, SEED, WHOLE, WORDS, example, example_index, in_rounds, run, sample
from tests.refusing import Refusing

# Entries that one call applies together, and that call again behind a refusal.
PUTS = b"".join(b'{"op":"put","entity":{"key":[["Task",%d]],"properties":{}}}\n' % number for number in range(1, 13))
TEXTS = [("first", example("first"), WORDS),
         ("a_transaction_reads_before_its_writes", example("a_transaction_reads_before_its_writes"), WORDS),
         ("a_guestbook", example("a_guestbook"), INDEXED),
         ("twelve puts", PUTS + 3 * b'{"op":"settle"}\n', WORDS)]
INPUTS = [(name + how, change(text), words) for name, text, words in TEXTS for how, change in (("", bytes), (" in rounds", in_rounds))]
REFUSED = re.compile(rb'^\{"client":\d+,"error":24,"line":(\d+),"name":"NoMemory"\}\n$')
# Of a million calls, so many are refused.
SHARES = [20, 200, 2_000, 20_000]
MOST_AT_RANDOM = 40
READING = ("settle", "get", "query", "gql")
INDEX = example_index("a_guestbook")


@functools.lru_cache(None)
def plain(text, words):
    """The replies of a run without refusals."""
    return run(text, list(words), INDEX).lines


def without(text, refused, stand_in):
    """The input with a line in the place of each refused one that does nothing, or, where that one may have applied entries, `stand_in`."""
    lines = text.split(b"\n")
    for number in refused:
        op = law.read(lines[number - 1]).get("op")
        lines[number - 1] = stand_in if op in READING else b"{}"
    return b"\n".join(lines)


def is_explained(text, ran, words):
    """Whether the replies are those of a run without refusals, apart from those that tell of one."""
    refused = {int(found.group(1)) for found in map(REFUSED.match, ran.lines) if found}
    for stand_in in (b"{}", b'{"op":"settle"}'):
        wanted = plain(without(text, refused, stand_in), tuple(words))
        if ran.status == 6:
            wanted = wanted[:len(ran.lines)]
        if len(wanted) == len(ran.lines) and all(REFUSED.match(line) or line == it for line, it in zip(ran.lines, wanted)):
            return True
    return False


class Memory(Refusing, Audits):
    index = INDEX

    def judge(self, what, text, ran, words=WORDS, explained=False, audited=True, unseen=False):
        """`unseen`: whether refusals may go unseen."""
        self.expect(f"{what}: status and error text", (ran.status, ran.errors), (6, "no memory") if ran.status == 6 else (0, ""))
        judged = law.Law(text, ran.output, ended=ran.status == 0)
        self.holds(what, judged.faults)
        if ran.counts["refused"] and ran.status == 0 and not unseen:
            self.expect(f"{what}: whether a reply tells of it", judged.no_memory > 0, True)
        if not ran.counts["refused"]:
            self.expect(f"{what}: replies 24 where nothing is refused", judged.no_memory, 0)
        if ran.status == 0 and (audited or WHOLE):
            self.audit(what, text, ran.output, words, INDEX)
        if explained:
            self.expect(f"{what}: whether the other replies are as without the refused lines ({ran.output!r})", is_explained(text, ran, words), True)

    def test_one_call_after_the_other(self):
        calls = []
        for name, text, words in INPUTS:
            ran = self.run_refused(text, words)
            self.expect(f"{name}: without refusals", (ran.status, ran.errors, ran.counts["refused"]), (0, "", 0))
            calls += [(name, text, words, at) for call in range(1, ran.counts["memory"] + 1) for at in (str(call), f"{call}..")]
        print(f"{len(calls) // 2} calls take memory; each is refused alone, and with all behind it")
        alone, seen = 0, 0
        for name, text, words, at in calls if WHOLE else random.Random(SEED).sample(calls, sample(40, 12, 0)):
            ran, one = self.run_refused(text, words, memory=at), not at.endswith(".")
            self.expect(f"{name}, refused {at}: whether one was refused", ran.counts["refused"] > 0, True)
            self.judge(f"{name}, refused {at}", text, ran, words, explained=True, audited=self.audited < sample(8, 2, 0), unseen=one)
            told = sum(1 for line in ran.lines if REFUSED.match(line))
            if one:
                self.expect(f"{name}, refused {at}: the lines that one refusal reaches", told <= 1, True)
                alone, seen = alone + 1, seen + (told > 0 or ran.status == 6)
        self.expect(f"whether of {alone} calls that are refused alone most are told ({seen} are)", 2 * seen > alone, True)

    def test_sixteen_clients(self):
        """At random: the seed is told with what is found."""
        ends, told, number = {0: 0, 6: 0}, 0, 0
        # Which thread's call is refused differs from time to time, so a sample goes on until a run has ended well and some reply told of a refusal.
        while number < sample(4, 2, 40) or number < MOST_AT_RANDOM and not (ends[0] and told):
            seed, share = SEED + number, SHARES[number % len(SHARES)]
            text = clients.text_of(clients.rounds(seed, 6, 40))
            ran = self.run_refused(text, share=f"{share},{seed}")
            self.judge(f"16 clients, {share} of a million refused, seed {seed}", text, ran, unseen=True)
            ends[ran.status] = ends.get(ran.status, 0) + 1
            told += ran.output.count(b'"NoMemory"')
            number += 1
        self.expect("whether some runs of 16 clients went on to their end with refusals told", ends[0] > 0 and told > 0, True)
        print(f"16 clients: {json.dumps(ends)} runs by their status, {told} replies 24")
