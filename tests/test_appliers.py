"""Background appliers from outside: they sleep while nothing is to be applied, a commit wakes them, and the end of the input ends them at once.

A sleeping applier looks again after a second by itself, so one that a commit doesn't wake applies about a second late, and one that isn't told of the end
ends so late. Each is tried some times, and of a good server most are done within a hundredth of the half second that is allowed, however the machine
is loaded.
"""
import contextlib
import json
import statistics
import time

from tests.case import Case, Talk

PUT = b'{"op":"put","entity":{"key":[["T",%d]],"properties":{"n":%d}}}'
QUERY = b'{"op":"query","kind":"T","select":"keys","limit":1}'
# Seconds for which servers are left alone, and what each may use of a processor meanwhile.
IDLE_SECONDS, MOST_IDLE_SECONDS = 2, 0.2
LATE_SECONDS = 0.5
TIMES = 5
# Entries that wait for an apply, so many that each of four shards has some.
PUTS = 24
# What is waited after an entry was applied, until the applier sleeps again.
ASLEEP_SECONDS = 0.1
# How long a server without appliers is looked at, and how long others have to start their threads.
ALONE_SECONDS, STARTED_SECONDS = 1, 10


def words(shards, appliers):
    return ["--shards", str(shards), "--appliers", str(appliers)]


def reply(talk, line):
    """The reply to a round of one line; an empty one where there is none."""
    replies = talk.round([line])
    return json.loads(replies[0]) if replies else {}


def seconds_until_applied(talk, count):
    """Seconds until queries see so many entries in all, or ten; no request applies any meanwhile."""
    began = time.monotonic()
    while time.monotonic() - began < 10:
        if sum(reply(talk, QUERY).get("applied", [])) >= count:
            break
        time.sleep(0.005)
    return time.monotonic() - began


def most_threads(appliers, seconds, enough=None):
    """The most threads that a server with so many appliers has within these seconds. Where there are enough, it is looked at once more a little later,
    and no longer."""
    with Talk(words(4, appliers)) as talk:
        reply(talk, b'{"op":"settle"}')
        most, end = 0, time.monotonic() + seconds
        while time.monotonic() < end:
            most = max(most, len(talk.threads()))
            if enough is not None and most >= enough:
                time.sleep(ASLEEP_SECONDS)
                return max(most, len(talk.threads()))
            time.sleep(0.005)
    return most


class Appliers(Case):
    def test_idle_appliers_sleep(self):
        """Before the first commit and behind one that is applied, 2 appliers and 8 take no processor time."""
        with contextlib.ExitStack() as stack:
            talks = {appliers: stack.enter_context(Talk(words(4, appliers))) for appliers in (2, 8)}
            for when, line in (("before a commit", b'{"op":"settle"}'), ("behind a commit", PUT % (1, 1))):
                for talk in talks.values():
                    self.expect(f"a server {when}: whether it answers", "ok" in reply(talk, line), True)
                    seconds_until_applied(talk, 0 if when == "before a commit" else 1)
                time.sleep(ASLEEP_SECONDS)
                used = {appliers: talk.seconds() for appliers, talk in talks.items()}
                time.sleep(IDLE_SECONDS)
                for appliers, talk in talks.items():
                    seconds = talk.seconds() - used[appliers]
                    self.expect(f"{appliers} appliers {when}: whether {seconds:.2f} s of a processor in {IDLE_SECONDS} idle seconds are at most {MOST_IDLE_SECONDS}",
                                seconds <= MOST_IDLE_SECONDS, True)

    def test_each_applier_is_a_thread(self):
        """As many more threads as appliers, and no more where there are none. They start beside the first replies, so their number is waited for."""
        without = most_threads(0, ALONE_SECONDS)
        more = [most_threads(appliers, STARTED_SECONDS, without + appliers) - without for appliers in (1, 2, 8)]
        self.expect("how many threads more there are with 1, 2 and 8 appliers than with none", more, [1, 2, 8])

    def test_a_commit_wakes_an_applier(self):
        """A put, a new entity and a transaction are each applied soon, while the client asks for nothing that applies entries."""
        new = b'{"op":"put","entity":{"key":[["T",null]],"properties":{}}}'
        ways = {"a put": [PUT % (1, 1)], "a new entity": [new], "a transaction": [b'{"op":"begin"}', PUT % (2, 2), b'{"op":"commit"}']}
        with Talk(words(1, 1)) as talk:
            count = 0
            for what, lines in ways.items():
                seconds = []
                for _ in range(TIMES):
                    time.sleep(ASLEEP_SECONDS)
                    self.expect(f"{what}: whether all is done", [b'"ok"' in line for line in talk.round(lines)], [True] * len(lines))
                    count += 1
                    seconds.append(seconds_until_applied(talk, count))
                told = ", ".join(f"{it:.3f}" for it in seconds)
                self.expect(f"{what}: whether most of {TIMES} are applied within {LATE_SECONDS} s ({told})", statistics.median(seconds) <= LATE_SECONDS, True)
        self.expect("status, error text, bytes behind the replies", talk.end, (0, "", b""))

    def test_the_end_of_the_input_ends_appliers(self):
        """With 8 appliers that sleep, a server ends soon after its input."""
        for lines in ([], [PUT % (1, 1)]):
            seconds = []
            for _ in range(TIMES):
                with Talk(words(4, 8)) as talk:
                    talk.round([*lines, b'{"op":"settle"}'])
                    time.sleep(ASLEEP_SECONDS)
                    began = time.monotonic()
                seconds.append(time.monotonic() - began)
                self.expect("status, error text, bytes behind the replies", talk.end, (0, "", b""))
            told = ", ".join(f"{it:.3f}" for it in seconds)
            self.expect(f"behind {len(lines)} commits: whether most of {TIMES} runs end within {LATE_SECONDS} s ({told})", statistics.median(seconds) <= LATE_SECONDS, True)

    def test_an_apply_takes_one_entry(self):
        """Of a shard that has several entries to apply, `apply` takes the next one alone."""
        for shards in (1, 4):
            with Talk(words(shards, 0)) as talk:
                talk.round([PUT % (n, n) for n in range(1, PUTS + 1)])
                found = 0
                for shard in range(shards):
                    applied = [reply(talk, b'{"op":"apply","shard":%d}' % shard) for _ in range(PUTS + 1)]
                    last = applied[-1].get("count", -1)
                    self.expect(f"{shards} shards: the counts of shard {shard} behind each apply", [it.get("count") for it in applied],
                                [min(at, last) for at in range(1, PUTS + 2)])
                    found += last
                self.expect(f"{shards} shards: entries that were applied in all", found, PUTS)
