"""A steady load of 16 clients with 8 background appliers, and the memory that the server holds.

While what is stored stays the same, the server holds at most 1.5 times the memory that it held at most in the first tenth of the lines, and for each
commit since then the bytes of one in the journal, which a run hands back whole. So a store that doesn't take out what has left its window fails here.
Each line has its reply, none is NoMemory, and the commits are numbered one after the other without a gap. The whole of it are two million lines.
"""
import re

from tests import clients
from tests.case import SEED, Case, Talk, sample

WORDS = ["--shards", "4", "--appliers", "8", "--window", "1000"]
LINES_OF_A_ROUND = 1_000
ROUNDS = (60, 10, 2_000)
GROUPS = 64
TIMES = 1.5
# What a commit of this load takes in the journal, at most. Versions that were kept for ever would take as much again.
BYTES_OF_A_COMMIT = 1_600
COMMIT = re.compile(rb'"commit":(\d+),(?:"key":|"line":)')


def steady(seed, groups):
    """A round in which puts, gets, queries of a group and transactions meet in groups that are there; what is stored doesn't grow with rounds like it."""
    found = []
    for line in clients.rounds(seed, 1, LINES_OF_A_ROUND, groups=groups)[0]:
        # Entities with ids of their own, and queries of all groups, are left out: those would grow the store, these what is told of it.
        is_left_out = b'["N", null]' in line or b'"op": "query"' in line and b'"ancestor"' not in line
        found.append(line[:line.index(b",")] + b', "op": "settle"}' if is_left_out else line)
    return found


class Load(Case):
    def test_memory_of_a_steady_load(self):
        rounds = sample(*ROUNDS)
        # Few different rounds, made before, so that making them takes no time beside the server.
        made = [steady(SEED + number, GROUPS) for number in range(min(rounds, 50))]
        held, commits, lost, early_commits = [], 0, 0, 0
        with Talk(WORDS) as talk:
            for number in range(rounds):
                lines = made[number % len(made)]
                replies = talk.round(lines)
                lost += b"".join(replies).count(b'"name":"NoMemory"')
                # A conflict tells a commit too, which is another's.
                acknowledged = sorted(int(found) for reply in replies if b'"ok":' in reply for found in COMMIT.findall(reply))
                if len(replies) < len(lines) or acknowledged != list(range(commits + 1, commits + 1 + len(acknowledged))):
                    self.fault(f"round {number + 1}", f"{len(replies)} replies to {len(lines)} lines, {len(acknowledged)} commits behind commit {commits}")
                    break
                self.tried += len(lines)
                commits += len(acknowledged)
                held.append(talk.memory())
                if number < rounds // 10:
                    early_commits = commits
        self.expect("status, error text, bytes behind the replies, replies 24", (*talk.end, lost), (0, "", b"", 0))
        if len(held) == rounds:
            early, late, since = max(held[:rounds // 10]), max(held), commits - early_commits
            told = f"{early / 2**20:.1f} MiB at most in the first tenth, {late / 2**20:.1f} MiB in all, {(late - early) / since:.0f} bytes for each commit since"
            print(f"{rounds * LINES_OF_A_ROUND} lines, {commits} commits: {told}")
            self.expect(f"whether that is at most {TIMES} times, and {BYTES_OF_A_COMMIT} bytes for each commit ({told})",
                        late <= TIMES * early + BYTES_OF_A_COMMIT * since, True)
