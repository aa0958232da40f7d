"""A server that keeps a file is killed under load, at moments that are drawn by a seed, and started again over the file: each acknowledged commit is there as it
was, and no id is drawn twice.

Clients put, delete, draw ids and commit transactions, in rounds that are written ahead of their replies. A life ends a random time behind one of its replies, and
every eighth one behind its start, so that some are killed while they open the file, and the others while they answer, append or wait for the disk. On a busy
machine there are fewer lives, as it ends after some seconds.
"""
import contextlib
import json
import os
import random
import signal
import threading
import time

from tests.case import SECONDS, SEED
from tests.keeping import Kept, read, sample

from journal_of import commits_told

KILLS, LEAST = sample(200, 20, 2_000), sample(24, 8, 2_000)
SECONDS_OF_KILLS = 50
# A file has so many lives, and then the next begins: what is read behind each kill stays short.
LIVES = 20
# Every so manieth life is killed while it opens the file, which takes some milliseconds, or soon behind.
OPENING, SECONDS_TO_OPEN = 8, 0.02
CLIENTS, ROUNDS, LINES = 4, 6, 12


def requests(draw, client):
    """Some lines of one client: a write of its own, ids, or a transaction over one group or two."""
    name, other = ([["G", draw.randrange(1, 40)]] for _ in range(2))
    value = {"n": draw.randrange(10**9)}
    new = {"op": "put", "entity": {"key": [["N", None]], "properties": value}}
    return [{"client": client, **it} for it in draw.choice((
        [{"op": "put", "entity": {"key": name, "properties": value}}],
        [new],
        [{"op": "delete", "key": name}],
        [{"op": "allocate_ids", "count": draw.randrange(1, 5)}],
        [{"op": "begin", "xg": True}, {"op": "get", "key": name}, {"op": "put", "entity": {"key": other, "properties": value}}, new, {"op": "commit"}],
        [{"op": "begin"}, new, {"op": "rollback"}],
    ))]


def text_of(draw):
    """The input of a life, which ends before a transaction is left open."""
    text = []
    for _ in range(ROUNDS):
        lines = []
        while len(lines) < LINES:
            lines += requests(draw, draw.randrange(CLIENTS))
        text += [json.dumps(it) for it in lines] + [""]
    return "".join(it + "\n" for it in text).encode()


class Killed(Kept):
    def test_every_acknowledged_commit_is_found(self):
        print(f"seed {SEED}")
        draw, began = random.Random(SEED), time.monotonic()
        ends = {"opening": 0, "under load": 0, "behind its input": 0}
        for at in range(KILLS):
            if at >= LEAST and time.monotonic() - began > SECONDS_OF_KILLS:
                break
            if at % LIVES == 0:
                self.file.unlink(missing_ok=True)
                known, drawn, commits = {}, set(), []
            text = text_of(draw)
            replies, has_ended = self.life(draw, text, at % OPENING == OPENING - 1)
            ends["opening" if not replies else "behind its input" if has_ended else "under load"] += 1
            told = {it["commit"]: it for it in commits_told(text, replies).values()}
            new = self.ids(f"life {at}", text, replies, drawn)
            before, (commits, next_id, _, damaged) = len(commits), read(self.file.read_bytes() if self.file.exists() else b"")
            known.update(told)
            self.expect(f"life {at}: whether the file is damaged", damaged, False)
            self.expect(f"life {at}: acknowledged commits below those of before", [it for it in told if it <= before], [])
            found = {it.number: {"client": it.client, "commit": it.number, "touched": it.touched, "writes": it.writes} for it in commits}
            lost = [number for number, commit in known.items() if found.get(number) != commit]
            self.expect(f"life {at}: acknowledged commits that are lost or otherwise, of {len(known)}", lost[:5], [])
            self.expect(f"life {at}: whether the counter {next_id} is above each id that was drawn", next_id > max(new, default=0), True)
        kills = sum(ends.values())
        print(f"{kills} kills in {time.monotonic() - began:.0f} seconds: {', '.join(f'{count} {end}' for end, count in ends.items())}")
        self.expect("whether some were killed before they answered, and most under load", ends["opening"] > 0 and ends["under load"] > kills / 2, True)

    def life(self, draw, text, is_opening):
        """A server that is given the input, and killed at a random moment: its whole replies, and whether it had ended by itself."""
        server = self.begin()
        replies = []
        wanted, delay = draw.choice((0, *range(ROUNDS * LINES * 3 // 4))), draw.random()

        def give():
            with contextlib.suppress(OSError):
                server.stdin.write(text)
                server.stdin.flush()

        writer = threading.Thread(target=give)
        writer.start()
        if is_opening:
            # Rather early, as some machines open it within a millisecond.
            time.sleep(delay ** 2 * SECONDS_TO_OPEN)
        else:
            while sum(it.count(b"\n") for it in replies) <= wanted:
                piece = os.read(server.stdout.fileno(), 1 << 16)
                if not piece:
                    break
                replies.append(piece)
            time.sleep(delay * SECONDS_TO_OPEN)
        has_ended = server.poll() is not None
        server.send_signal(signal.SIGKILL)
        replies.append(server.stdout.read())
        self.expect("how the killed one ended", (server.wait(SECONDS), server.stderr.read()), (-signal.SIGKILL, b""))
        writer.join()
        with contextlib.suppress(OSError):
            server.stdin.close()
        server.stdout.close()
        server.stderr.close()
        text = b"".join(replies)
        return text[:text.rfind(b"\n") + 1], has_ended

    def ids(self, what, text, replies, drawn):
        """The ids that a life's replies drew, none of which was drawn before; they are added to those."""
        lines, new = text.split(b"\n"), []
        for reply in map(json.loads, replies.splitlines()):
            if reply.get("ok") == "allocate_ids":
                new += range(reply["first"], reply["first"] + reply["count"])
            elif reply.get("ok") == "put" and json.loads(lines[reply["line"] - 1])["entity"]["key"][-1][1] is None:
                new.append(reply["key"][-1][1])
        self.expect(f"{what}: ids that are drawn twice", (sorted(drawn & set(new)), len(set(new))), ([], len(new)))
        drawn.update(new)
        return new
