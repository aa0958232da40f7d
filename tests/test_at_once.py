"""Whether the clients of a round are answered at once: while three, eight and sixteen of them scan all rows, as many threads of the server have a processor
or wait for one, of which the machine need not have more than one.

Threads are looked at again and again until all have their replies, and at a tenth of the looks there must be as many as clients, in one of three tries. A
server that answers clients in turn has one at each look, but for moments in which threads begin and end.
"""
import threading

from tests.case import Case, Talk, sample

ROWS, SCANS = sample(30_000, 500, 30_000), 6
CLIENTS, TRIES = (3, 8, 16), 3
SECONDS_BETWEEN, LEAST_LOOKS, LOOKS_OF_ALL = 0.001, 15, 10
PUT = b'{"op":"put","entity":{"key":[["T",%d]],"properties":{}}}'
# It skips each row, so it gives none.
SCAN = b'{"client":%d,"op":"query","kind":"T","select":"keys","offset":%d}'


class Looks:
    """Looks at the server's threads from the beginning of a block to its end: at each how many run."""

    def __init__(self, talk):
        self.talk, self.running, self.ended = talk, [], threading.Event()

    def look(self):
        while not self.ended.wait(SECONDS_BETWEEN):
            self.running.append(self.talk.threads().count("R"))

    def __enter__(self):
        self.thread = threading.Thread(target=self.look)
        self.thread.start()
        return self

    def __exit__(self, *_):
        self.ended.set()
        self.thread.join()

    def have_seen(self, clients):
        """Whether so many threads ran for a while."""
        seen = sum(running >= clients for running in self.running)
        return len(self.running) >= LEAST_LOOKS and LOOKS_OF_ALL * seen >= len(self.running)


class AtOnce(Case):
    def looks(self, talk, clients):
        lines = [SCAN % (client, ROWS) for client in range(clients) for _ in range(SCANS)]
        with Looks(talk) as looks:
            replies = talk.round(lines)
        self.expect(f"{clients} clients: replies", sum(b'"results":[]' in reply for reply in replies), len(lines))
        return looks

    def test_clients_are_answered_at_once(self):
        with Talk() as talk:
            stored = talk.round([*(PUT % number for number in range(1, ROWS + 1)), b'{"op":"settle"}'])
            self.expect("replies to the puts and a settle", sum(b'"ok"' in reply for reply in stored), ROWS + 1)
            for clients in CLIENTS:
                tried = [self.looks(talk, clients)]
                while not tried[-1].have_seen(clients) and len(tried) < TRIES:
                    tried.append(self.looks(talk, clients))
                told = ", ".join(f"at most {max(it.running, default=0)} at {len(it.running)} looks" for it in tried)
                self.expect(f"{clients} clients: whether as many threads ran for a while ({told})", tried[-1].have_seen(clients), True)
        self.expect("status, error text, bytes behind the replies", talk.end, (0, "", b""))
