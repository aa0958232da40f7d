"""Tests of the page that shows a run: what it derives against the server, and the page itself in a browser.

    python3 drivers/draw/test_draw.py
    python3 drivers/draw/test_draw.py --pictures      makes the pictures of docs/tools.md again

The tests in a browser need Chromium (`apt-get install chromium`), and are skipped with a word where it isn't there.
"""
import base64
import contextlib
import html.parser
import json
import os
import pathlib
import random
import re
import shutil
import struct
import subprocess
import sys
import tempfile
import time
import unittest
import zlib

HERE = pathlib.Path(__file__).resolve().parent
TOP = HERE.parent.parent
sys.path[:0] = [str(HERE), str(TOP / "drivers" / "python"), str(TOP / "examples" / "app")]
import keys
from journal import Run
from page import page
from picture import Picture, index_entry
from torfyllan import Key, MissingIndex, Server

EXAMPLES = TOP / "examples"
PICTURES = TOP / "docs" / "pictures"
CHROMIUM = next(filter(None, map(shutil.which, ("chromium", "chromium-browser", "google-chrome"))), None)
OPEN_SECONDS = 6

# A commit that is seen after one that isn't: of two shards one has applied its entry.
STALE = """\
{"op":"put","entity":{"key":[["Task","a"]],"properties":{}}}
{"op":"put","entity":{"key":[["Task","b"]],"properties":{}}}
{"op":"put","entity":{"key":[["Task","c"]],"properties":{}}}
{"op":"apply","shard":1}
{"op":"query","kind":"Task","select":"keys"}
{"op":"settle"}
{"op":"query","kind":"Task","select":"keys"}
"""
STALE_REPLIES = """\
{"client":0,"commit":1,"key":[["Task","a"]],"line":1,"ok":"put"}
{"client":0,"commit":2,"key":[["Task","b"]],"line":2,"ok":"put"}
{"client":0,"commit":3,"key":[["Task","c"]],"line":3,"ok":"put"}
{"applied":true,"client":0,"count":1,"line":4,"ok":"apply","place":3,"shard":1}
{"applied":[0,1],"client":0,"line":5,"ok":"query","results":[[["Task","b"]]]}
{"applied":[2,1],"client":0,"line":6,"ok":"settle","place":3}
{"applied":[2,1],"client":0,"line":7,"ok":"query","results":[[["Task","a"]],[["Task","b"]],[["Task","c"]]]}
"""


def data_of(lines, replies, shards=None):
    return Picture(Run(lines if isinstance(lines, bytes) else lines.encode(), replies if isinstance(replies, bytes) else replies.encode(), shards)).data()


def page_of(lines, replies, title="run", verdict=None):
    return page({"title": title, "verdict": verdict, **data_of(lines, replies)})


def example(name):
    return (EXAMPLES / f"{name}.jsonl").read_text(encoding="utf-8"), (EXAMPLES / f"{name}.expected").read_text(encoding="utf-8")


def sign_guestbook(draw):
    """Two sign the first guestbook at once, and then somebody reads it: the three things that are wrong with it."""
    import first_guestbook
    with Server(draw=draw) as server:
        client, other = server.client(0), server.client(1)
        app, put = first_guestbook.App(client), client.put
        app.sign("main", "ann", "Hello")

        def put_behind_the_other(*entity, **more):
            client.put = put
            first_guestbook.App(other).sign("main", "bob", "Bye")
            return put(*entity, **more)

        client.put = put_behind_the_other
        app.sign("main", "cid", "Hi")
        with contextlib.suppress(MissingIndex):
            app.newest("main")
        client.query("Greeting")


def talk_of(server, seed, rounds):
    """A talk in rounds of several clients, with transactions of several groups, namespaces, and all that applies entries."""
    chance = random.Random(seed)
    begun = {}
    answered = []

    def key():
        path = ["Shelf", chance.choice([1, 7, "ä", "b\0", "c"]), "Book", chance.randrange(1, 9)][: chance.choice([2, 4])]
        return Key(*path, namespace=chance.choice(["", "", "tenant-7"]))

    for _ in range(rounds):
        with server.round(raises=False) as asked:
            for _ in range(chance.randrange(1, 7)):
                number = chance.randrange(4)
                client = asked.client(number)
                if number in begun:
                    begun[number] -= 1
                    if begun[number] < 0:
                        del begun[number]
                        client.commit()
                    else:
                        answered.append(chance.choice([client.get, client.put, client.delete])(key()))
                else:
                    which = chance.randrange(10)
                    if which == 0:
                        client.begin(xg=chance.random() < 0.7)
                        begun[number] = chance.randrange(5)
                    elif which < 5:
                        chance.choice([client.put, client.put, client.delete])(key())
                    elif which < 7:
                        client.query(chance.choice(["Shelf", "Book", None]))
                    elif which == 7:
                        client.get(key())
                    elif which == 8:
                        client.apply(chance.randrange(5))
                    else:
                        client.gql("SELECT * FROM Book WHERE ANCESTOR IS :1", key())
    for number in begun:
        server.client(number).rollback()
    assert any(pending.refused for pending in answered), "no write of a transaction was refused"


class Derived(unittest.TestCase):
    def test_shards_are_those_of_the_hash(self):
        self.assertEqual([f"{keys.fnv1a(text):x}" for text in (b"", b"a", b"foobar")], ["cbf29ce484222325", "af63dc4c8601ec8c", "85944171f73967e8"])
        self.assertEqual(keys.encoded(keys.read_key([["Task", "a"]])).hex(), "025461736b00012061000101")
        self.assertEqual(keys.encoded(keys.read_key(["n", ["T", 5]])).hex(), "036e000102540001100000000000000005" + "01")

    def test_what_is_no_key_is_none(self):
        for value in (None, 5, [], ["n"], [["T"]], [["T", 0]], [["T", True]], [["T", 2**63]], [["", 1]], [["T", 1.5]], [["T", "a"], "n"], {"T": "a"}):
            self.assertIsNone(keys.read_key(value), value)

    def test_a_query_tells_what_it_missed(self):
        data = data_of(STALE, STALE_REPLIES)
        self.assertEqual(data["shards"], 2)
        self.assertEqual([[commit for commit, _ in entries] for entries in data["entries"]], [[1, 3], [2]])
        missed = {data["columns"]["line"][row]: rest for row, _, *rest in data["queries"]}
        self.assertEqual(missed, {5: [2, 0, 0, None], 7: [0, 0, 0, None]})

    def test_what_is_written_at_the_same_time_is_not_missed(self):
        lines = '{"op":"put","entity":{"key":[["T",1]]}}\n\n{"client":1,"op":"put","entity":{"key":[["T",2]]}}\n{"op":"query","kind":"T"}\n{"op":"query","kind":"U"}\n'
        replies = ('{"client":0,"commit":1,"key":[["T",1]],"line":1,"ok":"put"}\n{"client":0,"applied":[0],"line":4,"ok":"query","results":[]}\n'
                   '{"client":0,"applied":[0],"line":5,"ok":"query","results":[]}\n{"client":1,"commit":2,"key":[["T",2]],"line":3,"ok":"put"}\n')
        data = data_of(lines, replies)
        self.assertEqual([rest for _, _, *rest in data["queries"]], [[1, 0, 1, None], [0, 1, 1, None]])

    def test_a_conflict_has_its_commit_and_its_touch(self):
        data = data_of(*example("a_conflict"))
        row = data["columns"]["line"].index(12)
        self.assertEqual([[row, 2, 0]], data["ways"])
        self.assertEqual(data["columns"]["line"], [1, 3, 4, 5, 6, 7, 8, 10, 12])
        ends = {(client, end, writes): [(data["columns"]["line"][at], place) for at, _, place in touches] for client, _, _, end, writes, touches in data["spans"]}
        self.assertEqual(ends, {(0, "commit", 1): [(4, 1)], (1, "conflict", 1): [(7, 1)]})

    def test_how_transactions_end(self):
        ends = []
        for reply in ('"ok":"commit","commit":1', '"ok":"rollback"', '"error":23,"name":"Expired","applied":9,"place":0,"snapshot":0', '"error":9,"name":"NoTransaction"'):
            data = data_of('{"op":"begin"}\n{"op":"%s"}\n{"op":"put","entity":{"key":[["T",1]]}}\n' % ("rollback" if "rollback" in reply else "commit"),
                           '{"client":0,"line":1,"ok":"begin"}\n{"client":0,"line":2,%s}\n{"client":0,"line":3,"ok":"put","key":[["T",1]],"place":0}\n' % reply)
            (_, first, last, end, writes, _), = data["spans"]
            ends.append((first, last, end, writes))
        self.assertEqual(ends, [(0, 1, "commit", 0), (0, 1, "rollback", 0), (0, 1, "expiry", 0), (0, 2, "open", 1)])

    def test_a_round_is_drawn_in_an_order_in_which_it_can_have_happened(self):
        """In the rows commits ascend, no read stands before the commit of its place, and each client's lines keep their order."""
        lines, replies = made_up(4_000, 5, 9)
        columns = data_of(lines, replies)["columns"]
        last, own = 0, {}
        for line, client, op, commit, place in zip(*(columns[name] for name in ("line", "client", "op", "commit", "place"))):
            self.assertGreater(line, own.get(client, 0))
            own[client] = line
            self.assertTrue(commit == 0 or commit == last + 1, line)
            last = max(last, commit)
            self.assertLessEqual(place, last, line)
        self.assertGreater(last, 1_000)

    def test_a_write_over_what_its_client_had_not_seen(self):
        lines = ['{"op":"get","key":[["T",1]]}', '{"client":1,"op":"put","entity":{"key":[["T",1]]}}', '{"op":"put","entity":{"key":[["T",1]]}}', '{"op":"put","entity":{"key":[["T",1]]}}']
        replies = ['{"client":0,"entity":null,"line":1,"ok":"get","place":0}', '{"client":1,"commit":1,"key":[["T",1]],"line":3,"ok":"put"}',
                   '{"client":0,"commit":2,"key":[["T",1]],"line":5,"ok":"put"}', '{"client":0,"commit":3,"key":[["T",1]],"line":7,"ok":"put"}']
        data = data_of("\n\n".join(lines), "\n".join(replies))
        self.assertEqual(data["ways"], [[2, 1, 0]])

    def test_files_that_do_not_fit_together_are_told(self):
        lines, replies = example("stale")
        self.assertEqual(data_of(lines, replies)["notes"], [])
        for other, told in ((replies + replies, "answer no line"), (replies.split("\n", 1)[1], "have no reply"), (replies.replace("[0]", "[0,0]"), "--shards N")):
            self.assertTrue(any(told in note for note in data_of(lines, other)["notes"]), told)
        self.assertTrue(any("before the last one" in note for note in data_of(STALE, STALE_REPLIES.split("\n", 1)[1])["notes"]))

    def test_index_entries_are_those_of_an_index_file(self):
        self.assertEqual(index_entry({"ancestor": True, "kind": "Task", "properties": [["done", "asc"], ["due", "desc"]]}),
                         "- kind: Task\n  ancestor: yes\n  properties:\n  - name: done\n  - name: due\n    direction: desc\n")
        self.assertEqual(index_entry({"ancestor": True, "kind": "Task", "properties": []}), "- kind: Task\n  ancestor: yes\n  properties:\n  - name: __key__\n")
        for wrong in (None, {}, {"kind": "a b", "properties": [["p", "asc"]]}, {"kind": "T", "properties": [["a\n- kind: U", "asc"]]}, {"kind": "T", "properties": [[1, 2]]}, {"kind": "T", "properties": [5]}, {"kind": "T\u202e", "properties": []}):
            self.assertEqual(index_entry(wrong), "", wrong)

    def test_every_example_is_drawn(self):
        found = sorted(EXAMPLES.glob("*.jsonl"))
        for lines in found:
            data = data_of(lines.read_bytes(), lines.with_suffix(".expected").read_bytes())
            acknowledged = sum('"commit":' in reply and '"ok"' in reply for reply in lines.with_suffix(".expected").read_text(encoding="utf-8").splitlines())
            self.assertEqual((len(data["commits"]), data["notes"]), (acknowledged, []), lines)
        self.assertGreater(len(found), 20)


class WithServer(unittest.TestCase):
    def setUp(self):
        folder = tempfile.TemporaryDirectory()
        self.addCleanup(folder.cleanup)
        self.folder = pathlib.Path(folder.name)

    def drawn(self):
        return json.loads(re.search(r'id="run">(.*?)</script>', (self.folder / "run.html").read_text(encoding="utf-8"), re.S)[1])

    def test_entries_are_as_many_as_the_server_has_applied(self):
        """The drawing knows the entries from the replies alone. A settle tells how many there are; each query, which of them it saw."""
        with Server(shards=5, log=str(self.folder / "talk.jsonl"), draw=self.folder / "run.html") as server:
            talk_of(server, 11, 250)
            told = server.client(0).settle().applied
        run = Run((self.folder / "talk.jsonl").read_bytes(), (self.folder / "talk.replies").read_bytes())
        self.assertEqual([len(entries) for entries in run.entries], told)
        self.assertEqual(run.notes, [])
        self.assertGreater(sum(told), 150)
        self.assertTrue(any(len(commit.groups) > 1 for commit in run.commits.values()))
        queries = [line for line in run.lines if line.op == "query" and line.counts]
        for line in queries:
            there = {}
            for count, entries in zip(line.counts, run.entries):
                for commit, group in entries[:count]:
                    there.update((key, not gone) for key, gone in run.commits[commit].groups[group])
            namespace, kind = line.scope
            seen = {key for key, is_there in there.items() if is_there and key[0] == namespace and kind in (None, key[1][-1][0])}
            self.assertEqual({keys.read_key(found["key"]) for found in line.reply["results"]}, seen, line.text)
        self.assertGreater(sum(bool(line.reply["results"]) for line in queries), 50)
        for transaction in run.transactions:
            self.assertTrue(transaction.last.op in ("commit", "rollback"), transaction.last.text)
        self.assertEqual(len(self.drawn()["commits"]), len(run.commits))

    def test_a_commit_of_two_groups_gives_its_entries_in_the_order_of_their_keys(self):
        with Server(shards=1, draw=self.folder / "run.html") as server:
            client = server.client()
            with client.transaction(xg=True):
                for name in ("b", 7, "a"):
                    client.put(Key("T", name))
            seen = []
            while client.apply(0).applied:
                seen.append([found.key.identifier for found in client.query("T") if found.key.identifier not in sum(seen, [])])
        data = self.drawn()
        self.assertEqual([data["groups"][group][0] for _, group in data["entries"][0]], [f"T {name}" for name in sum(seen, [])])
        self.assertEqual(seen, [[7], ["a"], ["b"]])

    def test_the_guestbook_that_is_written_first(self):
        sign_guestbook(self.folder / "run.html")
        data = self.drawn()
        states = [data["states"][state] for state in data["columns"]["state"] if state]
        self.assertEqual(sorted(states), ["missing", "overwrote", "stale"])
        self.assertEqual(data["title"], "run")

    def test_a_talk_that_fails_is_drawn_too(self):
        with self.assertRaises(ZeroDivisionError), Server(draw=self.folder / "run.html") as server:
            server.client(0).put(Key("T", "a"))
            1 / 0
        self.assertEqual(len(self.drawn()["commits"]), 1)

    def test_a_log_is_drawn_by_its_name_and_a_reset_begins_a_page_of_its_own(self):
        with Server(draw=self.folder / "run.html", log=str(self.folder / "talk.jsonl"), shards=2) as server:
            server.client(0).put(Key("T", "a"))
            server.reset()
            server.client(0).query("T")
        ran = subprocess.run([sys.executable, str(HERE), self.folder / "talk.jsonl", "--title", "run"], capture_output=True, text=True, timeout=60, check=True)
        self.assertEqual(ran.stdout, (self.folder / "run.html").read_text(encoding="utf-8"))
        self.assertEqual(len(self.drawn()["commits"]), 1)
        self.assertIn('"query"', (self.folder / "run.2.html").read_text(encoding="utf-8"))

    def test_a_page_that_cannot_be_written_is_told_at_the_start(self):
        with self.assertRaises(OSError):
            Server(draw=self.folder / "no" / "run.html").start()


class Words(unittest.TestCase):
    def draw(self, *words):
        ran = subprocess.run([sys.executable, str(HERE), *map(str, words)], capture_output=True, text=True, timeout=60, check=False)
        return ran.returncode, ran.stdout, ran.stderr

    def test_the_words(self):
        lines, replies = EXAMPLES / "stale.jsonl", EXAMPLES / "stale.expected"
        status, text, told = self.draw(lines, replies, "--shards=1", "--appliers", "0", "--title", "A <b>")
        self.assertEqual((status, told), (0, ""))
        self.assertTrue(text.startswith("<!doctype html>") and "\\u003cb\\u003e" in text)
        for words, code, told in (((), 95, "LINES"), ((lines,), 5, "stale.replies can't be read"), ((lines, replies, "--shards", "17"), 95, "--shards"), ((lines, replies, "--fly"), 95, "--fly"), ((lines, "/no"), 5, "/no can't be read")):
            status, text, errors = self.draw(*words)
            self.assertEqual((status, text), (code, ""))
            self.assertIn(told, errors)
        self.assertIn("LINES", self.draw("--help")[1])
        ran = subprocess.run([TOP / "run", "--draw", lines, replies], stdout=subprocess.PIPE, timeout=60, check=True)
        self.assertTrue(ran.stdout.startswith(b"<!doctype html>"))

    def test_verdicts(self):
        with tempfile.TemporaryDirectory() as folder:
            file = pathlib.Path(folder, "verdict")
            expected = {"big": 9007199254740993}
            for said, wanted in (("legal\n", ["legal", None, None]), ("not legal: line 4\n", ["not legal: line 4", 4, None]), ("not legal: count", ["not legal: count", None, None]),
                                 ("not legal: line 4\nline  {}\nreply {}\n", ["not legal: line 4", 4, None]), ('{"verdict":"legal"}', ["legal", None, None]),
                                 (json.dumps({"verdict": "not legal", "line": 2, "expected": expected}), ["not legal", 2, '{"big": 9007199254740993}'])):
                file.write_text(said, encoding="utf-8")
                status, text, errors = self.draw(EXAMPLES / "stale.jsonl", EXAMPLES / "stale.expected", "--verdict", file)
                self.assertEqual((status, errors), (0, ""))
                verdict = json.loads(re.search(r'id="run">(.*?)</script>', text, re.S)[1])["verdict"]
                self.assertEqual(list(verdict.values()), wanted)
            file.write_text("perhaps", encoding="utf-8")
            self.assertEqual(self.draw(EXAMPLES / "stale.jsonl", EXAMPLES / "stale.expected", "--verdict", file)[0], 5)


ATTACK = "</script><script>window.hacked=1</script><img src=x onerror=window.hacked=1>\u2028\u2029\u202e<!--]]>&lt;'\"`${window.hacked=1}"


def hostile():
    """A log in which each text attacks, and numbers, nesting and encodings are as wrong as can be."""
    huge, deep = "9" * 5_000, "[" * 100_000 + "]" * 100_000
    put = {"op": "put", "entity": {"key": [[ATTACK, ATTACK], ["\ud800", 1]], "properties": {ATTACK: ATTACK}}}
    lines = [json.dumps(put), json.dumps({"op": "query", "kind": ATTACK, "namespace": ATTACK, "filters": [[ATTACK, "=", ATTACK]], "orders": [[ATTACK, "desc"]]}), ATTACK,
             json.dumps({"op": "gql", "text": "SELECT * FROM \"" + ATTACK + "\" WHERE ANCESTOR IS KEY('", "args": [1]}), json.dumps({"op": ATTACK, "client": 1e300}),
             '{"op":"get","key":[["T",%s]]}' % huge, '{"op":"get","key":%s}' % deep, '{"op":"apply","shard":1e999,"client":-1}', '{"op":"put","entity":{"key":[[NaN,null]]}}', "{", "[]", '"', "\0\x7f",
             json.dumps({"op": "commit"}), json.dumps({"op": "settle"}), json.dumps({"op": "query", "kind": "T", "limit": 10**30})]
    replies = [{"line": 1, "ok": "put", "commit": 1, "key": put["entity"]["key"], "client": 0}, {"line": 2, "ok": "query", "applied": [10**40], "results": ATTACK, "client": ATTACK},
               {"line": 3, "error": 1, "name": ATTACK}, {"line": 4, "name": "MissingIndex", "error": 17, "suggestion": {"kind": ATTACK, "properties": [[ATTACK, ATTACK]]}},
               {"line": 5, "ok": ATTACK, "commit": 10**30}, {"line": 6, "ok": "get", "place": -5, "entity": ATTACK}, {"line": 7, "name": "Conflict", "error": 13, "commit": 10**20, "group": [[ATTACK, 1]]},
               {"line": 10, "ok": "put", "commit": [ATTACK], "key": [["T", 1]]}, {"line": 13, "ok": "delete", "commit": "7", "key": [["T", 1]]},
               {"line": 8, "ok": "apply", "shard": 10**9, "count": 10**9}, {"line": 10**50, "ok": "put"}, {"line": -1, "ok": "put"}, {"line": 14, "ok": "commit", "commit": 16}, {"line": 15, "ok": "settle", "applied": {"a": 1}, "place": ATTACK},
               {"line": 16, "ok": "query", "applied": [-1], "results": []}]
    texts = [json.dumps(reply) for reply in replies] + [ATTACK, '{"line":9,"ok":"put","commit":%s}' % huge, '{"line":11,"error":%s,"name":"BadJson"}' % deep, "null", '{"line":true,"ok":"put"}', json.dumps({"line": 12, "name": "BadJson", "\ud800": ATTACK})]
    return "\n".join(lines).encode() + b"\n\xff\xfe\n", "\n".join(texts).encode() + b"\n\xff\n"


class Tags(html.parser.HTMLParser):
    """The tags and attributes of a page, as a browser would find them."""

    def __init__(self, text):
        super().__init__()
        self.found = []
        self.feed(text)

    def handle_starttag(self, tag, attributes):
        self.found.append((tag, attributes))


class Hostile(unittest.TestCase):
    def test_a_hostile_log_adds_no_tag(self):
        verdict = {"verdict": "not legal", "line": 2, "expected": ATTACK}
        self.assertEqual(Tags(page_of(*hostile(), ATTACK, verdict)).found, Tags(page_of("", "")).found)
        data = re.search(r'id="run">(.*?)</script>', page_of(*hostile(), ATTACK, verdict), re.S)[1]
        self.assertTrue(data.isascii() and not set(data) & set("<>&\n"))
        self.assertEqual(json.loads(data)["title"], ATTACK)

    def test_a_line_of_many_brackets_is_read_in_time(self):
        began = time.process_time()
        page_of("[" * 2_000_000, "{" * 2_000_000)
        many = [{"op": "begin"}, *({"op": "put", "entity": {"key": [["T", number]]}} for number in range(1, 20_000)), {"op": "commit"}]
        told = [{"ok": "begin"}, *({"ok": "put", "key": [["T", number]], "place": 0} for number in range(1, 20_000)), {"ok": "commit", "commit": 1}]
        page_of("\n".join(map(json.dumps, many)), "\n".join(json.dumps({**reply, "line": line}) for line, reply in enumerate(told, 1)))
        self.assertLess(time.process_time() - began, 10)


class Browser:
    """Chromium without a window, spoken with over its pipe: each message is JSON and a zero byte."""

    def __init__(self):
        self.folder = tempfile.TemporaryDirectory()
        asked, self.asks = os.pipe()
        self.tells, told = os.pipe()
        script = f"exec 3<&{asked} 4>&{told}; exec \"$0\" \"$@\""
        words = [CHROMIUM, "--headless=new", "--no-sandbox", "--disable-gpu", "--disable-dev-shm-usage", "--hide-scrollbars", "--remote-debugging-pipe", f"--user-data-dir={self.folder.name}"]
        self.process = subprocess.Popen(["bash", "-c", script, *words], pass_fds=(asked, told), stdin=subprocess.DEVNULL, stdout=subprocess.DEVNULL, stderr=subprocess.DEVNULL)
        os.close(asked)
        os.close(told)
        self.number, self.begun, self.events, self.session = 0, b"", [], None
        target = self.call("Target.createTarget", url="about:blank")["targetId"]
        self.session = self.call("Target.attachToTarget", targetId=target, flatten=True)["sessionId"]
        for domain in ("Page", "Runtime", "Log", "Network"):
            self.call(f"{domain}.enable")
        self.size(1440, 860)

    def size(self, wide, high, scale=1):
        self.call("Emulation.setDeviceMetricsOverride", width=wide, height=high, deviceScaleFactor=scale, mobile=False)

    def call(self, method, **members):
        self.number += 1
        os.write(self.asks, json.dumps({"id": self.number, "method": method, "params": members, **({"sessionId": self.session} if self.session else {})}).encode() + b"\0")
        while True:
            told = self._next()
            if told.get("id") == self.number:
                if "error" in told:
                    raise RuntimeError(told["error"])
                return told["result"]

    def _next(self):
        while b"\0" not in self.begun:
            piece = os.read(self.tells, 1 << 20)
            if not piece:
                raise RuntimeError("the browser has ended")
            self.begun += piece
        text, _, self.begun = self.begun.partition(b"\0")
        told = json.loads(text)
        if "method" in told:
            self.events.append(told)
        return told

    def open(self, file, place=""):
        """Opens a page, and gives the seconds until it was drawn."""
        for url in ("about:blank", pathlib.Path(file).resolve().as_uri() + place):
            self.events.clear()
            began = time.monotonic()
            self.call("Page.navigate", url=url)
            while not any(event["method"] == "Page.loadEventFired" for event in self.events):
                self._next()
        self.settle()
        return time.monotonic() - began

    def settle(self):
        self.run("new Promise(done => requestAnimationFrame(() => requestAnimationFrame(() => done())))")

    def run(self, script):
        told = self.call("Runtime.evaluate", expression=script, awaitPromise=True, returnByValue=True)
        if "exceptionDetails" in told:
            raise RuntimeError(told["exceptionDetails"])
        return told["result"].get("value")

    def key(self, key):
        self.call("Input.dispatchKeyEvent", type="keyDown", key=key, **({"text": key} if len(key) == 1 else {}))
        self.call("Input.dispatchKeyEvent", type="keyUp", key=key)

    def mouse(self, kind, x, y):
        self.call("Input.dispatchMouseEvent", type=kind, x=x, y=y, button="left" if kind != "mouseMoved" else "none", clickCount=1)

    def dark(self, dark):
        self.call("Emulation.setEmulatedMedia", features=[{"name": "prefers-color-scheme", "value": "dark" if dark else "light"}])

    def picture(self):
        return base64.b64decode(self.call("Page.captureScreenshot", format="png")["data"])

    def faults(self):
        """What a page did that it must not do: an exception, a word on the console, a request but for its own file."""
        asked = [event["params"]["request"]["url"] for event in self.events if event["method"] == "Network.requestWillBeSent"]
        bad = ("Runtime.exceptionThrown", "Runtime.consoleAPICalled", "Log.entryAdded", "Page.javascriptDialogOpening")
        return [event for event in self.events if event["method"] in bad] + asked[1:]

    def close(self):
        self.process.kill()
        self.process.wait()
        os.close(self.asks)
        os.close(self.tells)
        with contextlib.suppress(OSError):
            self.folder.cleanup()


class InBrowser(unittest.TestCase):
    @classmethod
    def setUpClass(cls):
        if not CHROMIUM:
            print("the page in a browser: not tried, since there is no chromium")
            raise unittest.SkipTest("no chromium")
        cls.browser = Browser()
        cls.addClassCleanup(cls.browser.close)
        cls.folder = tempfile.TemporaryDirectory()
        cls.addClassCleanup(cls.folder.cleanup)

    def open(self, text, place=""):
        file = pathlib.Path(self.folder.name, "run.html")
        file.write_text(text, encoding="utf-8")
        seconds = self.browser.open(file, place)
        self.assertEqual(self.browser.faults(), [])
        return seconds

    def panel(self):
        return self.browser.run("document.getElementById('panel').innerText")

    def drawn(self, color):
        """How many points of the drawing have one of the page's colours, by its name."""
        return self.browser.run(f"""(() => {{
            const wanted = getComputedStyle(document.documentElement).getPropertyValue("--{color}").trim().match(/[0-9a-f]{{2}}/g).map(it => parseInt(it, 16));
            const points = pen.getImageData(0, 0, canvas.width, canvas.height).data;
            let count = 0;
            for (let i = 0; i < points.length; i += 4) if (wanted.every((it, at) => Math.abs(points[i + at] - it) < 3)) count++;
            return count;
        }})()""")

    def test_the_guestbook_tells_its_story(self):
        file = pathlib.Path(self.folder.name, "guestbook.html")
        sign_guestbook(file)
        self.open(file.read_text(encoding="utf-8"))
        summary = self.browser.run("document.getElementById('summary').innerText")
        for told in ("1 unseen overwrite", "1 stale query", "1 missing index"):
            self.assertIn(told, " ".join(summary.split()))
        self.assertIn("wrote over commit 4 (client 1, line 15), which client 0 had not seen", self.panel())
        self.browser.key("ArrowRight")
        self.assertIn("- kind: Greeting\n  properties:\n  - name: book\n  - name: date\n    direction: desc", self.panel())
        self.browser.key("ArrowRight")
        self.assertIn("It missed 3 committed writes of Greeting", self.panel())
        self.assertGreater(self.drawn("stale"), 100)

    def test_a_conflict_tells_its_story(self):
        self.open(page_of(*example("a_conflict")))
        self.assertIn("Commit 2 (client 0, line 10) wrote T a after place 1, at which this transaction had touched it in line 7.", self.panel())
        self.assertIn("The transaction of lines 6 to 12: 1 group touched, 1 write, ended by conflict.", self.panel())
        self.assertGreater(self.drawn("conflict"), 40)
        self.assertEqual(self.drawn("stale"), 0)
        self.browser.key("ArrowUp")
        self.assertIn("Commit 2: put T a.\n\nNothing in this run shows it applied on shard 0.", self.panel())

    def test_a_stale_query_tells_its_story(self):
        for dark in (False, True):
            self.browser.dark(dark)
            self.open(page_of(STALE, STALE_REPLIES))
            told = self.panel()
            for part in ("1 of 3 entries committed before it", "It missed 2 committed writes of Task", "Commit 1 put Task a\ncommitted, not applied on shard 0", "Commit 3 put Task c"):
                self.assertIn(part, told)
            self.assertNotIn("Commit 2", told)
            self.assertGreater(self.drawn("stale"), 100)
        self.browser.dark(False)
        self.open(page_of(STALE, STALE_REPLIES), "#7")
        self.assertIn("It missed nothing.", self.panel())
        self.open(page_of(STALE, STALE_REPLIES), "#1")
        self.assertIn("Applied on shard 0, as line 6 (settle) is the first to show.", self.panel())

    def test_a_run_without_findings_says_so(self):
        self.open(page_of(*example("a_guestbook")))
        self.assertIn("No conflict, no stale query, no missing index and no refusal.", self.panel())
        self.assertEqual((self.drawn("stale"), self.drawn("conflict")), (0, 0))
        self.browser.key("ArrowDown")
        self.browser.key("ArrowDown")
        self.assertIn("Commit 2: put Guestbook default / Greeting 4503599627370497.\nApplied on shard 0, as line 3 (gql) is the first to show.".replace("\n", "\n\n"), self.panel())
        self.browser.key("ArrowDown")
        self.assertIn("it sees commits 1 to 2.\n\nIt first applied what waited on shard 0: 2 entries.", self.panel())
        self.open(page_of("", ""))
        self.assertIn("made 0 commits", self.panel())

    def test_the_keyboard_the_search_and_the_mouse(self):
        self.open(page_of(STALE, STALE_REPLIES))
        self.assertIn("line 5 ", self.panel())
        self.browser.key("ArrowUp")
        self.assertIn("line 4 ", self.panel())
        self.browser.key("/")
        for letter in "task c":
            self.browser.key(letter)
        self.assertEqual(self.browser.run("document.getElementById('matches').textContent"), "1")
        self.browser.key("Enter")
        self.assertIn("line 3 ", self.panel())
        self.browser.key("Escape")
        self.assertEqual(self.browser.run("document.getElementById('matches').textContent + document.getElementById('search').value"), "")
        self.browser.key("Escape")
        self.assertIn("Entity groups", self.panel())
        row = 'JSON.stringify([view.getBoundingClientRect().left + 200, view.getBoundingClientRect().top + rowY(rowOfLine.get(5))])'
        x, y = json.loads(self.browser.run(row))
        self.browser.mouse("mouseMoved", x, y)
        self.browser.run("new Promise(done => setTimeout(done, 400))")
        tip = self.browser.run("document.getElementById('tip').hidden ? '' : document.getElementById('tip').innerText")
        self.assertIn("Commit 1, put Task a: committed, not applied on shard 0.", tip)
        self.browser.mouse("mousePressed", x, y)
        self.browser.mouse("mouseReleased", x, y)
        self.assertIn("line 5 ", self.panel())
        for text, count in (("client 0", "7"), ("client:1", "0"), ("kind", "0"), ("query stale", "1"), ("", "")):
            self.assertEqual(self.browser.run(f"search({json.dumps(text)}), document.getElementById('matches').textContent"), count, text)

    def test_missing_indexes_are_copied_as_an_index_file(self):
        self.open(page_of(*example("missing_index")))
        copied = self.browser.run("navigator.clipboard.writeText = async text => { window.copied = text; }, document.querySelector('#summary .copy').click(), Promise.resolve().then(() => window.copied)")
        self.assertTrue(copied.startswith("indexes:\n- kind: "), copied)
        with Server(indexes=copied, shards=1) as server:
            for line in example("missing_index")[0].splitlines():
                members = json.loads(line)
                members.pop("client", None)
                server.client(0)._ask(members.pop("op"), **members)

    def test_a_wrong_reply_is_marked_with_what_was_expected(self):
        self.open(page_of(STALE, STALE_REPLIES, verdict={"verdict": "not legal", "line": 5, "expected": '{"applied":true,"count":9007199254740993}'}))
        self.assertIn("not legal: line 5", self.browser.run("document.getElementById('summary').innerText"))
        told = self.panel()
        self.assertIn("no legal run has this reply", told)
        self.assertIn('Expected\n{"applied": true, "count": 9007199254740993}', told)
        self.assertEqual(self.browser.run("document.querySelectorAll('pre.wrong').length"), 1)
        self.assertIn("1 stale query", self.browser.run("document.getElementById('summary').innerText"))
        self.assertGreater(self.drawn("conflict"), 20)
        self.open(page_of(STALE, STALE_REPLIES, verdict={"verdict": "legal", "line": None, "expected": None}))
        self.assertEqual((self.browser.run("document.querySelector('#summary .good').innerText"), self.drawn("conflict")), ("legal", 0))

    def test_a_hostile_log_runs_nothing(self):
        self.open(page_of(*hostile(), ATTACK, {"verdict": "not legal", "line": 2, "expected": ATTACK}))
        tags = "[...document.querySelectorAll('*')].map(it => it.localName).filter(it => ['img', 'script', 'iframe', 'a', 'object', 'link'].includes(it)).join()"
        for step in range(20):
            self.assertEqual(self.browser.run(f"window.hacked === undefined && {tags}"), "script,script", step)
            self.browser.key("ArrowDown")
        self.browser.run("search('script'); choose(-1)")
        self.browser.settle()
        self.assertEqual(self.browser.run(f"window.hacked === undefined && {tags}"), "script,script")
        self.assertEqual(self.browser.faults(), [])
        blocked = self.browser.run("(() => { const it = document.createElement('script'); it.textContent = 'window.hacked = 2'; document.body.append(it); return window.hacked === undefined; })()")
        self.assertTrue(blocked, "the page's policy lets other scripts run")

    def test_fifty_thousand_lines_open_in_time(self):
        text = page_of(*made_up(50_000, 4, 2))
        seconds = min(self.open(text) for _ in range(3))
        self.assertLess(seconds, OPEN_SECONDS)
        painted = self.browser.run("(() => { view.scrollTop = 600000; const began = performance.now(); paint(); return performance.now() - began; })()")
        self.assertLess(painted, 200)
        self.assertLess(self.browser.run("document.querySelectorAll('*').length"), 500)
        print(f"50,000 lines: opened in {seconds:.1f} s, drawn in {painted:.0f} ms")


def made_up(count, shards, seed):
    """Lines and replies of a run of four clients, as a server without appliers could have answered them."""
    chance, lines, replies, entries, applied, last, begun, journal = random.Random(seed), [], [], [[] for _ in range(shards)], [0] * shards, {}, {}, 0
    while len(replies) < count:
        answered = []
        for _ in range(min(64, count)):
            client, root, now = chance.randrange(4), ["Account", f"a{chance.randrange(60)}"], len(lines) + 1
            key = [root, ["Entry", chance.randrange(1, 50)]][: chance.choice([1, 2])]
            shard, which, asked, told = keys.shard_of(keys.read_key([root]), shards), chance.random(), {"client": client}, {"client": client, "line": now}

            def commit(name, at):
                nonlocal journal
                journal += 1
                if name:
                    last[name] = journal
                    entries[at].append(journal)
                return journal

            if client in begun:
                group, place, at, wrote = begun[client]
                if which < 0.6:
                    begun[client] = group, place, at, True
                    asked.update(op="put", entity={"key": [group], "properties": {"n": now}})
                    told.update(ok="put", key=[group], place=place)
                else:
                    del begun[client]
                    asked.update(op="commit")
                    if last.get(group[1], 0) > place:
                        told.update(error=13, name="Conflict", commit=last[group[1]], group=[group], place=journal)
                    else:
                        told.update(ok="commit", commit=commit(group[1] if wrote else None, at))
            elif which < 0.5:
                asked.update(op="put", entity={"key": key, "properties": {"n": now, "s": "the text of a property"}})
                told.update(ok="put", key=key, commit=commit(root[1], shard))
            elif which < 0.7:
                asked.update(op="query", kind=chance.choice(["Account", "Entry"]), filters=[["n", "=", now]])
                told.update(ok="query", applied=list(applied), results=[key] * chance.randrange(4))
            elif which < 0.8:
                asked.update(op="get", key=key)
                told.update(ok="get", entity=None, place=journal)
                applied[shard] = len(entries[shard])
            elif which < 0.85:
                asked.update(op="begin")
                told.update(ok="begin")
                lines.append(json.dumps(asked))
                answered.append((client, now, json.dumps(told)))
                begun[client] = root, journal, shard, False
                asked, told = {"client": client, "op": "get", "key": [root]}, {"client": client, "line": now + 1, "ok": "get", "entity": None, "place": journal}
                applied[shard] = len(entries[shard])
            else:
                asked.update(op="apply", shard=shard)
                told.update(ok="apply", applied=applied[shard] < len(entries[shard]), count=min(applied[shard] + 1, len(entries[shard])), place=journal, shard=shard)
                applied[shard] = told["count"]
            lines.append(json.dumps(asked))
            answered.append((client, len(lines), json.dumps(told)))
        lines.append("")
        replies += [text for *_, text in sorted(answered)]
    return "\n".join(lines) + "\n", "\n".join(replies) + "\n"


# Gives a picture's width, height, the 256 colours that it has most of, and for each point the nearest of these.
NEAREST = """(async source => {
    const image = Object.assign(new Image(), {src: source});
    await image.decode();
    const pen = new OffscreenCanvas(image.width, image.height).getContext("2d"), counts = new Map(), nearest = new Map();
    pen.drawImage(image, 0, 0);
    const bytes = pen.getImageData(0, 0, image.width, image.height).data, points = new Uint32Array(bytes.buffer);
    for (const point of points) counts.set(point, (counts.get(point) || 0) + 1);
    const colors = [...counts].sort((a, b) => b[1] - a[1]).slice(0, 256).map(([color]) => color), parts = it => [it & 255, it >> 8 & 255, it >> 16 & 255];
    const far = (one, other) => parts(one).reduce((sum, part, i) => sum + (part - parts(other)[i]) ** 2, 0);
    for (const color of counts.keys()) nearest.set(color, colors.reduce((best, it, i) => far(it, color) < far(colors[best], color) ? i : best, 0));
    let text = "";
    for (const point of points) text += String.fromCharCode(nearest.get(point));
    return [image.width, image.height, colors.flatMap(parts), btoa(text)];
})"""


def small_png(browser, picture):
    """A picture with at most 256 colours, which is a third as large."""
    browser.open(os.devnull)
    wide, high, colors, points = browser.run(f"{NEAREST}('data:image/png;base64,{base64.b64encode(picture).decode()}')")
    points = base64.b64decode(points)
    rows = b"".join(b"\0" + points[row * wide : (row + 1) * wide] for row in range(high))
    parts = ((b"IHDR", struct.pack(">IIBBBBB", wide, high, 8, 3, 0, 0, 0)), (b"PLTE", bytes(colors)), (b"IDAT", zlib.compress(rows, 9)), (b"IEND", b""))
    return b"\x89PNG\r\n\x1a\n" + b"".join(struct.pack(">I", len(body)) + kind + body + struct.pack(">I", zlib.crc32(kind + body)) for kind, body in parts)


def make_pictures():
    """The pictures of docs/tools.md, from runs of the examples."""
    PICTURES.mkdir(exist_ok=True)
    os.chdir(TOP)  # so that places in the examples are told by their names there
    browser = Browser()
    with tempfile.TemporaryDirectory() as folder:
        sign_guestbook(pathlib.Path(folder, "guestbook.html"))
        pathlib.Path(folder, "conflict.html").write_text(page_of(*example("a_conflict"), "conflict"), encoding="utf-8")
        pathlib.Path(folder, "stale.html").write_text(page_of(STALE, STALE_REPLIES, "stale"), encoding="utf-8")
        for name, high in (("guestbook", 520), ("conflict", 440), ("stale", 440)):
            browser.size(1180, high, 1.5)
            browser.dark(name == "stale")
            browser.open(pathlib.Path(folder, f"{name}.html"))
            (PICTURES / f"{name}.png").write_bytes(small_png(browser, browser.picture()))
    browser.close()
    print(f"{sum(file.stat().st_size for file in PICTURES.iterdir()):,} bytes of pictures")


if __name__ == "__main__":
    make_pictures() if "--pictures" in sys.argv else unittest.main()
