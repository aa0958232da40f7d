"""The auditor: the examples' expected replies are legal, and replies changed by hand are not, told at their line.

Of each example a reply is changed in up to ten ways, each in a copy of its own: a count, a place, a commit number, an id, a result left out, two results
swapped, a wrong error, another client, a member more. The journal is the one that the acknowledged commits of the replies tell before they are changed.
Beside them stand small runs: one that is legal, and what is no longer so; two transactions of which one conflicts; ids that are drawn and accepted; a run
whose files are larger than a megabyte; words that aren't UTF-8; and a run that is refused memory, call by call.
"""
import copy
import json
import pathlib

from tests.auditing import journal, verdict
from tests.case import EXAMPLES, WHOLE, WORDS, Case, auditor, example, example_index, example_words, run, sample
from tests.refusing import Refusing

# The auditor's statuses, by what it tells before a colon.
STATUSES = {"legal": 0, "usage": 1, "index file": 2, "journal": 3, "write fault": 4, "file fault": 5, "not legal": 7}


def compact(reply):
    return json.dumps(reply, ensure_ascii=False, separators=(",", ":"), sort_keys=True)


# ---- wrong replies: each takes a reply and how many commits there are, and gives a changed one, or None where it has nothing to change


def count(reply, commits):
    if isinstance(reply.get("applied"), list) and reply["applied"]:
        reply["applied"][-1] += 1000
        return reply
    return None


def place(reply, commits):
    if "place" in reply and "error" not in reply:
        reply["place"] = commits + 1
        return reply
    return None


def commit(reply, commits):
    if "commit" in reply and "ok" in reply:
        reply["commit"] += 1
        return reply
    return None


def identifier(reply, commits):
    if reply.get("ok") in ("put", "delete"):
        last = reply["key"][-1]
        last[1] = last[1] + 1 if isinstance(last[1], int) else last[1] + "x"
        return reply
    return None


def left_out(reply, commits):
    if len(reply.get("results", [])) > 0:
        reply["results"].pop()
        return reply
    return None


def swapped(reply, commits):
    results = reply.get("results", [])
    if len(results) > 1 and results[0] != results[1]:
        results[0], results[1] = results[1], results[0]
        return reply
    return None


def error(reply, commits):
    if "error" in reply:
        return {"client": reply["client"], "line": reply["line"], "error": 9 if reply["error"] == 8 else 8,
                "name": "NoTransaction" if reply["error"] == 8 else "InTransaction"}
    return None


def refused(reply, commits):
    if "ok" in reply:
        return {"client": reply["client"], "line": reply["line"], "error": 3, "name": "BadRequest", "field": "op"}
    return None


def client(reply, commits):
    reply["client"] = (reply["client"] + 1) % 16
    return reply


def more(reply, commits):
    reply["zzz"] = 1
    return reply


CHANGES = [count, place, commit, identifier, left_out, swapped, error, refused, client, more]


def changes(replies, commits):
    """Changed replies: the place among the replies, what was changed, and its new text."""
    found = []
    for change in CHANGES:
        for at, text in enumerate(replies):
            changed = change(copy.deepcopy(json.loads(text)), commits)
            if changed is not None and compact(changed) != text:
                found.append((at, change.__name__, compact(changed)))
                break
    return found


# ---- small runs: a name, the input, the replies, the journal, the words, and what is told

PUT = '{"op":"put","entity":{"key":[["Task","a"]],"properties":{"n":5,"s":"x"}}}'
FIRST = PUT + '\n{"op":"settle"}\n{"op":"query","kind":"Task"}\n'
FIRST_REPLIES = (
    '{"client":0,"commit":1,"key":[["Task","a"]],"line":1,"ok":"put"}\n'
    '{"applied":[1],"client":0,"line":2,"ok":"settle","place":1}\n'
    '{"applied":[1],"client":0,"line":3,"ok":"query","results":[{"key":[["Task","a"]],"properties":{"n":5,"s":"x"}}]}\n'
)
FIRST_JOURNAL = '{"client":0,"commit":1,"touched":[],"writes":[{"put":{"key":[["Task","a"]],"properties":{"n":5,"s":"x"}}}]}\n'
STALE = FIRST_REPLIES.replace('"applied":[1],"client":0,"line":3', '"applied":[0],"client":0,"line":3').split('"results":')[0] + '"results":[]}\n'

TWO = (
    '{"client":1,"op":"put","entity":{"key":[["C","x"]],"properties":{"n":0}}}\n\n'
    '{"client":0,"op":"begin"}\n{"client":0,"op":"get","key":[["C","x"]]}\n'
    '{"client":1,"op":"begin"}\n{"client":1,"op":"get","key":[["C","x"]]}\n\n'
    '{"client":0,"op":"put","entity":{"key":[["C","x"]],"properties":{"n":1}}}\n{"client":0,"op":"commit"}\n'
    '{"client":1,"op":"put","entity":{"key":[["C","x"]],"properties":{"n":2}}}\n{"client":1,"op":"commit"}\n'
)


def two_replies(zero, one):
    """Of two transactions on one group: what is said to the commits of clients 0 and 1."""
    return (
        '{"client":1,"commit":1,"key":[["C","x"]],"line":1,"ok":"put"}\n'
        '{"client":0,"line":3,"ok":"begin"}\n'
        '{"client":0,"entity":{"key":[["C","x"]],"properties":{"n":0}},"line":4,"ok":"get","place":1}\n'
        '{"client":1,"line":5,"ok":"begin"}\n'
        '{"client":1,"entity":{"key":[["C","x"]],"properties":{"n":0}},"line":6,"ok":"get","place":1}\n'
        f'{{"client":0,"key":[["C","x"]],"line":8,"ok":"put","place":1}}\n{zero}\n'
        f'{{"client":1,"key":[["C","x"]],"line":10,"ok":"put","place":1}}\n{one}\n'
    )


def committed(client, line, number):
    return f'{{"client":{client},"commit":{number},"line":{line},"ok":"commit"}}'


def conflicts(client, line):
    return f'{{"client":{client},"commit":2,"error":13,"group":[["C","x"]],"line":{line},"name":"Conflict","place":2}}'


def two_journal(*clients):
    lines = ['{"client":1,"commit":1,"touched":[],"writes":[{"put":{"key":[["C","x"]],"properties":{"n":0}}}]}']
    for number, client in enumerate(clients, 2):
        write = f'[{{"put":{{"key":[["C","x"]],"properties":{{"n":{client + 1}}}}}}}]'
        lines.append(f'{{"client":{client},"commit":{number},"touched":[[[["C","x"]],1]],"writes":{write}}}')
    return "".join(line + "\n" for line in lines)


IDS = '{"op":"allocate_ids","count":3}\n'
HIGH = '{"op":"put","entity":{"key":[["T",4503599627370496]],"properties":{}}}\n'


def ids(first):
    return f'{{"client":0,"count":3,"first":{first},"line":1,"ok":"allocate_ids"}}\n'


RUNS = [
    ("legal", FIRST, FIRST_REPLIES, FIRST_JOURNAL, WORDS, "legal"),
    ("older than what was seen", FIRST, STALE, FIRST_JOURNAL, WORDS, "not legal: line 3"),
    ("no journal", FIRST, FIRST_REPLIES, "", WORDS, "not legal: line 1"),
    ("a line more", FIRST, FIRST_REPLIES + "x\n", FIRST_JOURNAL, WORDS, "not legal: count"),
    ("no last newline", FIRST, FIRST_REPLIES[:-1], FIRST_JOURNAL, WORDS, "not legal: count"),
    ("no commit's line", FIRST, FIRST_REPLIES, "x\n", WORDS, "journal: line 1"),
    ("no words", FIRST, FIRST_REPLIES, FIRST_JOURNAL, ["--shards"], "usage"),
    ("no index file", FIRST, FIRST_REPLIES, FIRST_JOURNAL, [*WORDS, "--indexes", "none.yaml"], "file fault"),
    ("a wrong index file", FIRST, FIRST_REPLIES, FIRST_JOURNAL, [*WORDS, "--indexes", "input"], "index file: line 1"),
    ("a full disk", FIRST, FIRST_REPLIES, FIRST_JOURNAL, WORDS, "write fault"),
    ("client 1 conflicts", TWO, two_replies(committed(0, 9, 2), conflicts(1, 11)), two_journal(0), WORDS, "legal"),
    ("client 0 conflicts", TWO, two_replies(conflicts(0, 9), committed(1, 11, 2)), two_journal(1), WORDS, "legal"),
    ("both are committed", TWO, two_replies(committed(0, 9, 2), committed(1, 11, 3)), two_journal(0, 1), WORDS, "not legal: line 11"),
    ("a commit that nobody was told", TWO, two_replies(committed(0, 9, 2), conflicts(1, 11)), two_journal(0)
     + '{"client":1,"commit":3,"touched":[],"writes":[{"put":{"key":[["C","y"]],"properties":{}}}]}\n', WORDS, "not legal: numbers"),
    ("ids from the first on", IDS, ids(4503599627370496), "", WORDS, "legal"),
    ("an id left out", IDS, ids(4503599627370497), "", WORDS, "not legal: ids"),
    ("an id that wasn't drawn", HIGH, '{"client":0,"commit":1,"key":[["T",4503599627370496]],"line":1,"ok":"put"}\n',
     '{"client":0,"commit":1,"touched":[],"writes":[{"put":{"key":[["T",4503599627370496]],"properties":{}}}]}\n', WORDS, "not legal: ids"),
    ("an id that isn't issued", HIGH, '{"client":0,"error":21,"id":4503599627370496,"line":1,"name":"IdNotIssued","next":4503599627370496}\n', "",
     WORDS, "legal"),
]


class Audited(Case):
    def test_small_runs(self):
        for name, lines, replies, told, words, wanted in RUNS:
            # What is written to /dev/full fails.
            with open("/dev/full", "wb") as full:
                how = {"stdout": full} if wanted == "write fault" else {}
                ran = verdict(lines.encode(), replies.encode(), words, told, **how)
            self.expect(name, (ran.output.decode().strip() + ran.errors, ran.status), (wanted, STATUSES[wanted.partition(":")[0]]))

    def test_examples(self):
        for file in sorted(EXAMPLES.glob("*.jsonl")):
            name, expected = file.stem, file.with_suffix(".expected").read_bytes()
            lines, told, replies = example(name), journal(example(name), expected), expected.decode().splitlines()

            def judged(what, these, wanted):
                ran = verdict(lines, "".join(line + "\n" for line in these).encode(), example_words(name), told, example_index(name))
                self.expect(f"{name}, {what}", (ran.output.decode().strip(), ran.errors), (wanted, ""))

            judged("as expected", replies, "legal")
            judged("a reply left out", replies[:-1], "not legal: count")
            for at, what, text in changes(replies, told.count(b"\n")):
                number = json.loads(replies[at])["line"]
                judged(f"{what} at line {number}", replies[:at] + [text] + replies[at + 1:], f"not legal: line {number}")

    def test_large_files(self):
        """Input, replies and journal of more than a megabyte each: legal, and not where the last reply is another."""
        count, text = 600, "x" * 2_000
        puts = [json.dumps({"op": "put", "entity": {"key": [["T", n]], "properties": {"t": {"text": f"{text}{n}"}}}}) for n in range(1, count + 1)]
        gets = [json.dumps({"op": "get", "key": [["T", n]]}) for n in range(1, count + 1)]
        lines = "".join(line + "\n" for line in [*puts, *gets]).encode()
        replies = run(lines).output
        told = journal(lines, replies)
        for what, size in (("input", len(lines)), ("replies", len(replies)), ("journal", len(told))):
            self.expect(f"whether the {size} bytes of the {what} are more than a megabyte", size > 2**20, True)
        self.expect("files of more than a megabyte", verdict(lines, replies, WORDS, told).end, (0, b"legal\n", ""))
        changed = replies[:-10] + replies[-10:].replace(b"}", b" }", 1)
        self.expect("a reply changed behind the first megabyte", verdict(lines, changed, WORDS, told).end, (7, b"not legal: line %d\n" % (2 * count), ""))

    def test_words_that_are_no_text(self):
        files = {"input": FIRST, "replies": FIRST_REPLIES, "journal": FIRST_JOURNAL}
        named = ["input", "replies", "journal", *WORDS]
        for at in range(len(named) + 1):
            for word in (b"\xff", b"input\xc3"):
                words = [*named[:at], word, *named[at + 1:]]
                self.expect(f"word {at + 1} is {word!r}", run(b"", words, of=auditor(), files=files).end, (1, b"", "usage"))


class Refused(Refusing):
    def test_memory(self):
        """Each call that takes memory is refused, with all behind it: then nothing is printed but, on standard error, why. Of a call that is
        refused alone the same holds, or the verdict is as without: a line that can't be read in the quick way for it is read in the general one."""
        for name, lines, replies, told, words, wanted in [it for it in RUNS if it[0] in ("legal", "a line more", "both are committed", "an id left out")]:
            for file, content in (("input", lines), ("replies", replies), ("journal", told)):
                pathlib.Path(self.folder, file).write_text(content, encoding="utf-8")
            words = ["input", "replies", "journal", *words]
            whole = self.run_refused(b"", words, of=auditor())
            self.expect(f"{name}, without refusals", (whole.output.decode().strip(), whole.status), (wanted, STATUSES[wanted.partition(":")[0]]))
            calls = whole.counts["memory"]
            # The last calls are those by which a verdict is printed.
            alone = []
            some = range(1, calls + 1) if WHOLE else sorted({*range(1, calls, max(1, calls // sample(12, 4, 12))), *range(max(1, calls - 3), calls + 1)})
            for call in some:
                for at in (f"{call}..", str(call)):
                    ran = self.run_refused(b"", words, of=auditor(), memory=at)
                    self.expect(f"{name}, memory is refused from call {at} of {calls}: whether some is", ran.counts["refused"] > 0, True)
                    unseen = ran.end == whole.end and at == str(call)
                    self.expect(f"{name}, memory is refused from call {at} of {calls}", ran.end, whole.end if unseen else (6, b"", "no memory"))
                    if at == str(call):
                        alone.append(unseen)
            self.expect(f"{name}: whether most calls that are refused alone are told ({len(alone) - sum(alone)} of {len(alone)})",
                        2 * sum(alone) < len(alone), True)
