"""Hostile lines: known hard ones, and damaged ones from a seed, of 16 clients.

Each line has one reply, in the order of clients and lines; none is NoMemory; a line is refused as no JSON exactly where Python reads none; the
memory that the server holds doesn't grow; and it ends with status 0. The whole of it are 100,000 damaged lines.
"""
import json
import math

from tests import damage, law
from tests.case import INDEXED, SEED, Case, Talk, run, sample

LINES, ROUNDS = 500, sample(6, 2, 200)
SLACK = 8 << 20


def is_text(value):
    return not isinstance(value, str) or value.encode(errors="ignore").decode() == value


def members(pairs):
    if not all(is_text(name) and is_text(value) for name, value in pairs):
        raise ValueError("half of a pair of surrogates")
    return dict(pairs)


def finite(text):
    number = float(text)
    if not math.isfinite(number):
        raise ValueError("a number past all floats")
    return number


def whole(text):
    """An integer. As in the server, `-0` and one past 64 bits are read as a float."""
    if text == "-0":
        return -0.0
    if len(text) > 18:
        finite(text)
        return float(text) if abs(float(text)) >= 2**63 else int(text)
    return int(text)


def none(text):
    raise ValueError(f"{text} is no JSON")


def depth(line):
    """The most levels of arrays and objects that are open at once, up to the first place where the text can't be JSON."""
    level = most = at = 0
    while at < len(line):
        letter = line[at]
        if letter == 0x22:
            at += 1
            while at < len(line) and line[at] != 0x22:
                at += 2 if line[at] == 0x5C else 1
        elif letter in b"[{":
            level += 1
            most = max(most, level)
        elif letter in b"]}":
            level -= 1
        at += 1
    return most


def read(line):
    """The line's JSON value as a tuple of one, or an empty one where it is none, by Python's own reader."""
    try:
        value = json.loads(line.decode(), object_pairs_hook=members, parse_float=finite, parse_int=whole, parse_constant=none)
        # A text within an array is met here.
        json.dumps(value, ensure_ascii=False).encode()
    except (ValueError, RecursionError, OverflowError):
        return ()
    return (value,) if depth(line) <= 127 else ()


def head(line):
    """What the line's own form says of its reply: the client, and a refusal or none."""
    if len(line) > 2_097_152:
        return 0, 2, None
    value = read(line)
    if not value:
        return 0, 1, None
    if not isinstance(value[0], dict):
        return 0, 3, "line"
    client = value[0].get("client")
    if client is None:
        return 0, None, None
    if type(client) is not int or not 0 <= client <= 15:
        return 0, 3, "client"
    return client, None, None


class Judging(Case):
    def judge_round(self, first, lines, texts):
        """One reply a line, by client and then line, each with the client and the refusal of form that its line has."""
        self.expect(f"replies to the {len(lines)} lines from {first} on", len(texts), len(lines))
        heads = {first + at: head(line) for at, line in enumerate(lines)}
        order = sorted(heads, key=lambda number: (heads[number][0], number))
        for number, text in zip(order, texts):
            client, error, field = heads[number]
            reply, line = law.read(text), lines[number - first]
            what = f"line {number}, {line[:300]!r}: {text[:200]!r}"
            told = (reply.get("client"), reply.get("line"), law.compact(reply) + b"\n" == text)
            self.expect(f"{what}: client, line, compact form", told, (client, number, True))
            if error is not None or reply.get("error") in (1, 2) or (reply.get("error"), reply.get("field")) in ((3, "line"), (3, "client")):
                self.expect(f"{what}: refusal of form", (reply.get("error"), reply.get("field")), (error, field))
            self.expect(f"{what}: whether there was memory", reply.get("name") != "NoMemory", True)
            self.expect(f"{what}: whether the reply is to its op", "error" in reply or reply.get("ok") == law.read(line).get("op"), True)


class Lines(Judging):
    def test_hard_lines(self):
        ran = run(b"".join(line + b"\n" for line, _ in damage.HARD), INDEXED, damage.INDEX)
        wanted = [law.compact({"client": 0, "line": number, **parts}) + b"\n" for number, (_, parts) in enumerate(damage.HARD, 1)]
        for text, want in zip(ran.lines, wanted):
            self.expect("a hard line", text, want)
        self.expect("replies to hard lines, status, error text", (len(ran.lines), ran.status, ran.errors), (len(wanted), 0, ""))

    def test_damaged_lines(self):
        number, held = 1, []
        with Talk() as talk:
            for lines in damage.rounds(SEED, ROUNDS, LINES):
                texts = talk.round(lines)
                self.judge_round(number, lines, texts)
                if len(texts) < len(lines):
                    break
                held.append(talk.memory())
                number += len(lines) + 1
        self.expect("status, error text, bytes behind the replies", talk.end, (0, "", b""))
        if len(held) == ROUNDS > 3:
            early, late = max(held[:ROUNDS // 4]), max(held)
            print(f"{ROUNDS * LINES} damaged lines; memory {early >> 20} MiB after a quarter, at most {late >> 20} MiB")
            self.expect("whether no more bytes are held at most than after a quarter", late <= early + SLACK, True)
