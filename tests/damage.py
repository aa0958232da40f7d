"""Lines as a hostile or broken client sends them: those that are known to be hard, and damaged ones from a seed."""
import json
import random

from tests.case import EXAMPLES


def examples():
    """Every line of the examples that isn't too long, to be damaged."""
    return [line for file in sorted(EXAMPLES.glob("*.jsonl")) for line in file.read_bytes().splitlines() if line.strip() and len(line) < 3000]


TEN = list(range(1, 11))
# Each with what its reply has beside client and line.
HARD = [
    (b"[" * 128 + b"]" * 128, {"error": 1, "name": "BadJson"}),
    (b'"\xff"', {"error": 1, "name": "BadJson"}),
    (json.dumps({"op": "query", "kind": "T", "filters": [[f"q{n:02}", "in", TEN] for n in range(1, 22)]}).encode(), {"count": 2**63 - 1, "error": 16, "name": "TooManySubqueries"}),
    (b'{"op":"query","kind":"T","start":"Af////8="}', {"error": 18, "field": "start", "name": "BadCursor"}),
    (b"a" * 2_097_152, {"error": 1, "name": "BadJson"}),
    (b"a" * 2_097_153, {"error": 2, "name": "LineTooLong"}),
    (json.dumps({"op": "gql", "text": "SELECT" + " a," * 100_000}).encode(), {"at": 300_006, "error": 20, "name": "BadGql"}),
    (b'{"op":"put","entity":{"key":[["T","a"]],"properties":{"v":[[1]]}}}', {"error": 5, "field": "entity", "name": "BadValue"}),
]
# With an index file that has one definition of kind T over p1 to p5.
INDEX = "indexes:\n- kind: T\n  properties:\n" + "".join(f"  - name: p{n}\n" for n in range(1, 6))
MANY_ROWS = json.dumps({"op": "put", "entity": {"key": [["T", "a"]], "properties": {f"p{n}": list(range(1, 10_001)) for n in range(1, 6)}}}).encode()
HARD.append((MANY_ROWS, {"count": 2**63 - 1, "error": 7, "name": "TooManyRows"}))

NOT_TEXT = [b"\xff", b"\xc3", b"\xed\xa0\x80", b"\xf4\x90\x80\x80", b"\xc0\xaf", b"\xe2\x82", b"\x80", b"\xf8\x88\x80\x80\x80"]
NUMBERS = [b"1e999999", b"-1e999", b"1e400", b"9223372036854775808", b"-9223372036854775809", b"1" * 400, b"1" * 5000, b"0." + b"3" * 900, b"1e-99999999", b"01", b"-", b"1.0", b"1e3", b"NaN",
           b"18446744073709551616", b"-0", b"0e999999999"]
TEXTS = [b'"\\ud800"', b'"\\udc00\\ud800"', b'"\\u0000"', b'"\\x"', b'"' + b"a" * 3000 + b'"', b'"\\ud83d\\ude00"', b'"\x01"', b'"unclosed']


def damaged(draw, line, other):
    """The line, spoiled in one way or in several."""
    for _ in range(draw.choice((1, 1, 1, 2, 3))):
        at, to = sorted(draw.randrange(len(line) + 1) for _ in range(2))
        way = draw.randrange(12)
        if way == 0:
            line = line[:at]
        elif way == 1:
            line = line[:at] + line[to:]
        elif way == 2:
            line = line[:to] + line[at:to] + line[to:]
        elif way == 3:
            middle = (at + to) // 2
            line = line[:at] + line[middle:to] + line[at:middle] + line[to:]
        elif way == 4:
            line = line + draw.choice((b"", b" ", b",", b"}")) + other
        elif way == 5:
            line = line[:at] + other[at:]
        elif way == 6:
            line = line[:at] + draw.randbytes(draw.randrange(1, 12)) + line[to if draw.random() < 0.5 else at:]
        elif way == 7:
            depth = draw.choice((3, 100, 125, 126, 127, 128, 129, 5000, 100_000 if draw.random() < 0.05 else 200))
            line = line[:at] + draw.choice((b"[", b'{"a":')) * depth + line[at:]
        elif way == 8:
            depth = draw.choice((100, 120, 124, 126, 127, 128, 1000))
            line = b'{"op":"put","entity":{"key":[["T","a"]],"properties":{"v":' + b"[" * depth + b"]" * depth + b"}}}"
        elif way == 9:
            numbers = [place for place in range(len(line)) if line[place:place + 1].isdigit()]
            place = draw.choice(numbers) if numbers else at
            line = line[:place] + draw.choice(NUMBERS) + line[place + 1:]
        elif way == 10:
            line = line[:at] + draw.choice(NOT_TEXT) + line[at:]
        else:
            parts = line.split(b'"')
            place = draw.randrange(len(parts))
            parts[place] = draw.choice(TEXTS)
            line = b'"'.join(parts)
    line = line.replace(b"\n", b"\x00")
    return line if line.strip(b" \t\r") else b"\x00"


def is_write(line):
    """Whether the damaged line can still be read as a write."""
    try:
        value = json.loads(line)
    except (ValueError, RecursionError):
        return False
    return isinstance(value, dict) and value.get("op") in ("put", "delete", "commit")


def rounds(seed, count, lines):
    """So many rounds of so many damaged lines, of 16 clients as far as they can still be read.

    A store rightly grows with what is written: of the lines that are still writes behind their damage one in 20 is left, and the others are damaged more.
    """
    draw, whole = random.Random(seed), examples()
    for at in range(count):
        found = []
        for _ in range(lines):
            line, other = draw.choice(whole), draw.choice(whole)
            if line.startswith(b"{"):
                line = b'{"client":%d,' % draw.randrange(17) + line[1:]
            line = damaged(draw, line, other)
            while is_write(line) and draw.random() < 0.95:
                line = damaged(draw, line, other)
            found.append(line)
        yield found
