"""Kept files as bytes, for tests: batches, lines of commits that are some, and lines that are none."""
import json

FIRST = 2**52
LAST = 2**63 - 1


def text(told):
    """JSON as the server writes it."""
    return json.dumps(told, ensure_ascii=False, separators=(",", ":"), sort_keys=True)


def line(number, writes, touched=(), client=0):
    """The line of a commit."""
    return text({"client": client, "commit": number, "touched": list(touched), "writes": list(writes)})


def put(key, /, **properties):
    """The write of an entity with this key."""
    return {"put": {"key": key, "properties": properties}}


def delete(key):
    """The write that deletes the entity of a key."""
    return {"delete": key}


def batch(lines, next_id=FIRST, head=None):
    """The bytes of a batch: an open gate, the length of the body, and the body."""
    body = ((f'{{"next":{next_id}}}' if head is None else head) + "\n" + "".join(it + "\n" for it in lines)).encode("utf-8", "surrogatepass")
    return b"\x01" + len(body).to_bytes(8, "big") + body


def kept(*batches):
    """The bytes of a file with these batches."""
    return b"".join(batches) + b"\x00"


T = [["T", "a"]]
THREE = [
    line(1, [put(T, n=1)]),
    line(2, [put([["T", "a"], ["U", 1]], n=2), delete([["T", "b"]])], touched=[[T, 1], [[["T", "b"]], 0]], client=3),
    line(3, [put([["T", FIRST]], s="x")]),
]
"""A batch of three commits, with the counter behind the id that the third has."""
WHOLE = kept(batch(THREE, FIRST + 1))

VALUES = {
    "null": None, "truth": True, "integer": -(2**63), "string": "a\u00e9\u2028\U0001f600\"\\\n\x01\x7f", "date": {"date": -1}, "rating": {"rating": 100},
    "bytes": {"bytes": "AP8="}, "blob": {"blob": ""}, "text": {"text": "x" * 2000}, "key": {"key": ["space", ["__K__", 1], ["L", "m"]]},
    "several": [1, "x", {"text": "y"}], "unindexed": {"unindexed": "x" * 2000}, "both": {"unindexed": [None, {"bytes": "AA=="}]},
}
"""Properties of all kinds."""

RIGHT = [
    ("values of all kinds", line(1, [put(["space.-_9", ["T", 1], ["U", "x"]], **VALUES)])),
    ("no write", line(1, [])),
    ("500 writes", line(1, [delete([["T", n]]) for n in range(1, 501)])),
    ("a key of 100 elements", line(1, [delete([["T", 1]] * 100)])),
    ("a delete of a reserved key", line(1, [delete([["__T__", "__a__"]])])),
    ("the greatest client and place that have a form", line(1, [], touched=[[T, 0], [[["T", "a"], ["U", 1]], 0]], client=2**32 - 1)),
    ("an entity of the greatest size", line(1, [put(T, t={"text": "x" * (2**20 - 18 - 17 - 16)})])),
]
"""Lines of a first commit that are some."""

ONE = line(1, [put(T, n=1)])
WRONG = [
    ("no JSON", "x"),
    ("no object", "[]"),
    ("nothing", ""),
    ("a space", ONE.replace(":1", ": 1", 1)),
    ("a space at the end", ONE + " "),
    ("a member more", ONE.replace('"commit"', '"comment":1,"commit"')),
    ("a member twice", ONE.replace('"commit":1', '"commit":1,"commit":1')),
    ("members in another order", '{"commit":1,"client":0,"touched":[],"writes":[]}'),
    ("no touched groups", '{"client":0,"commit":1,"writes":[]}'),
    ("another number", line(2, [put(T, n=1)])),
    ("a number that is a truth value", ONE.replace('"commit":1', '"commit":true')),
    ("a float", ONE.replace('"commit":1', '"commit":1.0')),
    ("a client too great", line(1, [], client=2**32)),
    ("a client below 0", line(1, [], client=-1)),
    ("a place too great", line(1, [], touched=[[T, 2**64]])),
    ("a touched key that is none", line(1, [], touched=[[[], 0]])),
    ("a touched group without its place", line(1, [], touched=[[T]])),
    ("501 writes", line(1, [delete([["T", n]]) for n in range(1, 502)])),
    ("a write of two members", line(1, [{**put(T), **delete(T)}])),
    ("a write of none", line(1, [{}])),
    ("an empty namespace", line(1, [delete(["", ["T", 1]])])),
    ("a wrong namespace", line(1, [delete(["a b", ["T", 1]])])),
    ("a namespace alone", line(1, [delete(["a"])])),
    ("101 elements", line(1, [delete([["T", 1]] * 101)])),
    ("an id of 0", line(1, [delete([["T", 0]])])),
    ("an id too great", line(1, [delete([["T", 2**63]])])),
    ("a key without its id", line(1, [put([["T", None]])])),
    ("an empty name", line(1, [delete([["T", ""]])])),
    ("a kind of 1,501 bytes", line(1, [delete([["\u00e9" * 750 + "x", 1]])])),
    ("a put of a reserved kind", line(1, [put([["__T__", 1]])])),
    ("a reserved property", line(1, [put(T, __a__=1)])),
    ("an empty property's name", line(1, [put(T, **{"": 1})])),
    ("no properties", '{"client":0,"commit":1,"touched":[],"writes":[{"put":{"key":[["T","a"]]}}]}'),
    ("no value", line(1, [put(T, a=1.5)])),
    ("an integer of 65 bits", line(1, [put(T, a=2**63)])),
    ("an integer below 0 that is 0", ONE.replace('"n":1', '"n":-0')),
    ("an empty list", line(1, [put(T, a=[])])),
    ("a list of one", line(1, [put(T, a=[1])])),
    ("a list in a list", line(1, [put(T, a=[1, [2, 3]])])),
    ("an unindexed list of one", line(1, [put(T, a={"unindexed": [1]})])),
    ("unindexed twice", line(1, [put(T, a={"unindexed": {"unindexed": 1}})])),
    ("a value of two members", line(1, [put(T, a={"date": 1, "rating": 1})])),
    ("a value of no form", line(1, [put(T, a={"user": "x"})])),
    ("a rating of 101", line(1, [put(T, a={"rating": 101})])),
    ("a date of 65 bits", line(1, [put(T, a={"date": 2**63})])),
    ("base64 without its end", line(1, [put(T, a={"bytes": "AA"})])),
    ("base64 with bits beyond", line(1, [put(T, a={"bytes": "AB=="})])),
    ("an indexed text of 1,501 bytes", line(1, [put(T, a="x" * 1501)])),
    ("indexed bytes of 1,501", line(1, [put(T, a={"bytes": "A" * 2000 + "AAA="[:4]})])),
    ("a key in a value that is none", line(1, [put(T, a={"key": [["T", 0]]})])),
    ("an entity too large by one", line(1, [put(T, t={"text": "x" * (2**20 - 18 - 17 - 15)})])),
    ("properties out of order", '{"client":0,"commit":1,"touched":[],"writes":[{"put":{"key":[["T","a"]],"properties":{"b":1,"a":1}}}]}'),
    ("half a surrogate pair", ONE.replace('"n":1', '"n":"\\ud800"')),
    ("an escape that isn't needed", ONE.replace('"n":1', '"n":"\\u00e9"')),
    ("nested too deep", ONE.replace('"n":1', '"n":' + "[" * 200 + "]" * 200)),
]
"""Lines that are those of no first commit."""
