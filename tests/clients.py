"""Makes inputs in which many clients use a store at once, from a seed."""
import json
import random

OPS = ["put"] * 6 + ["new"] * 2 + ["get"] * 4 + ["query"] * 2 + ["under"] * 2 + ["begin"] * 2 + ["commit"] * 3 + ["delete", "rollback", "settle", "apply", "ids"]


def request(draw, number, groups):
    """One request, without its client. Groups are few, so that transactions conflict; a value is the number that it is given."""
    op, group = draw.choice(OPS), [["G", draw.randrange(1, groups + 1)]]
    key = group + ([["T", draw.choice("abc")]] if draw.random() < 0.5 else [])
    return {
        "put": {"op": "put", "entity": {"key": key, "properties": {"n": number, "s": "text" * draw.randrange(8), "l": [number, number + 1]}}},
        "new": {"op": "put", "entity": {"key": [*group, ["N", None]], "properties": {"n": number}}},
        "get": {"op": "get", "key": key},
        "query": {"op": "query", "kind": draw.choice("GTN"), "select": draw.choice(["keys", "entities"])},
        "under": {"op": "query", "kind": draw.choice("GTN"), "ancestor": group},
        "begin": {"op": "begin", "xg": draw.random() < 0.5},
        "delete": {"op": "delete", "key": key},
        "ids": {"op": "allocate_ids", "count": draw.randrange(1, 4)},
        "apply": {"op": "apply", "shard": 0},
    }.get(op, {"op": op})


def rounds(seed, count, lines, clients=16, groups=12):
    """So many rounds, each a list of so many lines, whose clients come in any order."""
    draw, found = random.Random(seed), []
    for at in range(count):
        found.append([json.dumps({"client": draw.randrange(clients), **request(draw, at * lines + it, groups)}).encode() for it in range(lines)])
    return found


def text_of(rounds_of_lines):
    """The input that has these rounds."""
    return b"".join(b"\n".join([*lines, b"", b""]) for lines in rounds_of_lines)
