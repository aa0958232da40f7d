"""What a line asks, as far as a page shows it: a query's kind and ancestor, and a text for the eye. Nothing here raises, whatever stands there."""
import datetime
import json
import re

import keys

TOKEN = re.compile(r"""'(?:[^']|'')*'|"[^"]*"|:[\w$.]+|[\w$.]+|\S""")
EPOCH = datetime.datetime(1970, 1, 1)
SIGNS = {"!=": "≠", "<=": "≤", ">=": "≥"}


def read_json(text):
    """The object that a text is; an empty one where it is no JSON object."""
    try:
        value = json.loads(text)
    except (ValueError, RecursionError):
        return {}
    return value if isinstance(value, dict) else {}


def number(value, least, most):
    """The value where it is an integer in this range, else None."""
    return value if isinstance(value, int) and not isinstance(value, bool) and least <= value <= most else None


def _date(microseconds):
    """A date for the eye, in UTC; None where it is none that a calendar of four digits has."""
    if number(microseconds, -(2**63), 2**63 - 1) is None:
        return None
    try:
        date = EPOCH + datetime.timedelta(microseconds=microseconds)
    except OverflowError:
        return None
    return date.strftime(f"{date.year:04}-%m-%d %H:%M") + (f":{date:%S}" if date.second or date.microsecond else "") + (f".{date.microsecond:06}" if date.microsecond else "")


def _shown(value, depth=0):
    """A value of a filter: a key as a label, a date as a calendar has it, and so on."""
    if isinstance(value, list) and depth < 3:
        return "(" + ", ".join(_shown(it, depth + 1) for it in value[:30]) + ")"
    if isinstance(value, dict) and len(value) == 1 and depth < 3:
        (form, inner), = value.items()
        key = keys.read_key(inner) if form == "key" else None
        return keys.label(key) if key else form == "date" and _date(inner) or _shown(inner, depth + 1)
    return keys.word(value) if isinstance(value, str) else keys.cut(json.dumps(value), 40)


def _lists(value, length):
    """The items of a list that are lists of this length and begin with two texts."""
    items = value[:40] if isinstance(value, list) else []
    return [it for it in items if isinstance(it, list) and len(it) == length and isinstance(it[0], str) and isinstance(it[1], str)]


def of_query(request):
    """A `query`: its kind or None, its ancestor or None, and a text."""
    kind, ancestor = request.get("kind"), keys.read_key(request.get("ancestor"))
    kind = kind if isinstance(kind, str) and kind else None
    filters = [f"{keys.word(name)} {SIGNS.get(sign, sign)} {_shown(value)}" for name, sign, value in _lists(request.get("filters"), 3)]
    orders = [keys.word(name) + (" desc" if way == "desc" else "") for name, way in _lists(request.get("orders"), 2)]
    words = [keys.word(kind) if kind else "all kinds", *(["under " + keys.label(ancestor)] if ancestor else []),
             *(["where " + " and ".join(filters)] if filters else []), *(["order by " + ", ".join(orders)] if orders else [])]
    return kind, ancestor, " ".join(words)


def _ancestor(tokens, request):
    """The key behind `ANCESTOR IS`: a binding, or KEY ( 'Kind' , ident , ... )."""
    if tokens[0].startswith(":"):
        name, given = tokens[0][1:], request.get("args") if tokens[0][1].isdecimal() else request.get("names")
        given = {str(place): value for place, value in enumerate(given, 1)} if isinstance(given, list) else given
        bound = given.get(name) if isinstance(given, dict) else None
        return keys.read_key(bound.get("key")) if isinstance(bound, dict) else None
    literal = tokens[2 : tokens.index(")") if ")" in tokens else 2]
    parts = [it[1:-1].replace("''", "'") if it[0] == "'" else int(it) for it in literal if it[0] == "'" or it.isdecimal() and len(it) < 20]
    return keys.read_key([list(pair) for pair in zip(parts[::2], parts[1::2])])


def of_gql(request):
    """A `gql`: its kind or None, its ancestor or None, and a text."""
    text = request.get("text") if isinstance(request.get("text"), str) else ""
    tokens, kind, ancestor = TOKEN.findall(text[:10_000]), None, None
    for at in range(len(tokens) - 1):
        if tokens[at].upper() == "FROM" and kind is None:
            kind = tokens[at + 1].strip('"')
        elif tokens[at].upper() == "ANCESTOR" and at + 2 < len(tokens):
            ancestor = _ancestor(tokens[at + 2 :], request)
    shown = " ".join(text.split())
    return kind, ancestor, shown if shown.isprintable() else json.dumps(shown)


def text_of(op, request, key):
    """What stands behind the operation's name on a page, where it isn't a query."""
    if op == "apply":
        return f"shard {_shown(request.get('shard'))}"
    if op == "allocate_ids":
        return _shown(request.get("count"))
    if key:
        return keys.label(key)
    entity = request.get("entity")
    parts = entity.get("key") if isinstance(entity, dict) else request.get("key")
    parts = [part for part in parts if isinstance(part, list) and part] if isinstance(parts, list) else []
    return " / ".join(keys.word(part[0]) for part in parts if isinstance(part[0], str))
