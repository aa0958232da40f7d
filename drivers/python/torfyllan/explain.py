"""Refusals as sentences: what was refused, why, and what to do.

Each function takes the refusal, with its reply and the request that was sent, and gives its sentence.
"""
import base64
import re
from typing import TYPE_CHECKING, Any, Callable, Dict, List, Optional

from . import rules
from .shards import FIRST_DRAWN, LAST_ID
from .wire import value_in

if TYPE_CHECKING:
    from .refusals import Refused

Asked = Dict[str, Any]

REASONS: Dict[str, str] = {
    "key_value": "a filter on __key__ takes a Key as its value",
    "unindexed_value": "a filter has a Text or a Blob as its value; these are never indexed, so nothing can be found by them",
    "kindless": "a query without a kind takes filters and orders on __key__ alone, and no descending one",
    "inequalities": "a query has inequalities (<, <=, >, >=, !=, or any filter on __key__) on one property alone",
    "equal_and_range": "a property has an equality (= or in) and an inequality, and may have one of these alone",
    "first_order": "the first order must be on the property that has the inequality",
    "projection_key": "a projection takes no __key__, neither among its properties nor in a filter or order; each result has its key anyway",
    "projection_repeat": "a projection names each property once",
    "projection_equal": "a projected property has an equality, and its value is known by that",
    "several_cursor": "in and != stand for several queries, which have no cursor in common: use offset and limit there",
}
"""What each reason of a BadQuery means."""


def sentence(refused: "Refused") -> str:
    """What was refused, why, and what to do."""
    told = _TOLD.get(refused.name)
    return told(refused) if told is not None else f"the server refused it as {refused.name}{_members(refused)}"


def _members(refused: "Refused") -> str:
    quiet = ("client", "line", "error", "name")
    return "".join(f", {name} {value!r}" for name, value in refused.reply._members.items() if name not in quiet)


# ---- what stands in a request


def _bad_member(refused: "Refused") -> str:
    field = refused.reply.field
    if field in ("line", "client", "op"):
        return f"the line's {field} isn't one of the protocol"
    fault = rules.member_fault(refused.asked, field, refused.shards)
    return f"{field}: {fault}" if fault else f"the member {field} leaves the protocol's form: {refused.asked.get(field)!r}"


def _bad_json(refused: "Refused") -> str:
    return "the line isn't JSON as the server reads it: a text has half of a surrogate pair, or values nest deeper than 127 levels"


def _too_large(refused: "Refused") -> str:
    properties = refused.asked.get("entity", {}).get("properties", {})
    sizes = sorted(((rules.property_size(name, value), name) for name, value in properties.items()), reverse=True)
    most = f"; of these the property {sizes[0][1]} has {sizes[0][0]:,}" if sizes else ""
    return f"the entity has {refused.reply.size:,} bytes{most}, and an entity may have 1,048,576"


def _too_many_rows(refused: "Refused") -> str:
    properties = refused.asked.get("entity", {}).get("properties", {})
    lists = [f"{name} ({len(value)} values)" for name, value in properties.items() if isinstance(value, list)]
    why = f"; its lists are {', '.join(lists)}" if lists else ""
    return f"the entity has {refused.reply.count:,} index rows{why}, and an entity may have 20,000: mark what no query asks for as Unindexed(...)"


# ---- transactions


def _in_transaction(refused: "Refused") -> str:
    begun = f", begun at {refused.begun}" if refused.begun else ""
    return f"client {refused.reply.client} has an open transaction{begun}: {refused.op} stands outside of one"


def _no_transaction(refused: "Refused") -> str:
    return f"client {refused.reply.client} has no open transaction to {refused.op}: begin comes first"


def _second_group(refused: "Refused") -> str:
    group = refused.reply.group
    of = repr(group) if group is not None else "a new root, whose id isn't drawn yet,"
    touched = f" {refused.touched[0]!r}" if refused.touched else " another group"
    return f"the transaction touched the group{touched}, and {of} is a second one: begin it with xg=True for up to 25 groups"


def _conflict(refused: "Refused") -> str:
    reply = refused.reply
    by = f": {refused.writer}" if refused.writer is not None else f", last by commit {reply.commit}"
    return (
        f"the group {reply.group!r}, which the transaction touched, was written meanwhile{by}."
        " Nothing of the transaction is written: begin again, as run_in_transaction does"
    )


def _expired(refused: "Refused") -> str:
    reply = refused.reply
    return (
        f"the transaction read its group as of place {reply.place}, and the versions of that place are gone:"
        f" {reply.applied - reply.snapshot} entries of the shard were applied since. The transaction has ended: begin again, or give the server a larger window"
    )


# ---- queries


def _filters(asked: Asked) -> List[Any]:
    return asked.get("filters") or []


def _named(names: List[str]) -> str:
    return " and ".join(dict.fromkeys(names))


def _ranges(asked: Asked) -> List[str]:
    return [name for name, operator, _ in _filters(asked) if name == "__key__" or operator not in ("=", "in")]


def _equals(asked: Asked) -> List[str]:
    return [name for name, operator, _ in _filters(asked) if name != "__key__" and operator in ("=", "in")]


def _reason_names(reason: str, asked: Asked) -> str:
    """The properties that the reason is about, where the request was no GQL text."""
    if asked.get("op") != "query":
        return ""
    ranges, equals = _ranges(asked), _equals(asked)
    long = [name for name, _, value in _filters(asked) if isinstance(value, dict) and ("text" in value or "blob" in value)]
    orders = [name for name, _ in asked.get("orders") or [] if name not in equals]
    selected = asked.get("select")
    select: List[str] = selected if isinstance(selected, list) else []
    found: Dict[str, Callable[[], str]] = {
        "inequalities": lambda: f": here on {_named(ranges)}",
        "equal_and_range": lambda: f": {_named([name for name in ranges if name in equals])} has both",
        "first_order": lambda: f": here {ranges[0]} has the inequality, and the first order is on {orders[0]}",
        "projection_repeat": lambda: f": {_named([name for name in select if select.count(name) > 1])} stands twice",
        "projection_equal": lambda: f": {_named([name for name in select if name in equals])}",
        "unindexed_value": lambda: f": here the one on {_named(long)}",
    }
    try:
        return found[reason]() if reason in found else ""
    except IndexError:
        return ""


def _bad_query(refused: "Refused") -> str:
    reason = refused.reply.reason
    return f"{reason}: {REASONS.get(reason, 'the Datastore allows no such query')}{_reason_names(reason, refused.asked)}"


def _too_many_subqueries(refused: "Refused") -> str:
    parts = []
    for name, operator, value in _filters(refused.asked):
        if operator in ("in", "!="):
            parts.append(f"{name} in {len(value)} values" if operator == "in" else f"{name} != (2)")
    why = f" ({' times '.join(parts)})" if parts else ""
    return f"the filters in and != stand for {refused.reply.count} queries{why}, and 30 are allowed: ask in several queries"


def _need_ancestor(refused: "Refused") -> str:
    return "in a transaction a query needs an ancestor, since it reads one entity group: give ancestor=, or ask before the transaction begins"


def _missing_index(refused: "Refused") -> str:
    constraint = refused.reply.constraint
    if constraint == "columns":
        why = "no index has its orders"
    elif constraint == "ancestor":
        why = "no index of these orders has `ancestor: yes`"
    else:
        value = value_in(constraint["value"], refused.namespace)
        why = f"no index of its orders begins with {constraint['property']}, which it wants equal to {value!r}"
    entry = refused.index_yaml
    added = refused.added_to
    if added:
        return f"{why}; the entry below was added to {added}: start the server anew to use it\n\n{entry}"
    return f"no index serves the query, as {why}; add this entry to the index file, below `indexes:`\n\n{entry}"


def _bad_cursor(refused: "Refused") -> str:
    field = refused.reply.field
    text = str(refused.asked.get(field))
    try:
        base64.b64decode(text, validate=True)
        why = "its bytes aren't those of a cursor"
    except ValueError:
        why = "it isn't base64"
    shown = text if len(text) <= 40 else text[:37] + "..."
    return f"{field}={shown!r} is no cursor, since {why}: give the `cursor` of an earlier reply as it is"


def _cursor_mismatch(refused: "Refused") -> str:
    return (
        f"the cursor in {refused.reply.field} is one of another query: the next page has the same namespace, kind, ancestor, filters, orders and"
        " selection; offset and limit alone may differ"
    )


_BINDING = re.compile(r":([0-9]+|[A-Za-z_$][A-Za-z0-9_$.]*)")


def _bad_gql(refused: "Refused") -> str:
    text, at = refused.asked.get("text", ""), refused.reply.at
    whole = text.encode("utf-8", "replace")
    place = len(whole[:at].decode("utf-8", "ignore"))
    line_start = text.rfind("\n", 0, place) + 1
    line_end = text.find("\n", place)
    line = text[line_start : line_end if line_end >= 0 else len(text)]
    column = place - line_start
    # A long line is cut to what stands around the place.
    first = max(0, column - 60)
    shown, column = line[first : first + 100], column - first
    return f"{_gql_why(text, place, refused.asked)}\n\n    {shown}\n    {' ' * column}^"


def _gql_why(text: str, place: int, asked: Asked) -> str:
    binding = _BINDING.match(text, place)
    if binding is not None:
        name = binding.group(1)
        given = asked.get("args") or []
        names = asked.get("names") or {}
        if name.isdigit() and (not given or int(name) > len(given)):
            return f"the argument :{name} isn't given: " + (f"{len(given)} stand behind the text" if given else "put it behind the text")
        if not name.isdigit() and name not in names:
            has = f"; names has {', '.join(names)}" if names else ""
            return f"the argument :{name} isn't given: put it in names={{{name!r}: ...}}{has}"
        return f"the argument :{name} can't stand here"
    if place >= len(text.rstrip()):
        return "the statement ends too early: something is missing at the end"
    if text[place] == "'":
        return "a string can't stand here, or has no ' at its end"
    if text[place] == '"':
        return "a name in double quotes can't stand here; strings have single quotes"
    word = re.compile(r"[A-Za-z_$][A-Za-z0-9_$.]*|-?[0-9]+|.").match(text, place)
    return f"no statement goes on with {word.group(0) if word else text[place]!r} here"


# ---- ids


def _id_not_issued(refused: "Refused") -> str:
    reply = refused.reply
    last = f"those below {reply.next}" if reply.next > FIRST_DRAWN else "none yet"
    return (
        f"the id {reply.id} is one that the server draws, as all are from {FIRST_DRAWN} on, and it has drawn {last}: put the key with None in its"
        f" place, or call server.reserve_ids({reply.id}) before entities of another store are put"
    )


def _ids_exhausted(refused: "Refused") -> str:
    return f"so many ids aren't left: the next is {refused.reply.next}, and the last {LAST_ID - 1}"


_TOLD: Dict[str, Callable[["Refused"], str]] = {
    "BadJson": _bad_json,
    "LineTooLong": lambda refused: "the line has more than 2,097,152 bytes",
    "BadRequest": _bad_member,
    "BadKey": _bad_member,
    "BadValue": _bad_member,
    "TooLarge": _too_large,
    "TooManyRows": _too_many_rows,
    "InTransaction": _in_transaction,
    "NoTransaction": _no_transaction,
    "SecondGroup": _second_group,
    "TooManyGroups": lambda refused: "the transaction has touched 25 groups, and a 26th isn't allowed: divide it",
    "TooManyWrites": lambda refused: "the transaction has 500 writes, and one more isn't allowed: divide it",
    "Conflict": _conflict,
    "NeedAncestor": _need_ancestor,
    "BadQuery": _bad_query,
    "TooManySubqueries": _too_many_subqueries,
    "MissingIndex": _missing_index,
    "BadCursor": _bad_cursor,
    "CursorMismatch": _cursor_mismatch,
    "BadGql": _bad_gql,
    "IdNotIssued": _id_not_issued,
    "IdsExhausted": _ids_exhausted,
    "Expired": _expired,
    "NoMemory": lambda refused: "the server had no memory for it; nothing is written, and it may be asked again",
}
