#!/usr/bin/env python3
"""The journal that the acknowledged commits of a run tell, as the text that the auditor reads: one JSON line a commit.

    python3 drivers/audit/journal_of.py INPUT REPLIES     prints it

It needs no trust: the auditor's verdict is on the journal that it is handed, and one that isn't the run's makes no run legal that isn't.
"""
import contextlib
import itertools
import json
import re
import sys

# A token of a statement: a string, a name in quotes, a binding, a word or an integer, a sign.
TOKEN = re.compile(r"""'(?:[^']|'')*'|"[^"]*"|:[A-Za-z0-9_$.]+|[A-Za-z0-9_$.]+|\S""")
CONFLICT, EXPIRED = 13, 23


def text(value):
    return json.dumps(value, ensure_ascii=False, separators=(",", ":"))


def key(given):
    """A key as replies have it: without an empty namespace."""
    return given[1:] if given and given[0] == "" else given


def value(given):
    return {"key": key(given["key"])} if isinstance(given, dict) and "key" in given else given


def values(given):
    """A list of one value is that value."""
    if not isinstance(given, list):
        return value(given)
    found = [value(it) for it in given]
    return found[0] if len(found) == 1 else found


def entity(given, printed):
    """The entity of a put, as a get would show it under the key that the reply has."""
    properties, told = {}, given.get("properties") or {}
    for name in sorted(told, key=lambda it: it.encode()):
        it = told[name]
        if isinstance(it, dict) and "unindexed" in it:
            if it["unindexed"] != []:
                properties[name] = {"unindexed": values(it["unindexed"])}
        elif it != []:
            properties[name] = values(it)
    return {"key": printed, "properties": properties}


def root(path):
    return path[:2] if isinstance(path[0], str) else path[:1]


def ancestor_of(asked):
    """The ancestor of a query or a statement; None where there is none."""
    if asked.get("op") != "gql":
        ancestor = asked.get("ancestor")
        return None if ancestor is None else key(ancestor)
    tokens = TOKEN.findall(asked["text"])
    # A keyword is no name, so the first such word that isn't in quotes begins the condition.
    at = next((at for at, token in enumerate(tokens) if token.upper() == "ANCESTOR"), None)
    return None if at is None else statement_key(tokens[at + 2 :], asked)


def statement_key(tokens, asked):
    """The key at the front of these tokens: a binding, or `KEY ( 'Kind' , identifier , .. )`."""
    if tokens[0].startswith(":"):
        name = tokens[0][1:]
        return key((asked["args"][int(name) - 1] if name.isdigit() else asked["names"][name])["key"])
    inner = [token for token in tokens[2 : tokens.index(")")] if token != ","]
    parts = [token[1:-1].replace("''", "'") if token[0] == "'" else int(token) for token in inner]
    return [list(pair) for pair in zip(parts[::2], parts[1::2])]


def take(reply, asked, commits, open_by):
    """Notes what a reply tells that isn't a refusal."""
    client, op = reply["client"], reply["ok"]
    transaction = open_by.get(client)

    def touch(path):
        group = root(path)
        if all(touched != group for touched, _ in transaction["touched"]):
            transaction["touched"].append([group, reply["place"]])

    def note(touched, writes):
        commits[reply["commit"]] = {"client": client, "commit": reply["commit"], "touched": touched, "writes": writes}

    if op == "begin":
        open_by[client] = {"touched": [], "writes": []}
    elif op == "rollback":
        open_by.pop(client, None)
    elif op in ("put", "delete"):
        write = {"put": entity(asked["entity"], reply["key"])} if op == "put" else {"delete": reply["key"]}
        if "commit" in reply:
            note([], [write])
        else:
            touch(reply["key"])
            transaction["writes"].append(write)
    elif op == "get" and transaction is not None:
        touch(key(asked["key"]))
    elif op in ("query", "gql") and transaction is not None and "place" in reply:
        touch(ancestor_of(asked))
    elif op == "commit":
        note(transaction["touched"], transaction["writes"])
        open_by.pop(client)


def commits_told(lines, replies):
    """The commits by their numbers, each as the JSON of its line, from the bytes of an input and of its replies."""
    lines, commits, open_by = lines.split(b"\n"), {}, {}
    for line in replies.split(b"\n")[:-1]:
        # Of a reply that can't be followed nothing is told: the verdict will tell of it, or of the first one that misses its commit.
        with contextlib.suppress(ValueError, KeyError, IndexError, TypeError, AttributeError):
            reply = json.loads(line)
            if reply.get("error") in (CONFLICT, EXPIRED):
                open_by.pop(reply["client"], None)
            if "ok" in reply:
                take(reply, json.loads(lines[reply["line"] - 1]), commits, open_by)
    return commits


def journal(lines, replies, kept=0):
    """The text of the journal; behind so many commits that were kept before, which aren't told."""
    commits = commits_told(lines, replies)
    # Behind a number that no reply tells nothing stands, so that the verdict tells of the next one's reply.
    numbers = itertools.takewhile(lambda number: number in commits, itertools.count(kept + 1))
    return "".join(text(commits[number]) + "\n" for number in numbers).encode(errors="surrogatepass")


def main(input_name, replies_name):
    with open(input_name, "rb") as lines, open(replies_name, "rb") as replies:
        sys.stdout.buffer.write(journal(lines.read(), replies.read()))


if __name__ == "__main__":
    main(*sys.argv[1:3])
