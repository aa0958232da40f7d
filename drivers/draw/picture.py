"""What a page draws of a run: its lines in an order in which they can have happened, what each query missed, and what was found.

A query without ancestor *missed* an entry that isn't among its counted ones, and that was committed before it, as the earlier replies to its
client and those of earlier rounds show. It is *stale* where it would have found other results with a missed entry that writes its kind, in its namespace.
"""
import bisect
import importlib.util
import pathlib
import re

import journal
import keys
from asked import number

# The driver's own: which writes would change the results of a query. It stands on nothing else of the package.
_found = importlib.util.spec_from_file_location("answers", pathlib.Path(__file__).resolve().parents[1] / "python" / "torfyllan" / "answers.py")
answers = importlib.util.module_from_spec(_found)
_found.loader.exec_module(answers)

# So many missed entries are looked at; of a query that missed more, all that write its kind count.
COMPARED = 200
# Of a run whose lines have places in a source these aren't drawn where they have none, as the driver asks them before each test.
FOLDED = ("settle", "allocate_ids")
# The operation of lines by which the driver ends a round and asks nothing: the server has none of this name.
FILLER = "end_round"
PLAIN_NAME = re.compile(r"""[^\s"'#]+""")


class Picture:
    """The data of a page, as `data()` gives it: lists and texts alone, which JSON holds. `sites` are places in a source by lines, as texts, and
    `tests` the first lines of tests, with their names and namespaces. A second index file serves behind so many rounds as `after` says."""

    def __init__(self, run, sites=None, tests=(), after=None):
        self.run = run
        self.after = after
        self.sites = sites if isinstance(sites, dict) else {}
        self.names = {}
        self.commits_of = [[commit for commit, _ in entries] for entries in run.entries]
        self.writing = [self._by_scope(entries) for entries in run.entries]
        self.known, self.ends, self.order = {}, {}, {}
        self._look()
        self.folded = [line for line in run.lines if self.sites and str(line.number) not in self.sites and line.ok and line.op in FOLDED]
        self.fillers = [line for line in run.lines if after is not None and not line.ok and line.request.get("op") == FILLER]
        kept = set(map(id, self.folded + self.fillers))
        self.rows = sorted((line for line in run.lines if id(line) not in kept), key=lambda line: (line.round, self.order[line.number], line.client, line.number))
        self._head(tests)
        at = next((at for at, line in enumerate(self.rows) if after is not None and line.round > after), None)
        if at is not None:
            self.rows.insert(at, journal.Cut(self.rows[at]))
        self.row = {line.number: at for at, line in enumerate(self.rows) if line.op not in journal.HEADINGS}

    def _head(self, tests):
        """Puts a heading above the first row of each test; none for a test that has no row of its own."""
        begins, seen, rows = sorted(tests), set(), []
        starts = [line for line, _, _ in begins]
        for row in self.rows:
            at = bisect.bisect_right(starts, row.number) - 1
            if at >= 0 and at not in seen:
                seen.add(at)
                rows.append(journal.Heading(begins[at][1], row))
            rows.append(row)
        self.rows = rows

    def _by_scope(self, entries):
        """For a namespace and kind, and for a namespace alone: the places of the entries that write there, ascending."""
        found = {}
        for at, (commit, group) in enumerate(entries):
            for scope in {(key[0], kind) for key, _ in self.run.commits[commit].groups[group] for kind in (None, key[1][-1][0])}:
                found.setdefault(scope, []).append(at)
        return found

    def _look(self):
        """Line by line: up to which commit the journal was known before it, and its place in the order of its round.

        In a round clients run at once. A commit stands at its number, what read or touched the journal behind the commit of its place, and
        all else as early as its client's lines before it and the entries that it counts allow; a begin stands with the line behind it.
        """
        before, own, last, begun, at_round = 0, {}, {}, {}, 0
        for line in self.run.lines:
            if line.round != at_round:
                before = max([before, *own.values()])
                at_round, own, last, begun = line.round, {}, {}, {}
            counted = [commits[min(count, len(commits)) - 1] for count, commits in zip(line.counts or [], self.commits_of) if count and commits]
            told = max([0, line.commit or 0, line.place or 0, *counted])
            self.known[line.number] = max(before, own.get(line.client, 0))
            own[line.client] = max(own.get(line.client, 0), told)
            self.ends[line.round] = max(self.ends.get(line.round, 0), told, before)
            early = bool(line.ok and line.commit) and line.commit == told
            place = (told, 0 if early else 2, sum(line.counts or []))
            last[line.client] = self.order[line.number] = max(place, last.get(line.client, place))
            if line.client in begun:
                self.order[begun.pop(line.client)] = last[line.client]
            if line.op == "begin":
                begun[line.client] = line.number

    def name(self, table, value, label):
        """The position of a value in a table of labels."""
        names = self.names.setdefault(table, {})
        return names.setdefault(value, (len(names), label))[0]

    def group(self, group):
        return self.name("groups", group, [keys.label(group), keys.shard_of(group, self.run.shards)])

    def scope(self, scope):
        namespace, kind = scope
        parent = self.scope((namespace, None)) if kind is not None else -1
        words = keys.space(namespace)
        return self.name("scopes", scope, [": ".join([*words, keys.word(kind) if kind is not None else "all kinds"]), parent])

    def missed(self, line):
        """Of a query without ancestor: entries missed with which it would have found other results, others that were missed, and ones committed
        meanwhile; and the commits of the first, or None where these are all that write its kind."""
        of_kind = others = meanwhile = 0
        entries = []
        for shard, commits in enumerate(self.commits_of):
            low = min(line.counts[shard], len(commits))
            high = bisect.bisect_right(commits, self.known[line.number], low)
            writing = self.writing[shard].get(line.scope, [])
            here = bisect.bisect_left(writing, high) - bisect.bisect_left(writing, low)
            of_kind, others = of_kind + here, others + high - low - here
            if of_kind <= COMPARED:
                entries += [self.run.entries[shard][at] for at in writing[bisect.bisect_left(writing, low) : bisect.bisect_left(writing, high)]]
            meanwhile += bisect.bisect_right(commits, self.ends[line.round], high) - high
        changing = self._changing(line, entries) if 0 < of_kind <= COMPARED and line.op == "query" else None
        if changing is not None and len(changing) < of_kind:
            return len(changing), others + of_kind - len(changing), meanwhile, sorted({commit for commit, _ in changing})
        return of_kind, others, meanwhile, None

    def _changing(self, line, entries):
        """Of the entries that a query missed of its kind those that would have changed its results; None where a text of the run keeps this from being told."""
        namespace, kind = line.scope
        last = {}
        for commit, group in sorted(entries, key=lambda entry: entry[0]):
            for key, _ in self.run.commits[commit].groups[group]:
                if key[0] == namespace and kind in (None, key[1][-1][0]):
                    last[key] = commit, group
        try:
            query, results = answers.Asked(line.request), line.reply.get("results")
            return {entry for key, entry in last.items() if query.effect(keys.written(key), self.run.commits[entry[0]].contents[key], results)}
        except (TypeError, ValueError, KeyError, AttributeError, IndexError, RecursionError):
            return None

    def result(self, line, of_kind):
        """A few words on the reply, and the state that colours them."""
        reply, refused = line.reply, line.reply.get("name")
        if line.answer is None:
            return "no reply", "silent"
        if isinstance(refused, str) and not line.ok:
            known = {"Conflict": "conflict", "MissingIndex": "missing"}
            return re.sub(r"(?<=[a-z])(?=[A-Z])", " ", keys.cut(refused, 30)).capitalize(), known.get(refused, "refused")
        if line.op in ("query", "gql"):
            count = len(reply["results"]) if isinstance(reply.get("results"), list) else 0
            return f"{count or 'no'} result{'s' * (count > 1)}", "stale" if of_kind else ""
        told = {"get": "none" if reply.get("entity") is None else "found", "apply": "applied one" if reply.get("applied") is True else "nothing waited",
                "allocate_ids": f"from {keys.cut(str(reply.get('first')), 24)}"}
        return (f"overwrote commit {line.over}", "overwrote") if line.over else (told.get(line.op, ""), "")

    def data(self):
        run, columns = self.run, {name: [] for name in ("line", "client", "round", "op", "label", "result", "state", "commit", "place", "group", "known")}
        notes = [*run.notes, *([f"{len(self.folded)} settles and draws of ids, which the driver asked itself, aren't drawn."] if self.folded else []),
                 *([f"{len(self.fillers)} lines that ask nothing and end rounds aren't drawn."] if self.fillers else [])]
        queries, counts, strong, ways, missing, states = [], [], [], [], [], ["", "silent", "conflict", "missing", "refused", "stale", "overwrote"]
        for at, line in enumerate(self.rows):
            missed = self.missed(line) if line.counts and line.op in ("query", "gql") else (0, 0, 0, None)
            result, state = self.result(line, missed[0])
            place = -1 if line.place is None else line.place
            values = (line.number, line.client, line.round, journal.OPS.index(line.op), keys.cut(line.label), result, states.index(state),
                      line.commit if line.ok and line.commit else 0, place, self.group(line.group) if line.group else -1, self.known[line.number])
            for column, value in zip(columns.values(), values):
                column.append(value)
            if line.counts:
                counts.append([at, [min(count, len(commits)) for count, commits in zip(line.counts, self.commits_of)]])
                if line.op in ("query", "gql"):
                    queries.append([at, self.scope(line.scope), *missed])
            elif line.op == "cut":
                counts.append([at, self._counts_at_cut()])
            else:
                strong += self._applied(at, line)
            if state == "missing":
                missing.append([at, index_entry(line.reply.get("suggestion"))])
            group = keys.read_key(line.reply.get("group")) if state == "conflict" else line.over and line.group
            if group and line.commit:
                ways.append([at, line.over or line.commit, self.group(group)])
        counts += self._counts_of_folded()
        texts = [[keys.cut(line.text, 100_000), keys.cut(line.answer or "", 100_000)] for line in self.rows]
        commits = [[commit, self.row[it.line.number], [self.group(group) for group in it.groups],
                    [[keys.label(key), int(gone), self.scope((key[0], key[1][-1][0])), self.group(keys.group_of(key))] for key, gone in it.writes]]
                   for commit, it in sorted(run.commits.items())]
        spans = [[it.first.client, self.row[it.first.number], self.row[it.last.number], it.end, len(it.writes),
                  [[self.row[line.number], self.group(group), place] for line, group, place in it.touches]] for it in run.transactions]
        entries = [[[commit, self.group(group)] for commit, group in entries] for entries in run.entries]
        sites = [[at, keys.cut(self.sites[str(line.number)])] for at, line in enumerate(self.rows) if line.op not in journal.HEADINGS and isinstance(self.sites.get(str(line.number)), str)]
        tables = {table: [label for _, label in self.names.get(table, {}).values()] for table in ("groups", "scopes")}
        return {"shards": run.shards, "ops": journal.OPS, "states": states, "columns": columns, "texts": texts, "queries": queries, "counts": counts,
                "strong": strong, "commits": commits, "spans": spans, "entries": entries, "ways": ways, "missing": missing, "notes": notes,
                "sites": sites, **tables}

    def _counts_at_cut(self):
        """What is applied where the second index file begins to serve: all that was committed."""
        return [sum(self.run.commits[commit].line.round <= self.after for commit in commits) for commits in self.commits_of]

    def _counts_of_folded(self):
        """What the settles that aren't drawn had applied, each at the first row behind it, where that tells no counts of its own."""
        rounds, found = [line.round for line in self.rows], {}
        for line in self.folded:
            at = bisect.bisect_right(rounds, line.round)
            if line.counts and at < len(self.rows) and not self.rows[at].counts:
                found[at] = [min(count, len(commits)) for count, commits in zip(line.counts, self.commits_of)]
        return [[at, counts] for at, counts in found.items()]

    def _applied(self, at, line):
        """What a reply shows to be applied of one shard: an apply's count, and behind a read that is up to date all up to its place."""
        if line.op == "apply" and line.ok:
            shard, count = number(line.reply.get("shard"), 0, self.run.shards - 1), number(line.reply.get("count"), 0, 2**53)
            return [] if shard is None or count is None else [[at, shard, min(count, len(self.commits_of[shard]))]]
        if line.op in ("get", "query", "gql") and line.ok and line.place is not None and line.group:
            shard = keys.shard_of(line.group, self.run.shards)
            return [[at, shard, bisect.bisect_right(self.commits_of[shard], line.place)]]
        return []


def index_entry(given):
    """The entry of an index file that a suggestion stands for; "" where a name of it can't stand in such a file."""
    given = given if isinstance(given, dict) else {}
    columns = given.get("properties") if isinstance(given.get("properties"), list) else []
    columns = [column if isinstance(column, list) and len(column) == 2 else [None, None] for column in columns] or [["__key__", "asc"]]
    names = [given.get("kind"), *(name for name, _ in columns)]
    if not all(isinstance(name, str) and PLAIN_NAME.fullmatch(name) and name.isprintable() for name in names):
        return ""
    lines = [f"- kind: {names[0]}", *(["  ancestor: yes"] if given.get("ancestor") is True else []), "  properties:"]
    for name, way in columns:
        lines += [f"  - name: {name}", *(["    direction: desc"] if way == "desc" else [])]
    return "\n".join([*lines, ""])
