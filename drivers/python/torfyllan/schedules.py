"""Every schedule that matters: a test is run under many, and the smallest one under which it fails is told.

What is open. A test asks its requests one after another, so a run of it is determined by three kinds of *decisions*. At a query without an ancestor:
which of the commits that wrote its kind, and aren't applied yet, does it miss? At the commit of a transaction: does another client write to one of its
groups right before? At any commit: is its reply withheld? Where nothing is decided a query misses nothing, and a commit succeeds and is told.
What a test applies itself (`settle`, `apply`, a get, a query with an ancestor) is applied, whatever is decided.

How a query is made to miss a commit. A server has no way to take back what is applied, and its shards are shared by all clients; but nothing is
applied there unless a client asks for it. So each run has a namespace of its own, before it all that waits is applied, and in it the driver applies
entries one by one, right before the query that is to see them: of each shard those up to the first entry that it is to miss. Entries of a shard
are applied in their order, so what stands behind a missed one in its shard is missed too. Entries that the query couldn't find, as
they are of other kinds, are left to wait unless they stand before one that it is to see; so each query has decisions of its own.

How a schedule is written. Requests of the test are numbered from 1. `5:conflict` and `5:lost` say what the commit of request 5 meets, `7:stale` that
request 7 misses all that it can, and `7:stale-3-4.2` that it misses what request 3 wrote, and what 4 wrote to the second of its groups. A test under
such words runs the same each time, if the test itself does.

Which schedules are tried. First none of these decisions; then every query misses all that it can; then each decision on a commit alone,
in at most half of the runs; and then drawn ones. A test that is run against a retry loop can't conflict for ever: of one client at most two
commits in a row conflict, and one reply is withheld in a run. A run that ends by the withheld reply itself is no failure: the application
told its caller that it doesn't know.

How it is made small. Decisions of a failing run are left out, in ever smaller parts, as long as it fails without them. Another run may ask more or
fewer requests, so meanwhile a decision is known by the place in the source that asks it, and by how many such came before.
"""
import random
import re
from typing import Any, Callable, Collection, Dict, FrozenSet, Iterator, List, NamedTuple, Optional, Sequence, Tuple

from .choices import Choices, Request, Sight
from .journal import Entry, kind_of

STALE, CONFLICT, LOST = "stale", "conflict", "lost"
_WORD = re.compile(r"([1-9][0-9]{0,8}):(?:(conflict|lost)|stale((?:-[1-9][0-9]{0,8}(?:\.[1-9][0-9]?)?)*))")
_MOST_SHRINKING = 300
_IN_A_ROW = 2

Atom = Tuple[str, str, str]
"""A decision that can be left out: its kind, the name of the request, and the name of what wrote a missed entry, or else the number of the try."""


class Decision(NamedTuple):
    """What was decided at a request; of a query the entries that it misses, and whether these are all that it could; of a conflict how many
    came right before it."""

    kind: str
    request: Request
    missed: Tuple[Entry, ...] = ()
    is_all: bool = False
    tries: int = 0

    @property
    def word(self) -> str:
        """The decision as a word of a schedule."""
        missed = "" if self.is_all else "".join(f"-{_number(entry)}" for entry in self.missed)
        return f"{self.request.number}:{self.kind}{missed}"

    @property
    def atoms(self) -> List[Atom]:
        """What of it can be left out."""
        return [(self.kind, self.request.name, _name(entry)) for entry in self.missed] or [(self.kind, self.request.name, str(self.tries))]


def _number(entry: Entry) -> str:
    return f"{entry.write.request}.{entry.part}" if entry.part else str(entry.write.request)


def _name(entry: Entry) -> str:
    return f"{entry.write.name}.{entry.part}"


class Run(Choices):
    """A run of a test in which nothing is decided. Others decide in `_conflicts`, `_withholds` and `_first_missed`.

    `made` are the decisions that took effect, `offered` how many there were to make by kind and request, `lines` the line of each request.
    """

    decides_queries = has_faults = True

    def __init__(self) -> None:
        super().__init__()
        self.made: List[Decision] = []
        self.offered: List[Tuple[str, Request]] = []
        self.lines: Dict[int, int] = {}
        self._in_a_row: Dict[int, int] = {}

    @property
    def word(self) -> str:
        """The schedule; `none` where nothing was decided."""
        return ",".join(one.word for one in self.made) or "none"

    @property
    def atoms(self) -> List[Atom]:
        """The decisions that took effect, one by one."""
        return [atom for one in self.made for atom in one.atoms]

    def restart(self) -> None:
        """Goes on: a test that starts its server anew is one run all the same."""

    def answered(self, request: Request, told: Dict[str, Any]) -> None:
        super().answered(request, told)
        self.lines[request.number] = told["line"]
        if request.op == "commit":
            self._in_a_row[request.client] = self._in_a_row.get(request.client, 0) + 1 if told.get("name") == "Conflict" else 0

    def conflicts(self, request: Request) -> bool:
        self.offered.append((CONFLICT, request))
        if not self._conflicts(request):
            return False
        self.made.append(Decision(CONFLICT, request, tries=self._in_a_row.get(request.client, 0)))
        return True

    def withholds(self, request: Request) -> bool:
        self.offered.append((LOST, request))
        if not self._withholds(request):
            return False
        self.made.append(Decision(LOST, request))
        return True

    def missed(self, request: Request, waiting: Sequence[Sequence[Entry]]) -> Sight:
        wanted, found = _finds(request), 0
        counts: List[int] = []
        missed: List[Entry] = []
        for entries in waiting:
            places = [place for place, entry in enumerate(entries) if wanted(entry)]
            found += len(places)
            first = self._first_missed(request, [entries[place] for place in places]) if places else None
            missed += [entries[place] for place in places[first:]] if first is not None else []
            counts.append(places[first] if first is not None else places[-1] + 1 if places else 0)
        if found:
            self.offered.append((STALE, request))
        if missed:
            in_order = tuple(sorted(missed, key=lambda entry: (entry.write.request, entry.part)))
            self.made.append(Decision(STALE, request, in_order, len(missed) == found))
        return Sight(counts, bool(missed))

    def _conflicts(self, request: Request) -> bool:
        return False

    def _withholds(self, request: Request) -> bool:
        return False

    def _first_missed(self, request: Request, entries: Sequence[Entry]) -> Optional[int]:
        """Which of these entries, of one shard, is the first that the query misses; None where it sees all."""
        return None


def _finds(request: Request) -> Callable[[Entry], bool]:
    """Whether an entry of the test writes the kind and namespace of a query."""
    kind, namespace = kind_of(request.asked), request.asked.get("namespace") or ""

    def wanted(entry: Entry) -> bool:
        return entry.write.request > 0 and any(kind in (None, key.kind) and (key.namespace or "") == namespace for key in entry.keys)

    return wanted


class Stalest(Run):
    """Every query misses all that it can."""

    def _first_missed(self, request: Request, entries: Sequence[Entry]) -> Optional[int]:
        return 0


class Drawn(Run):
    """Decides by draws; what is likely is drawn too."""

    def __init__(self, draws: random.Random, commits: int) -> None:
        super().__init__()
        self._draws = draws
        self._stale = draws.choice((0.2, 0.5, 0.8))
        self._conflict = draws.choice((0.0, 0.3, 0.6))
        # One reply at most is withheld: that of this commit, where there are so many.
        self._lost = draws.randrange(2 * commits) if commits else -1

    def _conflicts(self, request: Request) -> bool:
        return self._draws.random() < self._conflict and self._in_a_row.get(request.client, 0) < _IN_A_ROW

    def _withholds(self, request: Request) -> bool:
        self._lost -= 1
        return self._lost == -1

    def _first_missed(self, request: Request, entries: Sequence[Entry]) -> Optional[int]:
        if self._draws.random() >= self._stale:
            return None
        return max(0, self._draws.randrange(-len(entries), len(entries)))


class Named(Run):
    """Decides what these atoms say, wherever their requests come."""

    def __init__(self, atoms: Collection[Atom]) -> None:
        super().__init__()
        self._atoms = frozenset(atoms)

    def _conflicts(self, request: Request) -> bool:
        return (CONFLICT, request.name, str(self._in_a_row.get(request.client, 0))) in self._atoms

    def _withholds(self, request: Request) -> bool:
        return (LOST, request.name, "0") in self._atoms

    def _first_missed(self, request: Request, entries: Sequence[Entry]) -> Optional[int]:
        missed = (place for place, entry in enumerate(entries) if (STALE, request.name, _name(entry)) in self._atoms)
        return next(missed, None)


class Given(Run):
    """Decides what the words of a schedule say. A word that isn't one is a ValueError."""

    def __init__(self, words: str) -> None:
        super().__init__()
        self._words: Dict[Tuple[int, str], FrozenSet[str]] = {}
        self._all = [word for word in re.split(r"[\s,]+", words.strip()) if word not in ("", "none")]
        for word in self._all:
            found = _WORD.fullmatch(word)
            if found is None:
                raise ValueError(
                    f"{word!r} is no decision of a schedule: these are N:stale, N:stale-M-M, N:conflict and N:lost, with commas between them,"
                    " where N is the number of a request of the test and M that of the one that wrote what it misses; or the whole is none"
                )
            missed = found.group(3) or ""
            self._words[int(found.group(1)), found.group(2) or STALE] = frozenset(missed.split("-")[1:])

    @property
    def without_effect(self) -> List[str]:
        """The words that met no such request."""
        met = {(one.request.number, one.kind) for one in self.made}
        return [word for word, key in zip(self._all, self._words) if key not in met]

    def _conflicts(self, request: Request) -> bool:
        return (request.number, CONFLICT) in self._words

    def _withholds(self, request: Request) -> bool:
        return (request.number, LOST) in self._words

    def _first_missed(self, request: Request, entries: Sequence[Entry]) -> Optional[int]:
        missed = self._words.get((request.number, STALE))
        if missed is None:
            return None
        return next((place for place, entry in enumerate(entries) if not missed or _number(entry) in missed), None)


# ---- which are tried


def tried(most: int, seed: str) -> Iterator[Run]:
    """So many runs, of which the first decides nothing. Each must have been run before the next is taken. They end early where a test
    leaves nothing open, and where many on end decide what was decided before."""
    first = Run()
    yield first
    if not first.offered:
        return
    draws, seen, again, left = random.Random(seed), {first.word}, 0, most - 1
    commits = [(kind, request) for kind, request in first.offered if kind != STALE]
    alone = draws.sample(commits, min(len(commits), most // 2))
    planned: List[Run] = [Stalest()] if len(commits) < len(first.offered) else []
    planned += [Named([(kind, request.name, "0")]) for kind, request in alone]
    losable = sum(kind == LOST for kind, _ in commits)
    while left > 0 and again < _enough(len(seen)):
        run = planned.pop(0) if planned else Drawn(draws, losable)
        yield run
        again = again + 1 if run.word in seen else 0
        seen.add(run.word)
        left -= 1


def _enough(seen: int) -> int:
    """How many runs on end bring nothing new before there is thought to be nothing new."""
    return 4 + seen // 2


# ---- the smallest


class Shrinking(NamedTuple):
    """The smallest failing run, how many runs it took, and whether decisions were left that might have been left out."""

    run: Run
    runs: int
    is_cut_off: bool


def smallest(failing: Run, fails: Callable[[Run], bool]) -> Shrinking:
    """Leaves out decisions of a failing run as long as it fails, until none can be left out. `fails` runs the test."""
    best, runs = failing, 0
    size = max(1, len(best.atoms) // 2)
    while len(best.atoms) > 1:
        is_smaller, place = False, 0
        while place < len(best.atoms) and len(best.atoms) > 1:
            if runs == _MOST_SHRINKING:
                return Shrinking(best, runs, True)
            atoms = best.atoms
            run = Named(atoms[:place] + atoms[place + size :])
            runs += 1
            if fails(run) and len(run.atoms) < len(atoms):
                best, is_smaller = run, True
            else:
                place += size
        if size == 1 and not is_smaller:
            break
        size = max(1, min(size, len(best.atoms)) // 2)
    return Shrinking(best, runs, False)


# ---- in words


Numbers = Callable[[int], int]


def told(run: Run, line_of: Numbers = lambda line: line, commit_of: Numbers = lambda commit: commit) -> List[str]:
    """What was decided in a run, a sentence each. `line_of` and `commit_of` give the numbers of lines and commits as a page has them."""
    return [_sentence(one, run, line_of, commit_of) for one in run.made]


def _sentence(one: Decision, run: Run, line_of: Numbers, commit_of: Numbers) -> str:
    request = one.request
    at = f"line {line_of(run.lines[request.number])}, {request.site}," if request.number in run.lines else str(request.site)
    if one.kind == CONFLICT:
        return f"the commit in {at} conflicts: another client writes to a group of the transaction right before"
    if one.kind == LOST:
        what = "commit" if request.op == "commit" else f"reply to the {request.op}"
        return f"the {what} in {at} is lost: it is made, and its caller isn't told"
    asked = f"query of {kind_of(request.asked) or 'all kinds'}" if request.op == "query" else "gql"
    lines = [f"the {asked} in {at} misses"]
    for entry in one.missed:
        write = entry.write
        lines.append(f"    commit {commit_of(write.commit)}, {entry.what} by line {line_of(write.line)}, {write.site}")
    return "\n".join(lines) if len(lines) > 2 else lines[0] + lines[1][3:]
