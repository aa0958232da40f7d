"""What a run leaves open, and how it goes: whether a commit conflicts, whether its reply comes, and what a query sees.

A `Choices` is asked at each such point, in the order of the requests. Here are the one that leaves everything as it comes, and `Chance`, which draws
faults; `schedules` has those that decide every point of a test.
"""
import collections
import random
from typing import Any, Counter, Dict, List, NamedTuple, Sequence, Tuple

from .journal import Entry, Site


class Request(NamedTuple):
    """A request of the test: its number from 1 on, who asks what, and the caller's place.

    `name` says which request it is without its number: the place, the operation, the client, and how many such came before. A commit that is tried
    again after a conflict keeps its name. So a request is found again in a run in which more or fewer requests come before it.
    """

    number: int
    client: int
    asked: Dict[str, Any]
    namespace: str
    site: Site
    name: str

    @property
    def op(self) -> str:
        """The operation."""
        return str(self.asked["op"])


class Sight(NamedTuple):
    """How many of each shard's waiting entries are applied before a query, and whether it misses any that it could find."""

    applied: List[int]
    misses: bool


class Choices:
    """Leaves everything as it comes: no faults, and what a query sees is the consistency's to say."""

    decides_queries = False
    """Whether `missed` is asked, and the server's consistency isn't."""

    has_faults = False
    """Whether `conflicts` and `withholds` are asked."""

    def __init__(self) -> None:
        self._number = 0
        self._named: Counter[str] = collections.Counter()

    def request(self, client: int, asked: Dict[str, Any], namespace: str, site: Site) -> Request:
        """Numbers a request."""
        self._number += 1
        kind = f"{site.file}:{site.line} {asked['op']} of {client}"
        self._named[kind] += 1
        return Request(self._number, client, asked, namespace, site, f"{kind}, {self._named[kind]}")

    def answered(self, request: Request, told: Dict[str, Any]) -> None:
        """The members of the reply. After a conflict the next commit of this place is a further try of it, of the same name."""
        if told.get("name") == "Conflict":
            self._named[request.name.rpartition(", ")[0]] -= 1

    def conflicts(self, request: Request) -> bool:
        """Whether another client writes to a group that the transaction touched, right before this commit of it."""
        return False

    def withholds(self, request: Request) -> bool:
        """Whether the reply of this commit is withheld, though it is made."""
        return False

    def missed(self, request: Request, waiting: Sequence[Sequence[Entry]]) -> "Sight":
        """What this query sees of each shard's waiting entries."""
        return Sight([len(entries) for entries in waiting], False)

    def restart(self) -> None:
        """Begins anew, as with a new server."""
        self._number = 0
        self._named.clear()

    def told(self) -> str:
        """What was chosen, and how it is repeated; an empty text where nothing was."""
        return ""


class Chance(Choices):
    """Draws faults, each with its chance. The draws begin with the seed anew in each namespace: what a test meets doesn't depend on the tests
    before it, and the seed repeats it."""

    def __init__(self, conflicts: float, unknown_commits: float, seed: int) -> None:
        super().__init__()
        for name, chance in (("conflicts", conflicts), ("unknown_commits", unknown_commits)):
            if isinstance(chance, bool) or not isinstance(chance, (int, float)) or not 0 <= chance <= 1:
                raise ValueError(f"{name} is the share of commits that meet it, from 0 to 1, and not {chance!r}")
        self.has_faults = bool(conflicts or unknown_commits)
        self._chances = {"conflicts": float(conflicts), "unknown_commits": float(unknown_commits)}
        self._seed = seed
        self._draws: Dict[Tuple[str, str], random.Random] = {}
        self._met: List[str] = []

    def _draw(self, what: str, request: Request, told: str) -> bool:
        if not self._chances[what]:
            return False
        key = what, request.namespace
        if key not in self._draws:
            self._draws[key] = random.Random(f"{self._seed} {what} {request.namespace}")
        is_met = self._draws[key].random() < self._chances[what]
        if is_met:
            self._met.append(f"{request.site}: the {request.op} of client {request.client} {told}")
        return is_met

    def conflicts(self, request: Request) -> bool:
        return self._draw("conflicts", request, "conflicts")

    def withholds(self, request: Request) -> bool:
        return self._draw("unknown_commits", request, "is made, and its reply withheld")

    def restart(self) -> None:
        super().restart()
        self._draws, self._met = {}, []

    def words(self) -> str:
        """The words of the server that meet the same faults once more."""
        return ", ".join(f"{name}={chance:g}" for name, chance in self._chances.items() if chance) + f", seed={self._seed}"

    def told(self) -> str:
        if not self._met:
            return ""
        return "\n".join([*self._met, f"the same ones are drawn once more by {self.words()}"])
