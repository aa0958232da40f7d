"""Replies: the members that the protocol names, as attributes."""
from typing import Any, Collection, Dict, Iterator, List, Mapping, Optional, Sequence, Tuple

from .answers import FOUND, Asked
from .journal import Journal, Write
from .wire import Json, entity_in, key_in, key_out, results_in

_SHOWN = 5
_COMPARED = 1000
"""With more entries than these that wait, results aren't compared: then each write of a query's kind counts as one that it would have found."""


class Reply:
    """The reply to a request: its members are attributes, with keys and values as Python has them.

    A query's reply is a sequence of its results. A reply is true, but for three that say of nothing: a query without results, a get without an
    entity, and an apply that found no entry.
    """

    def __init__(self, members: Mapping[str, Json], namespace: str = "", projected: bool = False, lists: Collection[Tuple[str, str]] = ()) -> None:
        self._members: Dict[str, Any] = dict(members)
        self._stale: Optional[_Stale] = None
        for name in ("key", "group"):
            if self._members.get(name) is not None:
                self._members[name] = key_in(self._members[name], namespace)
        if self._members.get("entity") is not None:
            self._members["entity"] = entity_in(self._members["entity"], namespace, lists)
        if "results" in self._members:
            self._members["results"] = results_in(self._members["results"], namespace, projected, lists)

    def __getattr__(self, name: str) -> Any:
        members = self.__dict__.get("_members")
        if members is None or name.startswith("__"):
            raise AttributeError(name)
        try:
            return members[name]
        except KeyError:
            raise AttributeError(f"this reply has no {name!r}; it has {', '.join(members)}") from None

    @property
    def unapplied(self) -> List[Write]:
        """Of a query without an ancestor: the commits that stood in the journal and weren't applied, and with which it would have found other results.
        Of any other reply: none. Of a GQL text, which isn't read here, all of its namespace and kind."""
        return self._stale.writes() if self._stale is not None else []

    def _is_stale(self, journal: Journal, asked: Dict[str, Any], results: List[Json]) -> None:
        """Keeps what was known when the query was answered."""
        known, applied = journal.counts(), self._members["applied"]
        if any(seen < end for seen, end in zip(applied, known)):
            self._stale = _Stale(journal, applied, known, asked, self._members["line"])
            if sum(known) - sum(applied) <= _COMPARED:
                self._stale.compare(results)

    def _results(self) -> Sequence[Any]:
        if "results" not in self._members:
            raise TypeError(f"the reply of a {self._members.get('ok', 'refusal')} has no results")
        return self._members["results"]  # type: ignore[no-any-return]

    def __iter__(self) -> Iterator[Any]:
        return iter(self._results())

    def __len__(self) -> int:
        return len(self._results())

    def __getitem__(self, place: Any) -> Any:
        return self._results()[place]

    def __bool__(self) -> bool:
        members = self._members
        if "results" in members:
            return bool(members["results"])
        if members.get("ok") == "get":
            return members["entity"] is not None
        if members.get("ok") == "apply":
            return bool(members["applied"])
        return "error" not in members

    def __eq__(self, other: object) -> bool:
        return isinstance(other, Reply) and self._members == other._members

    __hash__ = None  # type: ignore[assignment]

    def __repr__(self) -> str:
        words = [f"{name}={value!r}" for name, value in self._members.items()]
        waiting = self.unapplied
        if waiting:
            more = f" and {len(waiting) - _SHOWN} more" if len(waiting) > _SHOWN else ""
            words.append(f"unapplied=[{'; '.join(str(write) for write in waiting[:_SHOWN])}{more}]")
        return f"Reply({', '.join(words)})"


class _Stale:
    """The counts of a query that saw less than the journal had."""

    def __init__(self, journal: Journal, applied: Sequence[int], known: Sequence[int], asked: Dict[str, Any], line: int) -> None:
        self._journal, self._applied, self._known, self._asked, self._line = journal, applied, known, asked, line
        self._found: Optional[Dict[Write, str]] = None

    def compare(self, results: List[Json]) -> None:
        """Finds out, while it is known what was written, which writes would have changed these results."""
        waiting = self._journal.waiting(self._applied, self._known, self._asked, self._line)
        if self._asked["op"] == "gql":
            self._found = {write: FOUND for write, _ in waiting}
            return
        query, self._found = Asked(self._asked), {}
        last = {key: write for write, key in waiting}
        for key, write in sorted(last.items(), key=lambda pair: pair[1].commit):
            try:
                effect = query.effect(key_out(key, ""), self._journal.content(write.commit, key), results)
            except (KeyError, ValueError):
                effect = FOUND
            if effect is not None and self._found.get(write) != FOUND:
                self._found[write] = effect

    def effects(self) -> Dict[Write, str]:
        """The writes that would have changed the results, with what each would have done: FOUND or GONE."""
        if self._found is None:
            self._found = {write: FOUND for write, _ in self._journal.waiting(self._applied, self._known, self._asked, self._line)}
        return self._found

    def writes(self) -> List[Write]:
        return list(self.effects())

    def __getstate__(self) -> Dict[str, Any]:
        """A copy that is sent elsewhere has what was found, and not the whole journal."""
        return {"_found": self.effects()}

    def __deepcopy__(self, memo: Any) -> "_Stale":
        return self
