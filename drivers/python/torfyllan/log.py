"""The files that keep a talk: its lines, its replies, and how the server was started."""
import json
import os
import shutil
from typing import IO, Any, Dict, List, Optional, Sequence

from .journal import DRIVER, Site


class Recorder:
    """What hears a talk as it goes on. A server calls it in this order; each start of the server is one `begin` and one `end`."""

    def begin(self, words: Sequence[str], indexes: Optional[str], kept: Optional[str] = None) -> None:
        """The server is started with these words, an index file of this text or none, and a kept file or none, of which a copy has this name."""

    def changes_indexes(self, rounds: int, text: str) -> None:
        """Behind so many rounds the server, which was just started, goes on with an index file of this text."""

    def asked(self, text: bytes) -> None:
        """These bytes are sent: the lines of a round, and an empty line; or several such rounds."""

    def answered(self, lines: Sequence[bytes]) -> None:
        """These replies came, each without its newline."""

    def asked_at(self, line: int, site: Site) -> None:
        """The line of this number was asked by the caller at this place. It comes behind the replies; lines of the driver's own have none."""

    def test_begins(self, name: str, namespace: str, line: int) -> None:
        """From this line on a test of this name is the server's, in this namespace."""

    def end(self) -> None:
        """The server has ended."""


class About:
    """What a page tells of a talk beside its lines: the place in the source that asked each, a namespace that it doesn't name, the tests, and behind
    how many rounds a second index file serves."""

    def __init__(self, namespace: str) -> None:
        self._namespace = namespace
        self.begin()

    def begin(self) -> None:
        """A start of a server."""
        self._sites: Dict[int, str] = {}
        self._tests: List[Dict[str, Any]] = []
        self._after: Optional[int] = None

    def changes_indexes(self, rounds: int) -> None:
        """A second index file serves behind so many rounds."""
        self._after = rounds

    def test_begins(self, name: str, namespace: str, line: int) -> None:
        """A test begins at this line."""
        self._tests.append({"name": name, "namespace": namespace, "line": line})

    def asked_at(self, line: int, site: Site) -> None:
        """The line was asked at this place; what the fixtures ask counts as the driver's own."""
        if site is not DRIVER:
            self._sites[line] = str(site)

    def write(self, name: str) -> None:
        """Writes it as JSON."""
        with open(name, "w", encoding="utf-8") as file:
            after = {} if self._after is None else {"after": self._after}
            json.dump({"sites": self._sites, "namespace": self._namespace, "tests": self._tests, **after}, file)


class Log(Recorder):
    """Keeps a talk in files: of `run.jsonl` they are

        run.jsonl      the bytes that were sent, so lines are numbered as replies tell them, and an empty line ends each round
        run.replies    the replies, one a line, in the order in which they came
        run.words      the words that the server was given, one a line
        run.yaml       the index file, in the server's form, where there is one
        run.next.yaml  the second index file, where there is one
        run.kept       the kept file as it was at the start, where there is one
        run.about      JSON for a page: which place in the source asked each line, which tests there were; written at the end

    After a `reset` the new start has files of its own: `run.2.jsonl` and so on. What is kept of a start is complete up to the last round,
    also where the server or the test died.
    """

    def __init__(self, file: str, namespace: str = "") -> None:
        self._about = About(namespace)
        path = os.path.abspath(file)
        self._stem = path[: -len(".jsonl")] if path.endswith(".jsonl") else path
        self._starts = 0
        self._files: List[IO[bytes]] = []

    def name(self, ending: str) -> str:
        """The file of this ending, of the start that goes on."""
        start = f".{self._starts}" if self._starts > 1 else ""
        return f"{self._stem}{start}.{ending}"

    def begin(self, words: Sequence[str], indexes: Optional[str], kept: Optional[str] = None) -> None:
        self._starts += 1
        self._about.begin()
        words = list(words)
        if kept is not None:
            shutil.copyfile(kept, self.name("kept"))
            words = ["--kept", os.path.basename(self.name("kept")), *words]
        if indexes is not None:
            with open(self.name("yaml"), "w", encoding="utf-8") as file:
                file.write(indexes)
            words += ["--indexes", os.path.basename(self.name("yaml"))]
        with open(self.name("words"), "w", encoding="utf-8") as file:
            file.writelines(word + "\n" for word in words)
        self._files = [open(self.name(ending), "wb") for ending in ("jsonl", "replies")]

    def changes_indexes(self, rounds: int, text: str) -> None:
        self._about.changes_indexes(rounds)
        with open(self.name("next.yaml"), "w", encoding="utf-8") as file:
            file.write(text)
        with open(self.name("words"), "a", encoding="utf-8") as words:
            words.writelines(word + "\n" for word in ("--next", os.path.basename(self.name("next.yaml")), "--after", str(rounds)))

    def asked(self, text: bytes) -> None:
        self._files[0].write(text)
        self._files[0].flush()

    def answered(self, lines: Sequence[bytes]) -> None:
        self._files[1].write(b"".join(line + b"\n" for line in lines))
        self._files[1].flush()

    def asked_at(self, line: int, site: Site) -> None:
        self._about.asked_at(line, site)

    def test_begins(self, name: str, namespace: str, line: int) -> None:
        self._about.test_begins(name, namespace, line)

    def end(self) -> None:
        if self._files:
            self._about.write(self.name("about"))
        for file in self._files:
            file.close()
        self._files = []
