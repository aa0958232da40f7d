"""A page of a talk: its lines and replies are kept while it goes on, and drawn when it ends."""
import contextlib
import json
import os
import pathlib
import subprocess
import sys
import tempfile
import warnings
from typing import IO, List, Optional, Sequence, Union

from .errors import ServerFailed
from .journal import Site
from .log import About, Recorder
from .process import repository

_TOP = repository()
PROGRAM: Optional[pathlib.Path] = _TOP / "drivers" / "draw" if _TOP is not None else None
"""The folder of the program that draws a run, in the repository that the package stands in, or was installed from."""


class Drawing(Recorder):
    """Writes the page of a talk to a file when the server ends, also where it died: a line that got no reply then shows as that.

    `namespace` is that of a test, which the page doesn't name. After a `reset` the new start has a page of its own: of `run.html` it is
    `run.2.html`, and so on. Over a kept file it shows what comes behind what was found, with commits numbered from 1. A file that can't be written is an OSError at the start, and a package without the repository's drivers/draw a `ServerFailed`.
    """

    def __init__(self, file: Union[str, "os.PathLike[str]"], namespace: str = "") -> None:
        self._about = About(namespace)
        self._words: List[str] = []
        self._stem, self._ending = os.path.splitext(os.path.abspath(file))
        self._starts = 0
        self._kept: List[IO[bytes]] = []
        self._is_kept, self._found = False, 0
        self._counts: List[int] = []

    @property
    def file(self) -> str:
        """The file of the start that goes on."""
        return f"{self._stem}{f'.{self._starts}' if self._starts > 1 else ''}{self._ending}"

    def begin(self, words: Sequence[str], indexes: Optional[str], kept: Optional[str] = None) -> None:
        if PROGRAM is None or not (PROGRAM / "__main__.py").exists():
            raise ServerFailed(
                f"{PROGRAM or 'the repository'}, whose ./run --draw draws a page, isn't there: install the package from the repository, as"
                " pip install ./drivers/python, or keep a log, and draw it there"
            )
        self._starts += 1
        self._about.begin()
        self._words = list(words)
        self._is_kept, self._found, self._counts = kept is not None, 0, []
        open(self.file, "wb").close()
        self._kept = [tempfile.TemporaryFile(), tempfile.TemporaryFile()]

    def changes_indexes(self, rounds: int, text: str) -> None:
        self._about.changes_indexes(rounds)

    def asked(self, text: bytes) -> None:
        self._kept[0].write(text)

    def answered(self, lines: Sequence[bytes]) -> None:
        told = [self._behind(line) for line in lines] if self._is_kept else lines
        self._kept[1].write(b"".join(line + b"\n" for line in told))

    def _behind(self, line: bytes) -> bytes:
        """The reply without what was found in a kept file, as the first one, of a settle, tells it."""
        from .excerpt import told_behind

        # A line that is no reply is shown as it is.
        with contextlib.suppress(ValueError, KeyError, TypeError, IndexError):
            members = json.loads(line)
            if not self._counts:
                self._found, self._counts = members["place"], members["applied"]
            return told_behind(members, self._found, self._counts)
        return line

    def asked_at(self, line: int, site: Site) -> None:
        self._about.asked_at(line, site)

    def test_begins(self, name: str, namespace: str, line: int) -> None:
        self._about.test_begins(name, namespace, line)

    def end(self) -> None:
        kept, self._kept = self._kept, []
        if not kept:
            return
        with tempfile.TemporaryDirectory(prefix="torfyllan-") as folder, open(self.file, "wb") as page:
            names = [os.path.join(folder, name) for name in ("lines", "replies")]
            for kept_file, name in zip(kept, names):
                kept_file.seek(0)
                with open(name, "wb") as copy:
                    copy.writelines(kept_file)
                kept_file.close()
            title = os.path.splitext(os.path.basename(self.file))[0]
            if self._found:
                title += f", behind {self._found} kept commits"
            about = os.path.join(folder, "about")
            self._about.write(about)
            words = [*names, "--title", title, "--about", about, *self._words]
            drawn = subprocess.run([sys.executable, str(PROGRAM), *words], stdout=page, stderr=subprocess.PIPE, text=True, check=False)
        if drawn.returncode:
            warnings.warn(f"{self.file} could not be drawn: {drawn.stderr.strip()}", stacklevel=2)
