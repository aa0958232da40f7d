"""The audit of a talk: its lines and replies are kept while it goes on, and held against the definitions when it ends."""
import os
import pathlib
import subprocess
import tempfile
from typing import IO, List, Optional, Sequence, Tuple

from .errors import NotLegal, ServerFailed
from .log import Recorder
from .process import Tell, repository, tell_on_stderr

_TOP = repository()
PROGRAM: Optional[pathlib.Path] = _TOP / "run" if _TOP is not None else None
"""`run` of the repository that the package stands in, or was installed from: its `--audit` builds the auditor where it isn't there."""

_TOLD_LINES = 20


class Audit(Recorder):
    """Audits a talk when the server ends, unless the server died in a round. What was found of a run that isn't legal is kept as `fault`, the first
    of several starts. `is_unproved` says that the server is one of which nothing is proved, and is audited by such an auditor. What the audit tells on
    its way, as the progress of a build, goes to `tell`."""

    def __init__(self, tell: Tell = tell_on_stderr) -> None:
        self.fault: Optional[NotLegal] = None
        self.is_unproved = False
        self._tell = tell
        self._words: List[str] = []
        self._indexes: Optional[str] = None
        self._change: Optional[Tuple[int, str]] = None
        self._kept_file: Optional[str] = None
        self._kept: List[IO[bytes]] = []
        self._whole = True

    def begin(self, words: Sequence[str], indexes: Optional[str], kept: Optional[str] = None) -> None:
        if PROGRAM is None or not PROGRAM.exists():
            raise ServerFailed(
                f"{PROGRAM or 'the repository'}, whose ./run --audit audits a run, isn't there: install the package from the repository, as"
                " pip install ./drivers/python, or keep a log, and audit it there"
            )
        self._words, self._indexes, self._change, self._kept_file = list(words), indexes, None, kept
        self._kept = [tempfile.TemporaryFile(), tempfile.TemporaryFile()]
        self._whole = True

    def changes_indexes(self, rounds: int, text: str) -> None:
        self._change = rounds, text

    def asked(self, text: bytes) -> None:
        self._whole = False
        self._kept[0].write(text)

    def answered(self, lines: Sequence[bytes]) -> None:
        self._kept[1].write(b"".join(line + b"\n" for line in lines))
        self._whole = True

    def end(self) -> None:
        kept, self._kept = self._kept, []
        if kept and self._whole and self.fault is None:
            with tempfile.TemporaryDirectory(prefix="torfyllan-") as folder:
                self.fault = self._audit(kept, folder)
        for file in kept:
            file.close()

    def _audit(self, kept: Sequence[IO[bytes]], folder: str) -> Optional[NotLegal]:
        names = [os.path.join(folder, name) for name in ("lines", "replies")]
        for file, name in zip(kept, names):
            file.seek(0)
            with open(name, "wb") as copy:
                copy.writelines(file)
        words = list(self._words)
        rounds, following = self._change if self._change is not None else (0, None)
        for option, content, name in (("--indexes", self._indexes, "index.yaml"), ("--next", following, "next.yaml")):
            if content is not None:
                index = os.path.join(folder, name)
                with open(index, "w", encoding="utf-8") as text:
                    text.write(content)
                words += [option, index]
        words += ["--after", str(rounds)] if rounds else []
        words += ["--kept", self._kept_file] if self._kept_file is not None else []
        command = [str(PROGRAM), "--audit", *names, *words, *(["--unproved"] if self.is_unproved else [])]
        verdict = os.path.join(folder, "verdict")
        with open(verdict, "wb") as output:
            ran = subprocess.Popen(command, stdin=subprocess.DEVNULL, stdout=output, stderr=subprocess.PIPE)
            told = self._told_by(ran)
        said = pathlib.Path(verdict).read_text(encoding="utf-8", errors="replace")
        if said == "legal\n" and ran.returncode == 0:
            return None
        return NotLegal((said or told or f"the audit ended with status {ran.returncode}").strip())

    def _told_by(self, ran: "subprocess.Popen[bytes]") -> str:
        """Passes on what the audit writes on standard error until it ends, and gives the last lines of it."""
        last: List[str] = []
        assert ran.stderr is not None
        with ran:
            for line in ran.stderr:
                text = line.decode("utf-8", "replace")
                if not last:
                    self._tell("torfyllan audits the run that has ended:\n")
                self._tell(text)
                last = [*last, text][-_TOLD_LINES:]
        return "".join(last)
