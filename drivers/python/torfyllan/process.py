"""The server as a program: found, started, spoken with in rounds of bytes, and ended."""
import contextlib
import json
import os
import pathlib
import select
import shlex
import signal
import subprocess
import sys
import time
from typing import IO, Any, Callable, Dict, List, NoReturn, Optional, Sequence

from .errors import ServerFailed
from .kept_faults import fault_of

Tell = Callable[[str], None]

# A report of pytest shows the test's own lines, and none of these.
__tracebackhide__ = True

_PIECE = 1 << 16
_TOLD_BYTES = 1000
# A start by the unproved build tells so on a line that begins so; of many starts by one program the first tells it.
_UNPROVED = b"nothing is proved "
_told_unproved = False


def repository() -> Optional[pathlib.Path]:
    """The folder of the repository that this file stands in, or that the package was installed from; None where neither is there."""
    here = pathlib.Path(__file__).resolve().parent
    tops = [here.parents[2]]
    with contextlib.suppress(OSError):
        tops.append(pathlib.Path((here / "repository.txt").read_text(encoding="utf-8").strip()))
    return next((top for top in tops if (top / "run").exists() and (top / "crates.txt").exists()), None)


def found_program(variable: str = "") -> List[str]:
    """The program's first words: what TORFYLLAN names, or `run` of the repository of this file, or of the one it was installed from. One that does more
    than serve is what this variable names, as TORFYLLAN_KEPT, or else such a `run`, which TORFYLLAN may name too."""
    named = _named("TORFYLLAN")
    if variable:
        named = _named(variable) or (named if named and os.path.basename(named[0]) == "run" else [])
    if named:
        return named
    top = repository()
    if top is not None:
        return [str(top / "run")]
    raise ServerFailed(
        "no server was found: name `run` of the repository by the environment's TORFYLLAN=/path/to/torfyllan/run, or by Server(program=...)"
    )


def _named(variable: str) -> List[str]:
    """The words of a program that the environment names; none where it names none."""
    named = os.environ.get(variable, "")
    return [named] if os.path.exists(named) else shlex.split(named)


def tell_on_stderr(text: str) -> None:
    """Writes to the terminal what a start tells on its way, as the progress of a build."""
    sys.stderr.write(text)
    sys.stderr.flush()


class Process:
    """One run of the server's program. Whatever goes wrong ends it, and is a `ServerFailed`; what goes wrong with the file that it has `kept`, a
    `KeptFileError`."""

    def __init__(self, words: Sequence[str], errors: str, executable: Optional[str] = None, kept: Optional[str] = None) -> None:
        self._kept = kept
        self._errors: IO[bytes] = open(errors, "w+b")
        self._told_until = 0
        self._begun = b""
        self._failed: Optional[str] = None
        try:
            # In a group of its own: Ctrl-C is the test's to handle, and a build that is under way ends with its children.
            self._process = subprocess.Popen(
                words,
                executable=executable,
                stdin=subprocess.PIPE,
                stdout=subprocess.PIPE,
                stderr=self._errors,
                start_new_session=True,
                env={**os.environ, "TORFYLLAN_INDEX_FORM": "server", "TORFYLLAN_KEPT_TOLD": "by the driver"},
            )
        except OSError as error:
            self._errors.close()
            raise ServerFailed(f"the server can't be started: {error}") from error
        assert self._process.stdin is not None and self._process.stdout is not None
        self._stdin, self._stdout = self._process.stdin, self._process.stdout
        os.set_blocking(self._stdin.fileno(), False)
        self.has_answered = False

    @property
    def pid(self) -> int:
        """The number of the process."""
        return self._process.pid

    @property
    def is_alive(self) -> bool:
        """Whether the program is running."""
        return self._process.poll() is None

    @property
    def why(self) -> str:
        """Why nothing more can be asked."""
        return self._failed or "the server isn't running"

    def image(self) -> Optional[Dict[str, Any]]:
        """The words and the file by which the program that now runs can be started once more; None where the system doesn't tell."""
        try:
            file = os.readlink(f"/proc/{self.pid}/exe")
            with open(f"/proc/{self.pid}/cmdline", "rb") as line:
                words = [os.fsdecode(word) for word in line.read().split(b"\0")[:-1]]
        except OSError:
            return None
        return {"words": words, "executable": file} if words and os.path.exists(file) else None

    # -- talking

    def talk(self, text: bytes, count: int, seconds: float, tell: Optional[Tell] = None) -> List[bytes]:
        """Writes a round, and reads so many reply lines. With `tell`, what the program writes on standard error meanwhile is passed on."""
        if self._failed is not None:
            raise ServerFailed(self._failed)
        try:
            return self._talk(text, count, seconds, tell)
        except ServerFailed:
            raise
        except BaseException as error:
            self._failed = f"the server was ended in the middle of a round, by {type(error).__name__}"
            self.kill()
            raise

    def _talk(self, text: bytes, count: int, seconds: float, tell: Optional[Tell]) -> List[bytes]:
        end = time.monotonic() + seconds
        writes, reads = self._stdin.fileno(), self._stdout.fileno()
        rest, pieces, seen = memoryview(text), [self._begun], 0
        while len(rest) or seen < count:
            left = max(0.0, end - time.monotonic())
            ready = select.select([reads], [writes] if len(rest) else [], [], min(left, 0.3) if tell else left)
            if not any(ready):
                if tell is not None:
                    self._pass_on(tell)
                if time.monotonic() >= end:
                    self.fail(f"no reply within {seconds:g} seconds")
                continue
            if ready[1]:
                try:
                    rest = rest[os.write(writes, rest[:_PIECE]) :]
                except OSError as error:
                    self._died(error)
            if ready[0]:
                piece = os.read(reads, 1 << 20)
                if not piece:
                    self._died()
                pieces.append(piece)
                seen += piece.count(b"\n")
        *lines, self._begun = b"".join(pieces).split(b"\n")
        self.has_answered = True
        if tell is not None:
            self._pass_on(tell)
        return lines

    def reply_in(self, line: bytes) -> Dict[str, Any]:
        """The reply of a line."""
        try:
            reply = json.loads(line)
        except ValueError as error:
            self.fail(f"the server wrote what isn't JSON: {line[:200]!r}", error)
        if not isinstance(reply, dict) or not ("ok" in reply or "error" in reply):
            self.fail(f"the server wrote what is no reply: {line[:200]!r}")
        return reply

    def _pass_on(self, tell: Tell) -> None:
        global _told_unproved
        self._errors.seek(self._told_until)
        new = self._errors.read()
        whole = new[: new.rfind(b"\n") + 1]
        self._told_until += len(whole)
        lines = whole.splitlines(keepends=True)
        text = b"".join(line for line in lines if not (_told_unproved and line.startswith(_UNPROVED)))
        _told_unproved = _told_unproved or any(line.startswith(_UNPROVED) for line in lines)
        if text:
            tell(text.decode("utf-8", "replace"))

    # -- ending

    def _died(self, cause: Optional[BaseException] = None) -> NoReturn:
        when = "in the middle of a round" if self.has_answered else "before its first reply"
        self.fail(f"the server ended {when}{self._status()}", cause)

    def _status(self) -> str:
        try:
            return f", with status {self._process.wait(1)}"
        except subprocess.TimeoutExpired:
            return ""

    def told(self) -> str:
        """What the program wrote on its standard error and wasn't passed on, at most its last thousand bytes."""
        if self._errors.closed:
            return ""
        self._errors.seek(self._told_until)
        return self._errors.read()[-_TOLD_BYTES:].decode("utf-8", "replace").strip()

    def fail(self, why: str, cause: Optional[BaseException] = None) -> NoReturn:
        """Ends the program and raises."""
        told, whole = self.told(), self._whole_told()
        self.kill()
        fault = fault_of(self._kept, self._process.returncode, whole) if self._kept is not None else None
        self._failed = str(fault) if fault else f"{why}; on its standard error: {told}" if told else why
        raise fault or ServerFailed(self._failed) from cause

    def _whole_told(self) -> str:
        """The last lines of its standard error, also of what was passed on."""
        if self._errors.closed:
            return ""
        self._errors.seek(0)
        return self._errors.read()[-_TOLD_BYTES:].decode("utf-8", "replace")

    def stop(self, seconds: float) -> None:
        """Ends the input, and waits for the program's end; a status that isn't 0 is a failure."""
        with contextlib.suppress(OSError):
            self._stdin.close()
        try:
            status = self._process.wait(seconds)
        except subprocess.TimeoutExpired:
            self.fail("the server doesn't end")
        except BaseException:
            self.kill()
            raise
        if status and self._failed is None:
            self.fail(f"the server ended with status {status}")
        self.close()

    def kill(self) -> None:
        """Ends the program at once, and what it has started."""
        if self._process.poll() is None:
            with contextlib.suppress(OSError):
                os.killpg(self._process.pid, signal.SIGTERM if not self.has_answered else signal.SIGKILL)
            try:
                self._process.wait(5)
            except subprocess.TimeoutExpired:
                self._process.kill()
                self._process.wait()
        self.close()

    def close(self) -> None:
        """Closes the pipes of a program that has ended."""
        if self._failed is None:
            self._failed = "the server isn't running"
        for pipe in (self._stdin, self._stdout, self._errors):
            with contextlib.suppress(OSError):
                pipe.close()
