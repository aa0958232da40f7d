"""What the tests stand on: the programs that they try, the base of their cases, runs and talks.

A program is that of TORFYLLAN, TORFYLLAN_KEPT, TORFYLLAN_REINDEX, TORFYLLAN_AUDIT, TORFYLLAN_FILL or TORFYLLAN_REPLICAS; else the proved one where it is
built, else the unproved one. SEED, where it is given, begins the random choices. TORFYLLAN_WHOLE tries all of what is else tried by a sample; of the
unproved program, which is many times slower, the samples are smaller.
"""
import contextlib
import functools
import os
import pathlib
import resource
import select
import subprocess
import sys
import tempfile
import unittest

TOP = pathlib.Path(__file__).resolve().parent.parent
EXAMPLES = TOP / "examples"
WORDS = ["--shards", "1", "--appliers", "0"]
INDEXED = ["--indexes", "index.yaml", *WORDS]
SECONDS = 600
# Where a wrong server is planted before the real one, that is the one which is refused things.
PLANTED = os.environ.get("PLANTED_PROGRAM")
# After so many seconds without a byte no further reply is waited for.
SILENT_SECONDS = 5 if PLANTED else 120
SEED = int(os.environ.get("SEED", "46"))
WHOLE = bool(os.environ.get("TORFYLLAN_WHOLE"))
MOST_FAULTS = 20


@functools.lru_cache(None)
def program(variable, name):
    """The path of a program: what the variable names, or the build that is in use, which is made where there is none."""
    named = os.environ.get(variable)
    if named:
        return os.path.realpath(named)
    ran = subprocess.run([sys.executable, TOP / "drivers" / "build", name], stdin=subprocess.DEVNULL, stdout=subprocess.PIPE, text=True)
    if ran.returncode:
        raise RuntimeError(f"the {name} isn't there, and can't be built (status {ran.returncode})")
    return ran.stdout.strip()


def server():
    """The server's path."""
    return program("TORFYLLAN", "server")


def keeper():
    """The path of the server that keeps a file."""
    return program("TORFYLLAN_KEPT", "keeper")


def auditor():
    """The auditor's path."""
    return program("TORFYLLAN_AUDIT", "auditor")


def load_program():
    """The path of the program that serves a load and counts."""
    return program("TORFYLLAN_FILL", "load")


def replicas_program():
    """The path of the program that runs a script of replicas."""
    return program("TORFYLLAN_REPLICAS", "replicas")


def reindexer():
    """The path of the program that serves with a second index file."""
    return program("TORFYLLAN_REINDEX", "reindexer")


def is_slow():
    """Whether the server is an unproved build, of which less is tried."""
    return (PLANTED or server()).endswith(".unproved")


def sample(proved, unproved, whole):
    """How much of something is tried."""
    return whole if WHOLE else unproved if is_slow() else proved


class Case(unittest.TestCase):
    """Counts what is tried; each thing that is otherwise is a sub-test that fails, and the first twenty are told. A case that tried nothing fails."""

    tried = faults = 0

    def expect(self, what, found, wanted):
        """Tries one thing: whether what was found is what is wanted."""
        self.tried += 1
        if found != wanted:
            self.fault(what, f"{shortened(found)}, and not {shortened(wanted)}")

    def fault(self, what, told):
        """Notes what is wrong, and goes on."""
        self.faults += 1
        with self.subTest(what):
            self.fail(told)
        if self.faults >= MOST_FAULTS:
            self.fail(f"{self.faults} things are otherwise; the others aren't tried")

    def holds(self, what, faults):
        """Takes the list of what a law found wrong."""
        self.tried += 1
        for told in faults[:1]:
            self.fault(what, shortened(told))

    def skipTest(self, reason):
        self.tried += 1
        super().skipTest(reason)

    def tearDown(self):
        if not self.tried:
            self.fail("nothing was tried")


def shortened(it):
    text = it if isinstance(it, str) else repr(it)
    return text if len(text) <= 600 else f"{text[:400]} .. {text[-150:]}"


class Ran:
    """How a run ended: status (below 0 a signal's number), bytes written, the text on standard error, and the counts where it was refused things."""

    def __init__(self, status, output, errors, counts=None):
        self.status, self.output, self.errors, self.counts = status, output or b"", errors.decode(errors="replace").strip(), counts

    @property
    def lines(self):
        return self.output.splitlines(keepends=True)

    @property
    def end(self):
        """Status, output and standard error."""
        return self.status, self.output, self.errors


def run(text, words=WORDS, index=None, most=None, of=None, folder=None, files=(), **how):
    """A run of the server, or of the program `of`, over these bytes, in a folder of its own or this one.

    `index` is the text of the file index.yaml, `files` has further ones by name, and `most` is how many bytes the program may map.
    """
    limits = (lambda: resource.setrlimit(resource.RLIMIT_AS, (most, most))) if most else None
    given = {"stdin": how.pop("stdin")} if "stdin" in how else {"input": text}
    with contextlib.ExitStack() as stack:
        folder = folder or stack.enter_context(tempfile.TemporaryDirectory(prefix="run-"))
        for name, content in [*([("index.yaml", index)] if index is not None else []), *dict(files).items()]:
            pathlib.Path(folder, name).write_bytes(content if isinstance(content, bytes) else content.encode())
        how = {"stdout": subprocess.PIPE, **how}
        ran = subprocess.run([of or server(), *words], stderr=subprocess.PIPE, cwd=folder, timeout=SECONDS, preexec_fn=limits, **given, **how)
    return Ran(ran.returncode, ran.stdout, ran.stderr)


class Talk:
    """A server, or the program `of`, that is talked to round by round. Use it in a `with`; behind it there are `status`, `errors` and `ahead`, what it wrote too many."""

    def __init__(self, words=WORDS, of=None, **how):
        self.words, self.of, self.how, self.status, self.ahead = words, of, how, None, b""

    def __enter__(self):
        # A server that is built with checks of memory keeps what is freed for a while; here it doesn't.
        options = {**os.environ, "ASAN_OPTIONS": "quarantine_size_mb=1:thread_local_quarantine_size_kb=64"}
        self.server = subprocess.Popen([self.of or server(), *self.words], stdin=subprocess.PIPE, stdout=subprocess.PIPE, stderr=subprocess.PIPE, env=options, **self.how)
        return self

    def __exit__(self, *_):
        with contextlib.suppress(OSError):
            self.server.stdin.close()
        self.server.stdin = None
        # What it still says is read, so that a full pipe doesn't keep it from its end.
        try:
            output, errors = self.server.communicate(timeout=SECONDS)
        except subprocess.TimeoutExpired:
            self.server.kill()
            output, errors = self.server.communicate()
        self.status, self.errors = self.server.returncode, errors.decode(errors="replace").strip()
        self.ahead += output or b""

    @property
    def end(self):
        """Status, standard error, and the bytes behind the replies."""
        return self.status, self.errors, self.ahead

    def round(self, lines):
        """Writes the lines and the empty line behind them; gives as many reply lines, fewer where the server ends or says no more."""
        with contextlib.suppress(OSError):
            self.server.stdin.write(b"\n".join([*lines, b"", b""]))
            self.server.stdin.flush()
        pieces, missing = [self.ahead], len(lines) - self.ahead.count(b"\n")
        while missing > 0 and select.select([self.server.stdout], [], [], SILENT_SECONDS)[0]:
            piece = os.read(self.server.stdout.fileno(), 1 << 16)
            if not piece:
                break
            pieces.append(piece)
            missing -= piece.count(b"\n")
        replies = b"".join(pieces).splitlines(keepends=True)
        # A reply too many is met by the next round, or behind the last.
        self.ahead = b"".join(replies[len(lines):])
        return replies[:len(lines)]

    def seconds(self):
        """Seconds of processor time that the server has used, all its threads together."""
        with open(f"/proc/{self.server.pid}/stat", encoding="ascii") as file:
            words = file.read().rpartition(")")[2].split()
        return (int(words[11]) + int(words[12])) / os.sysconf("SC_CLK_TCK")

    def threads(self):
        """The states of the server's threads now, a letter each, as `R` of one that has a processor or waits for one. Where a wrong server is planted
        before the real one, they are those of the real one."""
        number, found = self.server.pid, []
        if PLANTED:
            with open(f"/proc/{number}/task/{number}/children", encoding="ascii") as file:
                number = int(file.read().split()[0])
        for thread in os.listdir(f"/proc/{number}/task"):
            with contextlib.suppress(OSError), open(f"/proc/{number}/task/{thread}/stat", encoding="ascii", errors="replace") as file:
                found.append(file.read().rpartition(")")[2].split()[0])
        return found

    def memory(self):
        """Bytes that the server holds now."""
        with open(f"/proc/{self.server.pid}/statm", encoding="ascii") as file:
            return int(file.read().split()[1]) * resource.getpagesize()


def example(name):
    """The bytes of an example's lines."""
    return (EXAMPLES / f"{name}.jsonl").read_bytes()


def example_index(name):
    """The index file of an example; None where it has none."""
    file = EXAMPLES / f"{name}.yaml"
    return file.read_text(encoding="utf-8") if file.exists() else None


def example_words(name):
    """The words that ./run gives the server for an example."""
    file = EXAMPLES / f"{name}.words"
    return with_defaults(file.read_text(encoding="utf-8").split() if file.exists() else [])


def with_defaults(given):
    """These words, and one shard and no appliers where they aren't given."""
    return [*given, *(word for name, value in zip(WORDS[::2], WORDS[1::2]) if name not in given for word in (name, value))]


def in_rounds(text):
    """The same lines, each in a round of its own."""
    return text.replace(b"\n", b"\n\n")
