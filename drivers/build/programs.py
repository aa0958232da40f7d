"""The programs of the repository: where each is built, of what it was made, and which build of it is in use.

What was built is kept in a crate's `out` folder, beside a stamp that says of what it was made: a sum over the sources and the kit's version; that
version; the crates; and the kit's files with size and time of change. The stamp's own time is when the sources were read. `run` looks at these
alone, and asks here where anything is newer.
"""
import contextlib
import hashlib
import os
import shutil
import subprocess
import time

from schedule import Schedule, minutes

TOP = os.path.dirname(os.path.dirname(os.path.dirname(os.path.realpath(__file__))))
PARTS = ("src", "specs", "proofs")
DEFAULT_WORDS = ["--shards", "1", "--appliers", "0"]
# How much longer the unproved server takes for 10,000 puts and a query, and for short rounds: 190 and 120 times, for it checks each access to memory.
TIMES_SLOWER = 150
# Of `run`'s own statuses, which no status of the server is.
NO_KIT, NO_WRITING, BUILD_FAILED, INTERRUPTED = 96, 97, 99, 130
# A file's time of change is that of a coarse clock: the stamp's time lies so many nanoseconds before the sources were read.
CLOCK = 50_000_000


class Fault(Exception):
    """What keeps a program from being built: a sentence, and a status."""

    def __init__(self, text, status):
        super().__init__(text)
        self.status = status


class Program:
    """A program: its name in words, its crate, and the command by which it is proved."""

    def __init__(self, what, crate, prove):
        self.what, self.crate, self.prove = what, crate, prove
        self.folder = os.path.join(TOP, "crates", crate)
        self.out = os.path.join(self.folder, "out")
        self.proved = os.path.join(self.out, crate)
        self.unproved = self.proved + ".unproved"

    def crates(self):
        """The crate and all of the repository that it stands on, lowest first, each with those of them that it uses."""
        uses, found = own_crates(), {}

        def add(name):
            for low in uses[name]:
                add(low)
            found[name] = uses[name]

        add(self.crate)
        return found

    def unproved_line(self):
        """What a user of the unproved build is told."""
        length = minutes(Schedule(self.crates(), len(os.sched_getaffinity(0))).left())
        return f"nothing is proved of this build of the {self.what}, which is some {TIMES_SLOWER} times slower; {self.prove} makes the proved one, in {length}\n"


PROGRAMS = {
    "server": Program("server", "ds_server", "./run --prove"),
    "keeper": Program("keeper", "ds_kept_server", "./run --kept --prove"),
    "auditor": Program("auditor", "ds_audit", "./run --audit --prove"),
    "load": Program("load", "ds_fill", "./run --fill --prove"),
    "replicas": Program("replicas", "ds_replicas", "./run --replicas --prove"),
    "reindexer": Program("reindexer", "ds_reindex", "./run --next --prove"),
}


def own_crates():
    """The repository's crates, each with those of them that it uses."""
    uses = {}
    with open(os.path.join(TOP, "crates.txt"), encoding="utf-8") as lines:
        for line in lines:
            name, colon, libraries = line.partition("#")[0].partition(":")
            if colon:
                uses[name.split()[0]] = libraries.split()
    return {name: [it for it in libraries if it in uses] for name, libraries in uses.items()}


# ---- what a binary was made of


def kit_version(stamped):
    """What `rt version` prints; where there is no kit, the version that the stamp tells."""
    if shutil.which("rt") is None:
        return stamped
    ran = subprocess.run(["rt", "version"], cwd=TOP, stdin=subprocess.DEVNULL, capture_output=True, text=True)
    return ran.stdout.strip() if ran.returncode == 0 else "unknown"


def kit_files():
    """The kit's program and the file that has its version, each as `run` looks at them: size, time of change, name."""
    program = shutil.which("rt")
    if program is None:
        return []
    files = [program, os.path.join(os.path.dirname(os.path.dirname(os.path.realpath(program))), "KIT-ID")]
    found = []
    for name in files:
        with contextlib.suppress(OSError):
            it = os.stat(name)
            found.append(f"{it.st_size} {int(it.st_mtime)} {name}")
    return found


def sources_sum(crates, version):
    """A sum over all that a binary is made of."""
    whole = hashlib.sha256(version.encode())
    for name in sorted(crates):
        for part in PARTS:
            for folder, inner, files in os.walk(os.path.join(TOP, "crates", name, part)):
                inner.sort()
                for file in sorted(files):
                    path = os.path.join(folder, file)
                    whole.update(path[len(TOP):].encode() + b"\0")
                    with open(path, "rb") as content:
                        whole.update(content.read() + b"\0")
    return whole.hexdigest()


class Sources:
    """What a build of a program is made of, as read now."""

    def __init__(self, program, binary):
        self.read_at = time.time_ns() - CLOCK
        self.crates = program.crates()
        self.stamp = binary + ".built-from"
        stamped = []
        with contextlib.suppress(OSError), open(self.stamp, encoding="utf-8") as stamp:
            stamped = stamp.read().splitlines()
        self.version = kit_version(stamped[1] if len(stamped) > 1 else "unknown")
        self.sum = sources_sum(self.crates, self.version)
        self.is_built = bool(stamped) and stamped[0] == self.sum and os.access(binary, os.X_OK)

    def note(self):
        """Writes the stamp. In a repository that can't be written the next start asks again."""
        with contextlib.suppress(OSError):
            with open(self.stamp + ".new", "w", encoding="utf-8") as stamp:
                stamp.write("\n".join([self.sum, self.version, " ".join(self.crates), *kit_files()]) + "\n")
            os.utime(self.stamp + ".new", ns=(self.read_at, self.read_at))
            os.replace(self.stamp + ".new", self.stamp)


def is_built(program, binary):
    """Whether this build of the program is there, and neither a source nor the kit has changed since; then its stamp is written anew."""
    sources = Sources(program, binary)
    if sources.is_built:
        sources.note()
    return sources.is_built
