"""Ends of a server as the outside may bring them: killed, interrupted, a pipe that closes, a disk that is full, an input that ends within a line.

What was written, up to its last newline, is the beginning of what a run writes that is left alone, and after an end that the server can tell of it has the
status and the word for it. Of a round that was answered nothing is missing before the server waits for the next. Some points of each are tried, and as a
whole ten times as many.
"""
import contextlib
import os
import random
import resource
import signal
import subprocess
import tempfile
import time

from tests import clients, law
from tests.case import SECONDS, SEED, WHOLE, WORDS, Case, Talk, run, server

# What a shell runs in the background ignores an interrupt, and so would the servers that this starts.
signal.signal(signal.SIGINT, signal.default_int_handler)
TIMES = 10 if WHOLE else 1
# One client, so that each run that is left alone writes the same.
ROUNDS = clients.rounds(SEED, 60, 8, clients=1)
TEXT = clients.text_of(ROUNDS)


def begin(**how):
    return subprocess.Popen([server(), *WORDS], stdin=subprocess.PIPE, stderr=subprocess.PIPE, **how)


def give(process, text):
    """Writes the input, as far as the process still reads it."""
    with contextlib.suppress(OSError):
        process.stdin.write(text)
    with contextlib.suppress(OSError):
        process.stdin.close()


def ended(process):
    """Status, and the text on standard error."""
    process.wait(SECONDS)
    errors = process.stderr.read().decode(errors="replace").strip()
    process.stderr.close()
    return process.returncode, errors


class Ends(Case):
    @classmethod
    def setUpClass(cls):
        cls.alone = run(TEXT)
        cls.full = cls.alone.output

    def setUp(self):
        self.draw = random.Random(SEED)

    def test_left_alone(self):
        self.expect("left alone: status, error text", (self.alone.status, self.alone.errors), (0, ""))
        self.holds("left alone", law.faults(TEXT, self.full))

    def is_begun(self, what, written):
        """Whether the whole lines that were written are the first ones of all, and what is behind them the beginning of the next."""
        lines = written[:written.rfind(b"\n") + 1]
        self.expect(f"{what}: whether {len(written)} bytes that were written are the beginning of all", self.full.startswith(lines) and self.full.startswith(written), True)

    def test_signals(self):
        """Between two rounds and within one."""
        for number in (signal.SIGKILL, signal.SIGINT, signal.SIGTERM):
            for _ in range(2 * TIMES):
                rounds = self.draw.randrange(1, len(ROUNDS))
                with Talk() as talk:
                    written = b"".join(b"".join(talk.round(lines)) for lines in ROUNDS[:rounds])
                    talk.server.stdin.write(ROUNDS[rounds][0] + b"\n" + ROUNDS[rounds][1][:20])
                    talk.server.stdin.flush()
                    talk.server.send_signal(number)
                    talk.server.wait(SECONDS)
                what = f"signal {number} behind round {rounds}"
                self.expect(f"{what}: status, replies to the rounds, bytes behind", (talk.status, written.count(b"\n"), talk.ahead), (-number, sum(map(len, ROUNDS[:rounds])), b""))
                self.is_begun(what, written)
            for _ in range(2 * TIMES):
                process = begin(stdout=subprocess.PIPE)
                process.stdin.write(TEXT)
                process.stdin.flush()
                written = b""
                while len(written) < self.draw.randrange(len(self.full)):
                    written += os.read(process.stdout.fileno(), 3000)
                process.send_signal(number)
                with contextlib.suppress(OSError):
                    process.stdin.close()
                written += process.stdout.read()
                status, _ = ended(process)
                self.expect(f"signal {number} while it works: status", status in (-number, 0), True)
                self.is_begun(f"signal {number} while it works", written)
                process.stdout.close()

    def test_a_pipe_that_closes(self):
        for _ in range(3 * TIMES):
            process = begin(stdout=subprocess.PIPE)
            process.stdin.write(TEXT[:len(TEXT) // 2])
            process.stdin.flush()
            want, written = self.draw.randrange(1, len(self.full) // 3), b""
            while len(written) < want:
                written += os.read(process.stdout.fileno(), 500)
            process.stdout.close()
            give(process, TEXT[len(TEXT) // 2:])
            self.expect("the reader of the pipe goes", ended(process), (4, "write fault"))
            self.is_begun("the reader of the pipe goes", written)

    def test_full_disks(self):
        with open("/dev/full", "wb") as device:
            process = begin(stdout=device)
            give(process, TEXT)
            self.expect("a device that is full", ended(process), (4, "write fault"))
        for at in range(6 * TIMES):
            most, told = self.draw.randrange(len(self.full)), at % 2 == 0
            with tempfile.TemporaryFile() as file:
                def limited():
                    resource.setrlimit(resource.RLIMIT_FSIZE, (most, most))
                    signal.signal(signal.SIGXFSZ, signal.SIG_IGN if told else signal.SIG_DFL)
                process = begin(stdout=file, preexec_fn=limited)
                give(process, TEXT)
                found = ended(process)
                file.seek(0)
                written = file.read()
            what = f"a file that may have {most} bytes" + ("" if told else ", by a signal")
            self.expect(what, (found if told else found[0], len(written)), ((4, "write fault") if told else -signal.SIGXFSZ, most))
            self.is_begun(what, written)

    def test_a_small_disk(self):
        """A file system of its own with 16 pages, where one may be mounted."""
        script = 'mount -t tmpfs -o size=16k tmpfs "$1" || exit 77; shift; out=$1; shift; "$@" > "$out"; status=$?; cat "$out" >&3; exit $status'
        with tempfile.TemporaryDirectory() as folder, tempfile.TemporaryFile() as copy:
            process = subprocess.Popen(["unshare", "-rm", "bash", "-c", script, "small", folder, os.path.join(folder, "out"), server(), *WORDS],
                                      stdin=subprocess.PIPE, stdout=subprocess.DEVNULL, stderr=subprocess.PIPE, preexec_fn=lambda: os.dup2(copy.fileno(), 3), pass_fds=(3,))
            give(process, TEXT)
            status, errors = ended(process)
            if status == 77 or status == 1 and "unshare" in errors:
                self.skipTest("no file system can be mounted here")
            copy.seek(0)
            written = copy.read()
        self.expect("a disk of 16 KiB", (status, errors, len(written)), (4, "write fault", 16384))
        self.is_begun("a disk of 16 KiB", written)

    def test_inputs_that_end_anywhere(self):
        """Cut at any byte: all lines that are there are answered, the cut one too, as the lines of an input of its own."""
        for _ in range(12 * TIMES):
            at = self.draw.randrange(len(TEXT))
            ran = run(TEXT[:at])
            what = f"an input that ends with byte {at}"
            self.expect(f"{what}: status, error text", (ran.status, ran.errors), (0, ""))
            self.holds(what, law.faults(TEXT[:at], ran.output))
            whole = ran.lines
            complete = sum(1 for line in TEXT[:at].split(b"\n")[:-1] if line)
            self.expect(f"{what}: whether the replies to its whole lines are the first of all", self.full.startswith(b"".join(whole[:complete])) and complete <= len(whole) <= complete + 1, True)

    def test_closed_files(self):
        """A standard file that is closed from the beginning."""
        lines = b'{"op":"settle"}\n'
        for script, wanted in (('"$@" <&-', {(3, b"", "read fault"), (0, b"", "")}), ('"$@" >&-', {(4, b"", "write fault")}), ('"$@" 2>&- >/dev/full', {(4, b"", "")}),
                               ('"$@" </', {(3, b"", "read fault")})):
            ran = subprocess.run(["bash", "-c", script, "closed", server(), *WORDS], input=lines, capture_output=True, timeout=SECONDS)
            found = (ran.returncode, ran.stdout, ran.stderr.decode().strip())
            self.expect(f"{script}: {found}: whether it is told", found in wanted, True)

    def test_a_server_that_waits(self):
        """A server that waits for a round uses no processor, and has written all that it answered."""
        with Talk() as talk:
            written = b"".join(talk.round(ROUNDS[0]))
            used = talk.seconds()
            time.sleep(1)
            self.expect("processor seconds of a server that waits", talk.seconds() - used < 0.1, True)
            self.is_begun("a round", written)
            self.expect("replies to a round", written.count(b"\n"), len(ROUNDS[0]))
        self.expect("status behind the end, error text, bytes behind the replies", talk.end, (0, "", b""))
