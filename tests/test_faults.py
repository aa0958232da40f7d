"""Each read, each write and each step of loading the index file fails in turn, over the guestbook's lines, until a run ends well.

A sample where reads give one byte and writes take three; the whole of it tries each call there too. After a read that fails the run ends with status 3
and `read fault`, and what is written are the replies of the rounds that had ended by then; after a write with status 4 and `write fault`, and what is
written is what the sink took before; where the file can't be loaded with 5 and `file fault`, and nothing is read or written. Nothing is tried again, and
a call that is cut short is no failure.
"""
import errno

from tests import law
from tests.case import INDEXED, WHOLE, example, example_index, in_rounds, is_slow
from tests.refusing import Refusing

GUESTBOOK = example("a_guestbook")
# The four lines in one round, and in two rounds of two, and each in one of its own; without the last newline.
LINES = GUESTBOOK.splitlines(keepends=True)
INPUTS = {"one round": GUESTBOOK, "two rounds": b"".join([*LINES[:2], b"\n", *LINES[2:]]), "four rounds": in_rounds(GUESTBOOK), "no last newline": in_rounds(GUESTBOOK).rstrip(b"\n")}

def rounds_within(text, read, replies):
    """The replies of the rounds that end within the first bytes of an input: those with whose empty line the bytes have come."""
    ended = text[:read].split(b"\n")[:-1]
    count, lines = 0, 0
    for line in ended:
        if line.strip(b" \t\r"):
            lines += 1
        else:
            count, lines = count + lines, 0
    return b"".join(replies[:count])


def some(count, whole):
    """The numbers of the calls to let fail, the one behind the last among them: all, or the first, the last and 12 between."""
    if WHOLE or whole and not is_slow():
        return range(1, count + 2)
    return sorted({1, 2, count, count + 1, *range(1, count, max(1, count // 12))})


class Faults(Refusing):
    index = example_index("a_guestbook")

    def reads(self, name, text, plain):
        for most in (None, 1):
            limits = {"read_most": most} if most else {}
            count = self.run_refused(text, INDEXED, **limits).counts["reads"]
            for call in some(count, not most):
                for error in (errno.EIO, errno.EISDIR) if not most else (errno.EIO,):
                    what = f"{name}, read {call} of {count} fails with {errno.errorcode[error]}"
                    ran = self.run_refused(text, INDEXED, **limits, read=f"{call},{error}")
                    if call > count:
                        self.expect(what, ran.end, (0, plain.output, ""))
                        continue
                    written = rounds_within(text, ran.counts["read_bytes"], plain.lines)
                    self.expect(what, ran.end, (3, written, "read fault"))
                    self.expect(f"{what}: bytes read, reads behind it", (ran.counts["read_bytes"] if most else None, ran.counts["after_read"]), (call - 1 if most else None, 0))

    def writes(self, name, text, plain):
        for most in (None, 3):
            limits = {"write_most": most} if most else {}
            whole = self.run_refused(text, INDEXED, **limits)
            self.expect(f"{name}, writes take {most}", (whole.status, whole.output), (0, plain.output))
            count, before = whole.counts["writes"], 0
            for call in some(count, not most):
                for error in (errno.EIO, errno.ENOSPC, errno.EPIPE, 0) if not most else (errno.ENOSPC,):
                    what = f"{name}, write {call} of {count} fails with {errno.errorcode.get(error, 'nothing taken')}"
                    ran = self.run_refused(text, INDEXED, **limits, write=f"{call},{error}")
                    if call > count:
                        self.expect(what, ran.end, (0, plain.output, ""))
                        continue
                    self.expect(what, (ran.status, ran.errors, ran.counts["after_write"]), (4, "write fault", 0))
                    # A reply's line may be cut where the sink took a part of it, and nothing else stands behind it.
                    is_begun = plain.output.startswith(ran.output) and before <= len(ran.output) < len(plain.output)
                    self.expect(f"{what}: whether what was taken is the beginning of all", (is_begun, len(ran.output)), (True, ran.counts["written_bytes"]))
                before = len(ran.output)

    def interrupted(self, name, text, plain):
        """A call that a signal interrupts is made again, or is a failure like another."""
        for what, status, told in (("read", 3, "read fault"), ("write", 4, "write fault")):
            ran = self.run_refused(text, INDEXED, **{what: f"1,{errno.EINTR}"})
            again = ran.end == (0, plain.output, "")
            failed = (ran.status, ran.output, ran.errors, ran.counts[f"after_{what}"]) == (status, b"", told, 0)
            self.expect(f"{name}, {what} 1 interrupted: whether it is made again or fails ({ran.status}, {ran.errors!r})", again or failed, True)

    def loads(self, name, text, plain):
        for most in (None, 1):
            limits = {"load_most": most} if most else {}
            count = self.run_refused(text, INDEXED, **limits).counts["loads"]
            for call in some(count, not most):
                for error in (errno.ENOENT, errno.EACCES, errno.EMFILE, errno.EIO) if not most else (errno.EIO,):
                    what = f"{name}, step {call} of {count} of the load fails with {errno.errorcode[error]}"
                    ran = self.run_refused(text, INDEXED, **limits, load=f"{call},{error}")
                    if call > count:
                        self.expect(what, ran.end, (0, plain.output, ""))
                        continue
                    self.expect(what, ran.end, (5, b"", "file fault"))
                    self.expect(f"{what}: reads and writes", (ran.counts["reads"], ran.counts["writes"]), (0, 0))

    def plain(self, name):
        """The lines of an input, and a run of them in which nothing fails."""
        text = INPUTS[name]
        plain = self.run_refused(text, INDEXED)
        self.expect(f"{name}: without failures", (plain.status, plain.errors, plain.counts["reads"] > 1, plain.counts["writes"] > 0, plain.counts["loads"] > 1),
                    (0, "", True, True, True))
        self.holds(name, law.faults(text, plain.output))
        return name, text, plain

    def test_reads(self):
        for name in INPUTS:
            self.reads(*self.plain(name))

    def test_writes(self):
        for name in INPUTS:
            self.writes(*self.plain(name))

    def test_interruptions(self):
        for name in INPUTS:
            self.interrupted(*self.plain(name))

    def test_loads(self):
        self.loads(*self.plain("no last newline"))
