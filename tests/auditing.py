"""Hands runs to the auditor: input, replies, the server's words, and the journal that the acknowledged commits tell."""
import sys
import time

from tests.case import TOP, Case, auditor, run

sys.path.insert(0, str(TOP / "drivers" / "audit"))
from journal_of import journal


def verdict(lines, replies, words, told=None, index=None, **how):
    """How the auditor ends over a run, with this journal or the one that the replies tell."""
    files = {"input": lines, "replies": replies, "journal": journal(lines, replies) if told is None else told}
    return run(b"", ["input", "replies", "journal", *words], index, of=auditor(), files=files, **how)


class Audits(Case):
    """Cases whose runs are audited: their number, and the seconds that they took. A case that audits none fails."""

    audited, seconds = 0, 0.0

    def audit(self, what, lines, replies, words, index=None):
        """Asks whether the replies are those of a legal run of the input. `index` is the text of the file that the words name `index.yaml`."""
        began = time.monotonic()
        ran = verdict(lines, replies, words, index=index)
        self.audited += 1
        self.seconds += time.monotonic() - began
        self.expect(f"{what}: the auditor's status and verdict", (ran.status, ran.output, ran.errors), (0, b"legal\n", ""))

    def tearDown(self):
        super().tearDown()
        if not self.audited:
            self.fail("no run was audited")
