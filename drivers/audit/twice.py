"""Asks the auditor of a run with a cut: of each judgement of `cut`, both at once."""
import os
import subprocess
import sys
import tempfile

import cut

NOT_LEGAL, MOST_ROUNDS = 7, 9_999


def taken(words):
    """The words without those of a cut; the second index file and the number of rounds before it, or None and None. What is wrong is a ValueError."""
    found, rest, at = {}, [], 0
    while at < len(words):
        name, equals, value = words[at].partition("=")
        at += 1
        if name not in ("--next", "--after"):
            rest.append(words[at - 1])
            continue
        if not equals:
            value, at = (words[at] if at < len(words) else ""), at + 1
        if name in found:
            raise ValueError(f"{name} is given twice")
        found[name] = value
    if not found:
        return rest, None, None
    if len(found) == 1:
        raise ValueError("--next FILE and --after N are given together")
    if not (found["--after"].isascii() and found["--after"].isdigit() and 1 <= int(found["--after"]) <= MOST_ROUNDS):
        raise ValueError(f"--after is a number of rounds from 1 to {MOST_ROUNDS:,}, and not '{found['--after']}'")
    if not os.path.isfile(found["--next"]):
        raise ValueError(f"there is no index file '{found['--next']}'")
    return rest, found["--next"], int(found["--after"])


class Asked:
    """The auditor, asked of an input, its replies and a journal; `end` waits for its status and what it prints."""

    def __init__(self, auditor, folder, texts, words):
        names = [os.path.join(folder, name) for name in ("input", "replies", "journal")]
        os.makedirs(folder, exist_ok=True)
        for name, content in zip(names, texts):
            with open(name, "wb") as file:
                file.write(content)
        self.ran = subprocess.Popen([auditor, *names, *words], stdin=subprocess.DEVNULL, stdout=subprocess.PIPE, stderr=subprocess.PIPE, text=True)
        self.errors = ""

    def end(self):
        said, self.errors = self.ran.communicate()
        return self.ran.returncode, said


def with_indexes(words, name):
    """The words, with this index file in place of theirs."""
    rest, skips = [], False
    for word in words:
        if not skips and word != "--indexes" and not word.startswith("--indexes="):
            rest.append(word)
        skips = word == "--indexes" and not skips
    return [*rest, "--indexes", name]


def judged(auditor, lines, replies, words, following, after):
    """The status and the verdict on a run with a cut, of the files of its lines and replies: of both judgements the one that tells what is wrong first."""
    with open(lines, "rb") as asked, open(replies, "rb") as answered:
        before, behind, last = cut.judgements(asked.read(), answered.read(), after)
    with tempfile.TemporaryDirectory() as folder:
        return verdict_of(*asked_both(auditor, folder, before, behind, words, following), last, following)


def asked_both(auditor, folder, before, behind, words, following):
    """The auditor, asked of each judgement: how it ran, and how it ended."""
    runs = [Asked(auditor, os.path.join(folder, "before"), before, words)]
    if behind is not None:
        runs.append(Asked(auditor, os.path.join(folder, "after"), behind, with_indexes(words, following)))
    return runs, [run.end() for run in runs]


def verdict_of(runs, ends, last, following):
    """The status and the verdict, of how the auditor ran and ended; `last` is the number of the last line before the cut."""
    for run, (status, _), which in zip(runs, ends, ("", f"{following}: ")):
        if status not in (0, NOT_LEGAL):
            sys.stderr.write(which + run.errors)
            return status, ""
    said = [verdict for _, verdict in ends]
    if "not legal: count\n" in said:
        return NOT_LEGAL, "not legal: count\n"
    lines = [verdict for verdict in said if verdict.startswith("not legal: line ")]
    if lines and said[0] == "legal\n" and int(lines[0].rsplit(None, 1)[1]) <= last:
        print(
            "audit: the line below puts an entity that has too many index rows under the second file, in a transaction that goes on behind the cut;"
            " of such a run nothing can be said",
            file=sys.stderr,
        )
    for verdict in (*lines, "not legal: numbers\n", "not legal: ids\n"):
        if verdict in said:
            return NOT_LEGAL, verdict
    return 0, "legal\n"
