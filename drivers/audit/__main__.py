"""Says whether replies are those of a legal run of an input: ./run --audit INPUT REPLIES [WORDS].

The journal that the auditor is handed is told by the acknowledged commits: `journal_of` makes its text. That needs no trust, as the verdict is on
the journal that it makes. WORDS are those that served the lines, as ./run takes them. The proved auditor judges where it is there, else one of which
nothing is proved, as with --unproved; ./run --audit --prove makes the proved one. A run with `--next FILE --after N` is judged twice, as `cut` says.

With --kept FILE among them the run went over a kept file, and FILE is a copy of how it was before: `kept_run` tells what goes in front.
"""
import json
import os
import subprocess
import sys
import tempfile

sys.dont_write_bytecode = True
import twice
from journal_of import journal
from kept_run import Prologue
from torfyllan.kept import KeptFile

TOP = os.environ.get("TORFYLLAN_TOP") or os.path.dirname(os.path.dirname(os.path.dirname(os.path.realpath(__file__))))
BUILD = [sys.executable, os.path.join(TOP, "drivers", "build"), "auditor"]
DEFAULTS = (("--shards", "1"), ("--appliers", "0"))
WRONG_WORDS, DAMAGED = 95, 9


def program(unproved):
    """The auditor, built where it isn't there."""
    named = os.environ.get("TORFYLLAN_AUDIT")
    if named:
        return named
    ran = subprocess.run([*BUILD, *(["--unproved"] if unproved else [])], stdin=subprocess.DEVNULL, stdout=subprocess.PIPE, text=True)
    if ran.returncode:
        sys.exit(ran.returncode)
    return ran.stdout.strip()


def line_of(name, number):
    with open(name, "rb") as lines:
        for at, line in enumerate(lines, 1):
            if at == number:
                return line.rstrip(b"\n").decode(errors="replace")
    return ""


def reply_to(name, number):
    """The reply whose member `line` is this number."""
    with open(name, "rb") as replies:
        for reply in replies:
            try:
                if json.loads(reply).get("line") == number:
                    return reply.rstrip(b"\n").decode(errors="replace")
            except (ValueError, AttributeError):
                continue
    return "(no reply tells this line's number)"


def refuse(told):
    print(f"audit: {told}", file=sys.stderr)
    print(
        "usage: ./run --audit INPUT REPLIES [--indexes FILE] [--shards N] [--appliers N] [--window N] [--kept COPY] [--next FILE --after N] [--unproved]\n"
        "       ./run --audit --prove",
        file=sys.stderr,
    )
    return WRONG_WORDS


def without_kept(words):
    """The words without `--kept FILE`, and FILE; None where they name none."""
    for at, word in enumerate(words):
        if word == "--kept" and at + 1 < len(words):
            return [*words[:at], *words[at + 2 :]], words[at + 1]
        if word.startswith("--kept="):
            return [*words[:at], *words[at + 1 :]], word[len("--kept=") :]
    return words, None


def prologue_of(name):
    """What goes before a run over a kept file that was as this one is; None where it is damaged."""
    with open(name, "rb") as file:
        kept = KeptFile(file.read())
    prologue = Prologue(kept)
    if kept.damaged:
        print(f"audit: {name} is damaged at byte {kept.place}, so no run begins with it; ./run --kept-journal {name} prints what it keeps before", file=sys.stderr)
        return None
    return prologue


def judged(auditor, lines, replies, words, prologue):
    """The auditor's status and verdict on the files of a run, behind this prologue or none."""
    with tempfile.TemporaryDirectory() as folder, open(lines, "rb") as file, open(replies, "rb") as other:
        asked, answered = file.read(), other.read()
        told = journal(asked, answered, prologue.commits if prologue else 0)
        texts = {"journal": (prologue.journal if prologue else b"") + told}
        if prologue:
            texts.update(lines=prologue.lines + asked, replies=prologue.replies + prologue.behind(answered))
            lines, replies = os.path.join(folder, "lines"), os.path.join(folder, "replies")
        for name, text in texts.items():
            with open(os.path.join(folder, name), "wb") as copy:
                copy.write(text)
        ran = subprocess.run([auditor, lines, replies, os.path.join(folder, "journal"), *words], stdin=subprocess.DEVNULL, stdout=subprocess.PIPE, text=True)
    return ran.returncode, ran.stdout


def main(words):
    if words == ["--prove"]:
        return subprocess.run([*BUILD, "--prove"], stdin=subprocess.DEVNULL).returncode
    unproved = "--unproved" in words
    words, kept = without_kept([word for word in words if word != "--unproved"])
    if len(words) < 2 or words[0].startswith("--") or words[1].startswith("--"):
        return refuse("the names of an input and of its replies are missing")
    lines, replies, *words = words
    for name in (lines, replies, *([kept] if kept is not None else [])):
        if name != os.devnull and not (os.path.isfile(name) and os.access(name, os.R_OK)):
            return refuse(f"there is no file '{name}', or it can't be read")
    for name, value in DEFAULTS:
        if not any(word == name or word.startswith(name + "=") for word in words):
            words += [name, value]
    try:
        words, following, after = twice.taken(words)
    except ValueError as wrong:
        return refuse(wrong)
    if following is not None and kept is not None:
        return refuse("a run over a kept file has one index file: --kept and --next don't go together")
    prologue = prologue_of(kept) if kept is not None else None
    if kept is not None and prologue is None:
        return DAMAGED
    if following is not None:
        status, said = twice.judged(program(unproved), lines, replies, words, following, after)
    else:
        status, said = judged(program(unproved), lines, replies, words, prologue)
    before = prologue.count if prologue else 0
    number = int(said.rsplit(None, 1)[1]) if said.startswith("not legal: line ") else None
    if number is not None and number <= before:
        print(f"not legal: kept commit {prologue.commit_of(number)}")
    elif number is not None:
        print(f"not legal: line {number - before}\nline  {line_of(lines, number - before)}\nreply {reply_to(replies, number - before)}")
    else:
        print(said, end="")
    return status


if __name__ == "__main__":
    sys.exit(main(sys.argv[1:]))
