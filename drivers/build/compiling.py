"""Compiles a program with no proof, by the kit's trial run, and keeps what it compiled.

The trial compiles the program with checks, runs it once, and removes it. Its folder is one of ours, where the program is linked under a second
name as soon as it stands there.
"""
import contextlib
import os
import shutil
import subprocess
import tempfile
import threading
import time

from programs import BUILD_FAILED, DEFAULT_WORDS, Fault
from schedule import minutes


def build(program, tell):
    """Compiles the program, and writes what its users are told beside it."""
    tell(f"building the {program.what} without proofs, which takes a minute or two; it is kept for the next time")
    began = time.monotonic()
    # What a build that was killed left.
    for name in os.listdir(program.out):
        if name.startswith("trial"):
            shutil.rmtree(os.path.join(program.out, name), ignore_errors=True)
    folder, caught = os.path.join(program.out, "trial"), program.proved + ".trial"
    os.makedirs(folder)
    try:
        told = tried(program, folder, caught)
        if not os.path.exists(caught) or not answers(program, caught):
            raise Fault(f"{program.crate}: not built\n{told[-2000:]}", BUILD_FAILED)
        with open(program.unproved + ".told", "w", encoding="utf-8") as line:
            line.write(program.unproved_line())
        os.replace(caught, program.unproved)
    finally:
        shutil.rmtree(folder, ignore_errors=True)
        with contextlib.suppress(OSError):
            os.remove(caught)
    tell(f"built without proofs, in {minutes(time.monotonic() - began)}")


def tried(program, folder, caught):
    """Runs the trial, and links the program that it compiles; gives what it told."""
    # Enough lines for the trial to run for a while.
    with open(os.path.join(folder, "lines"), "w+", encoding="utf-8") as lines:
        lines.writelines('{"op":"put","entity":{"key":[["T",%d]],"properties":{}}}\n' % number for number in range(1, 5001))
        lines.flush()
        lines.seek(0)
        # Replicas are handed a pipe into which nothing is written, for which they wait.
        source = subprocess.PIPE if program.what == "replicas" else lines
        trial = subprocess.Popen(["rt", "try", "--steps", "1", "--seconds", "600", "--", *trial_words(program, folder)], cwd=program.folder, stdin=source,
                                 stdout=subprocess.PIPE, stderr=subprocess.STDOUT, text=True, env={**os.environ, "TMPDIR": folder})
        told = []
        reader = threading.Thread(target=lambda: told.append(trial.stdout.read()))
        reader.start()
        try:
            while trial.poll() is None:
                keep(folder, caught)
                if program.what not in ("server", "keeper", "reindexer") and os.path.exists(caught) and answers(program, caught):
                    break
                time.sleep(0.01)
        finally:
            if trial.poll() is None:
                trial.terminate()
                trial.wait()
        reader.join()
    return "".join(told)


def keep(folder, caught):
    """Links the program that the trial has compiled, where it is there."""
    for inner, _, files in os.walk(folder):
        if "program" in files:
            compiled = os.path.join(inner, "program")
            with contextlib.suppress(OSError):
                if not os.path.exists(caught) or not os.path.samefile(compiled, caught):
                    os.link(compiled, caught + ".new")
                    os.replace(caught + ".new", caught)


def trial_words(program, folder):
    """The words of the trial: an auditor's input is a pipe into which nothing is written, for which it waits; a load is a large one; there is one replica."""
    if program.what in ("server", "reindexer"):
        return WHOLE[program.what][0]
    if program.what == "keeper":
        return ["--kept", os.path.join(folder, "kept"), *DEFAULT_WORDS]
    if program.what == "load":
        return ["100000"]
    if program.what == "replicas":
        return ["1"]
    pipe = os.path.join(folder, "pipe")
    os.mkfifo(pipe)
    return [pipe, os.devnull, os.devnull, *DEFAULT_WORDS]


# For each program words, an input, and the beginning of the output by which it is known to be whole.
WHOLE = {
    "server": (DEFAULT_WORDS, b'{"op":"settle"}\n', b'{"applied":[0],"client":0,"line":1,"ok":"settle"'),
    "keeper": (["--kept", "kept", *DEFAULT_WORDS], b'{"op":"settle"}\n', b'{"applied":[0],"client":0,"line":1,"ok":"settle"'),
    "auditor": ([os.devnull] * 3 + DEFAULT_WORDS, b"", b"legal\n"),
    "load": (["1"], b"", b"items 1\nmatches 0\nlast none\n"),
    "reindexer": (["--next", os.devnull, "--after", "1", *DEFAULT_WORDS], b'{"op":"settle"}\n', b'{"applied":[0],"client":0,"line":1,"ok":"settle"'),
    "replicas": (["1"], b"propose 0 0 1 a\ndeliver 0\ndeliver 1\ndeliver 2\ndeliver 3\n", b"replica 0 log 0 position 1 a\n"),
}


def answers(program, binary):
    """Whether the program is whole: a server of either kind answers a line; an auditor finds no line legal; a load of one item is counted; one replica holds what it proposes."""
    words, lines, told = WHOLE[program.what]
    os.chmod(binary, 0o755)
    with contextlib.suppress(OSError), tempfile.TemporaryDirectory() as folder:
        ran = subprocess.run([binary, *words], input=lines, capture_output=True, cwd=folder)
        return ran.returncode == 0 and ran.stdout.startswith(told)
    return False
