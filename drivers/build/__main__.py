"""Builds a program for `run` and its tools, and says which build of it is in use.

    python3 drivers/build PROGRAM               prints the program's path: the proved build where it is there, else the unproved one, which is built if need
                                                be, and of which standard error tells
    python3 drivers/build PROGRAM --unproved    the same with the unproved build; so it takes a minute or two once
    python3 drivers/build PROGRAM --prove       proves the program where it isn't, or was made of other sources or by another kit, and tells how far it is
    python3 drivers/build PROGRAM --check       says by its status, 0 or 1, whether the proved build is there
    python3 drivers/build PROGRAM --note        notes, behind a gate that proved and built the program from these sources, that it did

PROGRAM is server, keeper, reindexer, auditor, load or replicas.
Status: 0 it is there; 1 it isn't; 2 other words; 96 no kit on PATH; 97 the repository, or the folder for temporary files, can't be written; 99 the build
failed; 130 it was interrupted.
"""
import contextlib
import fcntl
import os
import shutil
import sys
import time

sys.dont_write_bytecode = True
import compiling
import proving
from programs import INTERRUPTED, NO_KIT, NO_WRITING, PROGRAMS, Fault, Sources, is_built


def tell(text, log=None):
    """What is told on the way: on standard error, and in a file that other starts read while they wait."""
    for file in (sys.stderr, log):
        if file is not None:
            print(text, file=file, flush=True)


def wait_for_other(lock, log_name):
    """Waits until another build has ended, and passes on what it tells."""
    tell("another build of this repository is under way; this start waits for it")
    place = None
    while True:
        with contextlib.suppress(OSError), open(log_name, encoding="utf-8") as log:
            # What was told so far is known by its last line.
            lines = log.read().splitlines(keepends=True)
            for line in lines[place:] if place is not None else lines[-1:]:
                print(line, end="", file=sys.stderr, flush=True)
            place = len(lines)
        try:
            fcntl.flock(lock, fcntl.LOCK_EX | fcntl.LOCK_NB)
            return
        except BlockingIOError:
            time.sleep(0.5)


def build(program, binary, make):
    """Builds the program where what it is made of has changed, one build at a time."""
    if is_built(program, binary):
        return
    try:
        os.makedirs(program.out, exist_ok=True)
        lock = open(binary + ".lock", "w", encoding="utf-8")
    except OSError as error:
        raise Fault(f"the {program.what} is built in {program.out}, which can't be written: {error.strerror}. Take a checkout of your own", NO_WRITING) from None
    with lock:
        try:
            fcntl.flock(lock, fcntl.LOCK_EX | fcntl.LOCK_NB)
        except BlockingIOError:
            wait_for_other(lock, binary + ".log")
        sources = Sources(program, binary)
        if not sources.is_built:
            if shutil.which("rt") is None:
                raise Fault(f"the {program.what} has to be built, and the Rattle kit isn't there: put its `rt` on PATH (README.md says which kit)", NO_KIT)
            with open(binary + ".log", "w", encoding="utf-8") as log:
                make(program, lambda text: tell(text, log))
        sources.note()


def serve(program, mode):
    """Does what the mode asks; gives the status."""
    if mode in ("--check", "--note"):
        if mode == "--note" and os.access(program.proved, os.X_OK):
            Sources(program, program.proved).note()
        return 0 if is_built(program, program.proved) else 1
    if mode == "--prove":
        if is_built(program, program.proved):
            tell(f"the {program.what} is proved, and in use")
        build(program, program.proved, proving.build)
        return 0
    if mode is None and is_built(program, program.proved):
        print(program.proved)
        return 0
    build(program, program.unproved, compiling.build)
    with contextlib.suppress(OSError), open(program.unproved + ".told", encoding="utf-8") as line:
        sys.stderr.write(line.read())
    print(program.unproved)
    return 0


def main(words):
    name, mode, *more = [*words, None, None][: max(2, len(words))]
    if name not in PROGRAMS or mode not in (None, "--unproved", "--prove", "--check", "--note") or more:
        print(__doc__.strip())
        return 0 if name in ("--help", "-h") else 2
    try:
        return serve(PROGRAMS[name], mode)
    except Fault as fault:
        tell(fault)
        return fault.status
    except KeyboardInterrupt:
        tell("the build was interrupted; what is proved is kept")
        # Without waiting for the threads, whose provers the interrupt has reached too.
        sys.stderr.flush()
        os._exit(INTERRUPTED)


if __name__ == "__main__":
    sys.exit(main(sys.argv[1:]))
