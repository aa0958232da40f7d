"""Serves by a program that keeps its journal in a file: what `./run --kept FILE` ends in.

    python3 drivers/kept PROGRAM FILE [WORDS]

A first line on standard error tells how many commits and entities the file keeps, as it is before the program opens it. The program has this one's
standard input, output and error, and its status is passed on; behind it a sentence says what to do where the file couldn't be served.
"""
import contextlib
import ctypes
import os
import signal
import subprocess
import sys

sys.dont_write_bytecode = True
sys.path.insert(0, os.path.join(os.path.dirname(os.path.dirname(os.path.realpath(__file__))), "python"))
from torfyllan.kept import KeptFile
from torfyllan.kept_faults import fault_of

END_WITH_PARENT = 1


def content_of(name):
    """The bytes of the file; none where it isn't there, or can't be read, as the program will tell."""
    with contextlib.suppress(OSError), open(name, "rb") as file:
        return file.read()
    return b""


def counted(number, one, many):
    return f"{number} {one if number == 1 else many}"


def tell_found(name, content):
    """The line on what is kept; none of a file that is damaged, which the program finds."""
    kept = KeptFile(content, trusting=True)
    entities = kept.count_entities()
    if not kept.damaged:
        print(f"{name}: {counted(kept.commits, 'commit', 'commits')} and {counted(entities, 'entity', 'entities')} were found", file=sys.stderr, flush=True)


def end_with_parent():
    """In the program's process: it ends where this one is killed."""
    with contextlib.suppress(OSError, AttributeError):
        ctypes.CDLL(None).prctl(END_WITH_PARENT, signal.SIGKILL)


def main(words):
    program, name, *words = words
    content = content_of(name)
    server = subprocess.Popen([program, "--kept", name, *words], stderr=subprocess.PIPE, preexec_fn=end_with_parent)
    # Ctrl-C reaches the program too, and ends it; another end is passed on.
    signal.signal(signal.SIGINT, signal.SIG_IGN)
    signal.signal(signal.SIGTERM, lambda number, _: server.send_signal(number))
    tell_found(name, content)
    del content
    told = server.stderr.read()
    status = server.wait()
    sys.stderr.buffer.write(told)
    sys.stderr.flush()
    if status < 0:
        signal.signal(-status, signal.SIG_DFL)
        os.kill(os.getpid(), -status)
    fault = fault_of(name, status, told.decode(errors="replace"))
    if fault is not None:
        print(f"run: {fault}", file=sys.stderr)
    return status


if __name__ == "__main__":
    sys.exit(main(sys.argv[1:]))
