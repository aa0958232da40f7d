#!/usr/bin/env python3
"""A program that is wrong on purpose, with which tests/test_planted.py tries whether tests can fail: it passes on what the program of
PLANTED_PROGRAM writes, spoiled in the way that WRONG names."""
import errno
import os
import re
import signal
import shutil
import subprocess
import sys
import tempfile
import threading
import time

WAYS = ("drops", "doubles", "counts", "swaps", "status", "silent", "dies", "cuts", "adds", "keeps", "grows", "forgets", "holds", "agrees", "refuses", "nearly",
        "burns", "lingers", "applies", "sips", "stops", "skips", "small", "words", "early", "turns", "alone")
MEGABYTE = 2**20


def spoiled(way, line):
    """A line in the place of this one."""
    if way == "counts":
        return re.sub(rb'("(?:commit|place|size|at)":|^items |^last |line )(\d+)', lambda found: found[1] + b"%d" % (int(found[2]) + 1), line)
    if way == "keeps":
        # What was refused is told as done.
        return re.sub(rb'"error":24,"line":(\d+),"name":"NoMemory"', rb'"line":\1,"ok":"begin"', line)
    if way == "forgets":
        # An entity that was put isn't there.
        return re.sub(rb'"entity":\{.*\},"line"', b'"entity":null,"line"', line)
    if way == "applies":
        # Of several entries two are applied.
        return re.sub(rb'"applied":true,"client":(\d+),"count":(\d+)', lambda found: b'"applied":true,"client":%s,"count":%d' % (found[1], 2 * int(found[2])), line)
    if way == "stops":
        # No commit is made past a number of them.
        return re.sub(rb'"commit":2\d{5},.*"line":(\d+),.*', rb'"error":24,"line":\1,"name":"NoMemory"}', line)
    if way == "agrees" and line.startswith(b"not legal"):
        return b"legal\n"
    if way == "refuses" and line == b"legal\n":
        return b"not legal: line 1\n"
    if way == "nearly":
        # One match too few.
        return re.sub(rb"^matches ([1-9]\d*)", lambda found: b"matches %d" % (int(found[1]) - 1), line)
    return line


def refusal(way, words):
    """The status and the word with which the program ends at once, before it has done anything; None where it doesn't."""
    if way == "skips" and len(words) == 1 and words[0].isdigit() and 2_000 < int(words[0]) < 100_000:
        return 1, "usage"
    if way == "small" and any(os.path.isfile(word) and os.path.getsize(word) > MEGABYTE for word in words[:3]):
        return 5, "file fault"
    if way == "words" and any(word.decode(errors="ignore").encode() != word for word in words):
        return 6, "no memory"
    return None


def burn():
    """What an applier does that never sleeps."""
    while True:
        pass


def with_one_applier(words):
    """The words, with one applier in the place of several."""
    return [b"1" if before == b"--appliers" and word > b"1" else word for before, word in zip([b"", *words], words)]


def without_threads(folder):
    """The environment in which each start of a thread is refused, so that the program answers clients in turn."""
    library, counts = os.path.join(folder, "refused.so"), os.path.join(folder, "counts")
    source = os.path.join(os.path.dirname(os.path.realpath(__file__)), "refused.c")
    subprocess.run([os.environ.get("CC") or shutil.which("cc") or "gcc", "-O2", "-shared", "-fPIC", "-o", library, source, "-ldl"], check=True)
    with open(counts, "wb") as file:
        file.write(bytes(4_096))
    return {**os.environ, "LD_PRELOAD": library, "REFUSED_PROGRAM": os.environ["PLANTED_PROGRAM"], "REFUSED_COUNTS": counts, "REFUSED_THREADS": "1.."}


def main():
    with tempfile.TemporaryDirectory(prefix="wrong-") as folder:
        return run(folder)


def run(folder):
    """Runs the program, and gives the status to end with."""
    way = os.environ["WRONG"]
    if way not in WAYS:
        sys.exit(f"WRONG is one of {' '.join(WAYS)}")
    words = [os.environ["PLANTED_PROGRAM"], *map(os.fsencode, sys.argv[1:])]
    refused = refusal(way, words[1:])
    if refused:
        print(refused[1], file=sys.stderr)
        return refused[0]
    if way == "sips":
        # The program's reads give a byte, where tests/refused.c is loaded into it.
        os.environ["REFUSED_READ_MOST"] = "1"
    if way == "burns":
        threading.Thread(target=burn, daemon=True).start()
    if way == "alone":
        words = with_one_applier(words)
    environment = without_threads(folder) if way == "turns" else None
    served = subprocess.Popen(words, stdout=subprocess.PIPE, stderr=subprocess.DEVNULL if way == "silent" else None, env=environment)
    signal.signal(signal.SIGINT, signal.SIG_DFL)
    held, hoard, output = [], [], sys.stdout.buffer
    for at, line in enumerate(served.stdout, 1):
        if way == "drops" and at == 3:
            continue
        if way == "doubles" and at == 3:
            output.write(line)
        if way == "swaps" and at == 2 or way == "holds":
            held.append(line)
            continue
        if way == "dies" and at == 3:
            os.kill(os.getpid(), signal.SIGSEGV)
        if way == "grows":
            hoard.append(bytearray(line * 200))
        output.write(spoiled(way, line))
        if way == "swaps" and at == 3:
            output.write(held.pop())
        output.flush()
    status = served.wait()
    if way == "lingers":
        time.sleep(1)
    if way == "early" and status == 6:
        output.write(b"not legal: count\n")
    # A server that holds back what it has to say until its input ends.
    output.writelines(held)
    if way == "adds":
        output.write(b'{"client":0,"line":99,"ok":"settle","applied":[0],"place":0}\n')
    if way == "cuts":
        output.write(b'{"client":0,"li')
    output.flush()
    if way == "status":
        status = 0 if status else 9
    return status if status >= 0 else 128 - status


if __name__ == "__main__":
    try:
        ended = main()
    except OSError as error:
        # An output that takes no more: told as the programs tell it.
        if error.errno not in (errno.ENOSPC, errno.EPIPE):
            raise
        print("write fault", file=sys.stderr)
        os._exit(4)
    sys.exit(ended)
