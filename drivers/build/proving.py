"""Proves and builds a program by the kit's gate, several crates at a time, and tells how far it is."""
import os
import re
import shutil
import subprocess
import tempfile

from programs import BUILD_FAILED, NO_WRITING, TOP, Fault
from schedule import Schedule, minutes

# What the gate prints of a crate when it is done with it.
DONE = re.compile(r"rt: (\w+) (proved|is kept|NOT PROVED)\b")


def build(program, tell):
    """Proves the program over a copy of the crates that it stands on, without their mutants and tests.

    The gate proves as many crates at a time as there are processors and memory for. What it has proved it keeps beside the kit, where the gate of the
    repository finds it, and this build what that one proved.
    """
    crates, workers = program.crates(), len(os.sched_getaffinity(0))
    schedule, told, faults = Schedule(crates, workers), [], []
    tell(
        f"building the {program.what}: {len(crates)} crates are proved on {workers} processors, {minutes(schedule.left())}"
        " where nothing was proved before; what is proved is kept"
    )
    copy = copied(crates)
    try:
        with subprocess.Popen(["rt", "ci"], cwd=copy, stdin=subprocess.DEVNULL, stdout=subprocess.PIPE, stderr=subprocess.STDOUT, text=True) as gate:
            for line in gate.stdout:
                if line.startswith("== "):
                    told.clear()
                told.append(line)
                done = DONE.match(line)
                if done:
                    tell(f"{done[1]} {done[2]}{schedule.told(done[1], done[2])}")
                    faults += told if done[2] == "NOT PROVED" else []
                    told.clear()
        built = os.path.join(copy, "crates", program.crate, "out", program.crate)
        if gate.returncode or not os.access(built, os.X_OK):
            raise Fault("".join([*(faults or told), f"{program.crate}: not built"]), BUILD_FAILED)
        # The name stands for a whole program at each moment, also where the copy is on another disk.
        shutil.copy2(built, program.proved + ".new")
        os.replace(program.proved + ".new", program.proved)
    finally:
        shutil.rmtree(copy, ignore_errors=True)
    tell(f"the {program.what} is proved and built, in {minutes(schedule.elapsed())}; it is in use from now on")


def copied(crates):
    """A folder with a copy of these crates, without what was built and without mutants, as a repository of their own."""
    copy = None
    try:
        copy = tempfile.mkdtemp(prefix="torfyllan-build-")
        shutil.copy2(os.path.join(TOP, "HANDLES"), copy)
        with open(os.path.join(TOP, "crates.txt"), encoding="utf-8") as every, open(os.path.join(copy, "crates.txt"), "w", encoding="utf-8") as ours:
            ours.writelines(line for line in every if line.partition(":")[0].split()[:1] in [[name] for name in crates])
        for name in crates:
            shutil.copytree(os.path.join(TOP, "crates", name), os.path.join(copy, "crates", name), ignore=shutil.ignore_patterns("out", "must-fail"))
        return copy
    except OSError as error:
        if copy:
            shutil.rmtree(copy, ignore_errors=True)
        raise Fault(f"the crates can't be copied to {tempfile.gettempdir()}, where they are proved: {error}", NO_WRITING) from None
