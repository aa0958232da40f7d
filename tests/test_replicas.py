"""The program that runs a script of replicas: the examples, words and scripts that it refuses, an outside that fails, the limit, and a long script.

The long script has to end within seconds of processor time.
"""
import resource

from tests.case import TOP, Case, replicas_program, run

FOLDER = TOP / "examples" / "replicas"
REFUSED = [[], ["0"], ["10"], ["a"], ["+3"], [""], ["3", "3"], [b"\xff"]]
# Script, and the line that is told.
WRONG = [
    (b"deliver 0", 1),
    (b"propose 0 0 1 a\n\n", 2),
    (b"propose 0 0 1 a\ndeliver 00\n", 2),
    (b"propose 0 0 1 a\ndeliver 3\n", 2),
    (b"propose 3 0 1 a\n", 1),
    (b"propose 0 0 0 a\n", 1),
    (b"propose 0 0 1 \n", 1),
    (b"propose 0 0 1 \xff\n", 1),
    (b"propose 0 0 1 " + 1501 * b"x", 1),
    (b"propose 0  0 1 a\n", 1),
    (b"restart 3\n", 1),
    (b"Restart 0\n", 1),
]
EVENTS, MOST_SECONDS, MOST_BYTES = 100_000, 2, 67_108_864


def ran(script, words=("3",), **how):
    """How a run of this script ends."""
    return run(script, list(words), of=replicas_program(), **how).end


def long_script():
    """One proposal a position, each of whose messages comes but to one replica, so that two hold its entry; and how many are held."""
    lines, sent, position = [], 0, 0
    while len(lines) + 11 <= EVENTS:
        position += 1
        lines.append(f"propose {position % 3} 0 {position} entry {position}")
        lines += [f"deliver {sent + k}" for k in (0, 1, 3, 4, 5, 6, 8, 9, 10, 11)]
        sent += 13
    return "".join(f"{line}\n" for line in lines).encode(), position


class Replicas(Case):
    def is_slow(self):
        return replicas_program().endswith(".unproved")

    def test_examples(self):
        for script in sorted(FOLDER.glob("*.script")):
            self.expect(script.stem, ran(script.read_bytes()), (0, script.with_suffix(".expected").read_bytes(), ""))

    def test_words(self):
        for words in REFUSED:
            self.expect(f"the words {words}", ran(b"deliver 0\n", words), (1, b"", "usage"))

    def test_scripts_that_are_refused(self):
        for script, line in WRONG:
            self.expect(f"{script[:40]}", ran(script), (2, b"", f"script: line {line}"))

    def test_a_full_disk(self):
        script = (FOLDER / "two_proposers_duel.script").read_bytes()
        with open("/dev/full", "wb") as full:
            self.expect("an output that takes nothing", ran(script, stdout=full), (4, b"", "write fault"))

    def test_a_long_script(self):
        if self.is_slow():
            self.skipTest("no proved replicas: the long script isn't run by the unproved ones")
        self.expect("an input at the limit", ran(MOST_BYTES * b"\n"), (7, b"", "input limit"))
        script, positions = long_script()
        output = self.run_in_time("the long script", script)
        self.expect("how many entries are held", output.count(b"\n") >= positions, True)

    def test_restarts_behind_proposals(self):
        """A restart goes over the attempts that run, not over all that its member keeps."""
        if self.is_slow():
            self.skipTest("no proved replicas: the restarts aren't run by the unproved ones")
        script = "".join(f"propose 0 0 {position} a\nrestart 0\n" for position in range(1, EVENTS // 2 + 1))
        self.expect("what is held", self.run_in_time("the restarts", script.encode()), b"")

    def run_in_time(self, what, script):
        """What a script of many events prints, which has to take seconds of processor time at most."""
        before = resource.getrusage(resource.RUSAGE_CHILDREN)
        status, output, errors = ran(script)
        after = resource.getrusage(resource.RUSAGE_CHILDREN)
        seconds = after.ru_utime + after.ru_stime - before.ru_utime - before.ru_stime
        self.expect(what, (status, errors), (0, ""))
        print(f"{what}, {EVENTS:,} events: {seconds:.2f} s of processor time")
        self.expect(f"whether {seconds:.2f} seconds are at most {MOST_SECONDS}", seconds <= MOST_SECONDS, True)
        return output
