"""Whether tests can fail: each file is run with wrong programs of tests/wrong.py, and must find each of them wrong.

A sample is one wrong program for each file; the whole of it are all.
"""
import os

from tests.case import TOP, WHOLE, Case, auditor, is_slow, load_program, reindexer, server
from tests.runner import Job, files

# What each file must find: replies that lack or come twice, other numbers, another order, another status, no word on standard error, a crash, a line
# behind the last or a part of one, a refusal told as done, an entity that is lost, memory that grows, replies that come late, an auditor that finds all runs
# legal or none, a match too few, a processor that is never idle, an end that comes late, an apply of several entries, reads of a byte, commits that end at a
# number, loads of some sizes refused, files of a megabyte refused, a wrong status for words that aren't UTF-8, a verdict without memory for it, clients that
# are answered in turn, one applier in the place of several. A sample takes the first of each.
MUST_FIND = {
    "examples": ("server", "swaps drops doubles counts status dies cuts adds forgets"),
    "fenced": ("server", "counts drops status dies"),
    "talk": ("server", "holds drops doubles counts swaps status dies cuts adds"),
    "memory": ("server", "keeps drops doubles counts status silent dies cuts adds forgets"),
    "faults": ("server", "silent drops doubles counts status dies cuts adds"),
    "lines": ("server", "swaps drops doubles dies grows"),
    "ends": ("server", "adds drops doubles counts swaps dies cuts"),
    "limits": ("server", "counts drops"),
    "load": ("server", "doubles drops counts dies"),
    "crowd": ("server", "forgets drops doubles counts swaps dies adds"),
    "properties": ("server", "swaps drops doubles dies"),
    "audited": ("auditor", "agrees refuses counts status silent dies small words early"),
    "filled": ("load", "nearly counts drops doubles status silent dies cuts adds skips"),
    "appliers": ("server", "lingers burns applies alone drops"),
    "at_once": ("server", "turns drops doubles dies"),
    "costs": ("server", "sips stops drops"),
    "cut": ("reindexer", "forgets drops doubles counts swaps status silent dies cuts adds burns"),
}
PROGRAMS = {"server": ("TORFYLLAN", server), "auditor": ("TORFYLLAN_AUDIT", auditor), "load": ("TORFYLLAN_FILL", load_program),
            "reindexer": ("TORFYLLAN_REINDEX", reindexer)}


class Planted(Case):
    def test_wrong_programs_are_found(self):
        for name, (what, ways) in MUST_FIND.items():
            variable, program = PROGRAMS[what]
            for way in ways.split() if WHOLE else ways.split()[:1]:
                environment = {**os.environ, variable: str(TOP / "tests" / "wrong.py"), "PLANTED_PROGRAM": program(), "WRONG": way}
                environment.pop("TORFYLLAN_WHOLE", None)
                job = Job(files()[f"test_{name}"]).run(environment, failfast=True)
                found = job.outcomes and job.outcomes["failed"] > 0 and not job.outcomes["errors"]
                self.expect(f"whether test_{name} finds that a {what} {way}\n{job.output[-1500:]}", bool(found), True)

    def setUp(self):
        if is_slow() and not WHOLE:
            self.skipTest("no proved server: wrong ones are planted before a proved one, or by --whole")
