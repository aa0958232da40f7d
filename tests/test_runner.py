"""The runner of tests itself: what fails, what tried nothing, what is skipped, and how one case is asked for."""
import os
import pathlib
import tempfile
import time
import unittest

from tests import runner
from tests.case import TOP, Case

HEAD = "import unittest\nfrom tests.case import Case\n"
# A file of tests, and its cases that passed, failed and were skipped.
FILES = [
    ("class A(Case):\n def test_x(self):\n  self.expect('x', 1, 1)\n def test_y(self):\n  self.expect('y', 1, 1)", (2, 0, 0)),
    ("class A(Case):\n def test_x(self):\n  self.expect('x', 1, 2); self.expect('y', 1, 2)\n def test_y(self):\n  self.expect('y', 1, 1)", (1, 1, 0)),
    ("class A(Case):\n def test_x(self):\n  pass", (0, 1, 0)),
    ("class A(unittest.TestCase):\n def test_x(self):\n  raise ValueError", (0, 1, 0)),
    ("class A(unittest.TestCase):\n @classmethod\n def setUpClass(cls):\n  raise ValueError\n def test_x(self):\n  pass", (0, 1, 0)),
    ("class A(Case):\n def test_x(self):\n  self.skipTest('no hypothesis')", (0, 0, 1)),
    ("", (0, 1, 0)),
    ("import os; os._exit(0)", (0, 1, 0)),
    ("nonsense(", (0, 1, 0)),
]


class Runner(Case):
    def outcome(self, text, names=(), failfast=False, until=None):
        with tempfile.TemporaryDirectory() as folder:
            path = pathlib.Path(folder, "test_it.py")
            path.write_text(HEAD + text + "\n", encoding="utf-8")
            environment = {**os.environ, "PYTHONPATH": str(TOP)}
            environment.pop(runner.IN_GROUP, None)
            job = runner.Job(path, names).run(environment, failfast, until)
        return job

    def test_outcomes(self):
        for text, wanted in FILES:
            self.expect(text, self.outcome(text).counts, wanted)

    def test_one_case_alone(self):
        self.expect("A.test_y of two", self.outcome(FILES[1][0], ["A.test_y"]).counts, (1, 0, 0))
        self.expect("one that isn't there", self.outcome(FILES[1][0], ["A.test_z"]).counts, (0, 1, 0))

    def test_failfast_stops_at_the_first(self):
        job = self.outcome(FILES[1][0], ["A.test_x"], failfast=True)
        self.expect("things tried", (job.counts, job.outcomes["tried"]), ((0, 1, 0), 1))

    def test_a_file_is_stopped_when_its_time_is_up(self):
        """The file and what it began are gone, and count as nothing; a file that is through in time counts; one whose time is up isn't begun."""
        with tempfile.NamedTemporaryFile(mode="r", encoding="utf-8") as begun:
            sleeper = f"import subprocess, time\nopen({begun.name!r}, 'w').write(str(subprocess.Popen(['sleep', '600']).pid))\ntime.sleep(600)"
            # On a busy machine a file takes long to begin.
            for seconds in (2, 10, 60, 300):
                job = self.outcome(sleeper, until=time.monotonic() + seconds)
                self.expect("stopped, and its counts", (job.was_stopped, job.counts, seconds - 1 < job.seconds < seconds + 120), (True, (0, 0, 0), True))
                process = begun.read()
                if process:
                    break
            stat = pathlib.Path("/proc", process, "stat")
            self.expect("whether it began, and what it began is gone", process != "" and (not stat.exists() or " Z " in stat.read_text()), True)
        job = self.outcome(FILES[1][0], until=time.monotonic() + 600)
        self.expect("one that is through in time", (job.was_stopped, job.counts), (False, FILES[1][1]))
        job = self.outcome(FILES[1][0], until=time.monotonic() - 1)
        self.expect("one that isn't begun", (job.was_stopped, job.counts, job.seconds), (True, (0, 0, 0), 0))

    def test_options_with_numbers(self):
        self.expect("one that is there", runner.number_behind(["a", "--within", "30", "b"], "--within"), (["a", "b"], 30))
        self.expect("one that isn't", runner.number_behind(["a"], "--within"), (["a"], None))
        for words in (["--within"], ["--within", "0"], ["--within", "-3"], ["--within", "x"]):
            with self.assertRaises(ValueError):
                runner.number_behind(words, "--within")
                self.fail(f"{words} were taken")

    def test_names(self):
        for name in ("tests.test_runner.Runner.test_names", "test_runner.Runner.test_names", "tests/test_runner.py", "./tests/test_runner.py"):
            (job,) = runner.jobs_of([name])
            self.expect(name, (job.path.name, job.names), ("test_runner.py", ["Runner.test_names"] if "Runner" in name else []))
        self.expect("a file of the driver", [job.path.parent.name for job in runner.jobs_of(["drivers/python/test_ndb.py"])], ["python"])
        with self.assertRaises(ValueError):
            runner.jobs_of(["tests.test_nothing"])
        for seconds, first in ((None, runner.FIRST), (runner.FEW_SECONDS, runner.FIRST), (runner.FEW_SECONDS - 1, runner.TELLING)):
            begun = [job.path.stem for job in runner.jobs_of([], seconds)]
            self.expect(f"those that begin first within {seconds}", begun[: len(first)], list(first))
            self.expect(f"all files within {seconds}", sorted(begun), sorted(runner.files()))

    def test_each_skip_has_its_remedy(self):
        for reason in ("no pytest", "there is no pytest-xdist", "no mypy", "no hypothesis", "no chromium", "no C compiler", "this Python makes no environments"):
            self.expect(f"whether '{reason}' tells what to do", runner.remedy_of(reason) is not None, True)
