"""Runs everything that needs no proof, by the programs that are in use, as many files of tests at once as there are processors.

    ./test                                              everything, within ten minutes on two processors where the programs are proved
    ./test tests.test_examples                          a file, by its name or path; drivers/python/test_ndb.py is test_ndb
    ./test tests.test_examples.Examples.test_replies    one class, or one case of it
    ./test --list                                       the names of all files
    ./test --whole ..     all of what is else tried by a sample, and two million lines of a load: for a night
    ./test --proved ..    fails where a program in use isn't a proved one
    ./test --jobs N ..    so many files at once
    ./test --within N ..  ends behind N seconds: files that are not through by then are stopped, named, and count neither as passed nor as failed

The programs are those of TORFYLLAN, TORFYLLAN_KEPT, TORFYLLAN_REINDEX, TORFYLLAN_AUDIT, TORFYLLAN_FILL and TORFYLLAN_REPLICAS; else the proved ones where
they are built, else the unproved ones, which are built once and of which less is tried. SEED=N begins other random choices. Each case is one of
`unittest`: pytest runs them too, as `pytest tests`.

It ends with what was skipped and what to install for it, and with `N passed, N failed, N skipped`; the status is 0 where none failed.
"""
import concurrent.futures
import contextlib
import json
import os
import pathlib
import re
import signal
import subprocess
import sys
import tempfile
import time
import unittest

TOP = pathlib.Path(__file__).resolve().parent.parent
PLACES = ("tests", "drivers/python", "drivers/draw", "examples/*")
# The longest files, which begin first.
FIRST = ("test_plugin", "test_schedules", "test_planted", "test_draw", "test_crowd", "test_kept_killed", "test_run", "test_builds", "test_answers", "test_ends", "test_limits")
# Those that tell most of the programs in little time: with few minutes these begin first.
TELLING = ("test_examples", "test_lines", "test_audited", "test_talk", "test_at_once", "test_appliers", "test_kept", "test_cut", "test_faults", "test_memory")
FEW_SECONDS = 900
PROGRAMS = (
    ("server", "TORFYLLAN", "./run --prove"),
    ("keeper", "TORFYLLAN_KEPT", "./run --kept --prove"),
    ("auditor", "TORFYLLAN_AUDIT", "./run --audit --prove"),
    ("load", "TORFYLLAN_FILL", "./run --fill --prove"),
    ("replicas", "TORFYLLAN_REPLICAS", "./run --replicas --prove"),
    ("reindexer", "TORFYLLAN_REINDEX", "./run --next --prove"),
)
# What a reason for a skip speaks of, and what is installed or done for it.
REMEDIES = (
    ("xdist", "apt-get install python3-pytest-xdist, or pip install pytest-xdist"),
    ("pytest", "apt-get install python3-pytest, or pip install pytest"),
    ("mypy", "apt-get install mypy, or pip install mypy"),
    ("hypothesis", "apt-get install python3-hypothesis, or pip install hypothesis"),
    ("chromium", "apt-get install chromium"),
    ("C compiler", "apt-get install gcc libc6-dev"),
    ("environments", "apt-get install python3-venv"),
    ("mounted", "run as root, or where user namespaces are allowed"),
    ("proved", "./run --prove, ./run --kept --prove, ./run --next --prove, ./run --audit --prove, ./run --fill --prove, ./run --replicas --prove"),
    ("built server", "./run --prove"),
    ("--whole", "./test --whole"),
)
OUTCOMES = ("passed", "failed", "skipped")
# A file is a group of processes with all that it begins, so that all are stopped at once; other files of tests that it runs are of its group.
IN_GROUP = "TORFYLLAN_IN_GROUP"
INTERRUPTED = 130


# ---- one file, in a process of its own


class Outcomes(unittest.TextTestResult):
    """Counts what each case comes to, what was skipped and why, and how many things were tried."""

    def __init__(self, *given):
        super().__init__(*given)
        self.tried, self.passed, self.cases_failed, self.now_failed = 0, 0, 0, False

    def startTest(self, test):
        self.now_failed = False
        super().startTest(test)

    def stopTest(self, test):
        self.tried += max(1, getattr(test, "tried", 0))
        self.cases_failed += self.now_failed
        super().stopTest(test)

    def addSuccess(self, test):
        self.passed += 1
        super().addSuccess(test)

    def addFailure(self, test, error):
        self.now_failed = True
        super().addFailure(test, error)

    def addError(self, test, error):
        self.now_failed = True
        # What fails for a whole class or file begins no case.
        self.cases_failed += not isinstance(test, unittest.TestCase)
        super().addError(test, error)

    def addSubTest(self, test, subtest, error):
        self.now_failed = self.now_failed or error is not None
        super().addSubTest(test, subtest, error)

    def told(self):
        """What the parent is told."""
        skipped = [(test.id() if isinstance(test, unittest.TestCase) else str(test), reason) for test, reason in self.skipped]
        return {"passed": self.passed, "failed": self.cases_failed, "skipped": skipped, "tried": self.tried, "errors": len(self.errors)}


def run_file(path, names, report, failfast):
    """Runs the cases of a file, or those of these names; writes their outcomes as JSON."""
    path = pathlib.Path(path)
    module = path.stem if path.parent != TOP / "tests" else f"tests.{path.stem}"
    sys.path.insert(0, str(TOP if path.parent == TOP / "tests" else path.parent))
    loader = unittest.defaultTestLoader
    suite = loader.loadTestsFromNames([f"{module}.{name}" for name in names] if names else [module])
    result = unittest.TextTestRunner(sys.stdout, resultclass=Outcomes, verbosity=1, failfast=failfast).run(suite)
    pathlib.Path(report).write_text(json.dumps(result.told()), encoding="utf-8")
    return 0 if result.wasSuccessful() else 1


class Job:
    """A file of tests, with the names of cases in it; behind `run` there are its outcomes, its output and its seconds, or that its time was up."""

    def __init__(self, path, names=()):
        self.path, self.names, self.outcomes, self.output, self.seconds, self.was_stopped = path, list(names), None, "", 0.0, False
        self.process, self.is_group = None, False

    def run(self, environment, failfast=False, until=None):
        """Runs the file in a process of its own; stops it, with all that it began, at `until` by the monotonic clock."""
        began = time.monotonic()
        if until is not None and began >= until:
            self.was_stopped = True
            return self
        with tempfile.TemporaryDirectory(prefix="outcomes-") as folder:
            report = pathlib.Path(folder, "report")
            words = [sys.executable, str(TOP / "test"), "--file", str(self.path), str(report), *(["--failfast"] if failfast else []), *self.names]
            pipes = {"stdin": subprocess.DEVNULL, "stdout": subprocess.PIPE, "stderr": subprocess.STDOUT}
            self.is_group = IN_GROUP not in environment
            self.process = subprocess.Popen(words, cwd=TOP, env={**environment, IN_GROUP: "1"}, start_new_session=self.is_group, **pipes)
            try:
                output, _ = self.process.communicate(timeout=None if until is None else until - began)
            except subprocess.TimeoutExpired:
                self.was_stopped = True
                self.stop()
                output, _ = self.process.communicate()
            self.output = output.decode(errors="replace")
            self.outcomes = json.loads(report.read_text(encoding="utf-8")) if report.exists() and not self.was_stopped else None
        self.seconds = time.monotonic() - began
        return self

    def stop(self):
        """Ends the file's process where it runs, and all that it began where that is a group of its own."""
        if self.process is not None and self.process.poll() is None:
            with contextlib.suppress(ProcessLookupError):
                (os.killpg if self.is_group else os.kill)(self.process.pid, signal.SIGKILL)

    @property
    def counts(self):
        """Cases that passed, failed and were skipped. A file that ends early, or in which nothing ran, counts as a failure; one that was stopped as nothing."""
        if self.was_stopped:
            return 0, 0, 0
        if self.outcomes is None:
            return 0, 1, 0
        passed, failed, skipped = self.outcomes["passed"], self.outcomes["failed"], len(self.outcomes["skipped"])
        return passed, failed or int(not passed + skipped), skipped

    def told(self):
        """A line for the file; before it its output, where a case failed."""
        if self.was_stopped:
            return f"{self.path.relative_to(TOP)}: " + (f"stopped behind {self.seconds:.0f} s, as the time was up" if self.seconds else "not begun, as the time was up")
        passed, failed, skipped = self.counts
        line = f"{self.path.relative_to(TOP)}: {passed} passed, {failed} failed, {skipped} skipped"
        line += f"; {self.outcomes['tried']} things tried, {self.seconds:.0f} s" if self.outcomes else "; it ended early"
        return (self.output.rstrip() + "\n" if failed else "") + line


# ---- all files


def files():
    """The files of tests by their names."""
    return {path.stem: path for place in PLACES for path in sorted(TOP.glob(f"{place}/test_*.py"))}


def jobs_of(names, seconds=None):
    """The files that the names ask for, each with the cases in it, as they are to begin; ValueError says which name is none."""
    known, chosen = files(), {}
    for name in names:
        parts = re.sub(r"^(\./)?(.*/)?|\.py$", "", name).split(".")
        parts = parts[1:] if parts[0] == "tests" else parts
        if not parts or parts[0] not in known:
            raise ValueError(f"there is no file of tests '{name}'; ./test --list tells their names")
        chosen.setdefault(parts[0], []).append(".".join(parts[1:]))
    first = FIRST if seconds is None or seconds >= FEW_SECONDS else TELLING
    wanted = chosen or {name: [""] for name in sorted(known, key=lambda it: (first.index(it) if it in first else len(first), it))}
    return [Job(known[name], [] if "" in cases else cases) for name, cases in wanted.items()]


def programs(builds, must_be_proved):
    """The environment that names the programs in use, and those of them that aren't proved. ValueError says which isn't there.

    What isn't there is built where the caller `builds`; else the tests that need it build it.
    """
    environment, unproved = {**os.environ, "PYTHONDONTWRITEBYTECODE": "1"}, []
    for name, variable, prove in PROGRAMS:
        build = [sys.executable, str(TOP / "drivers" / "build"), name]
        named = os.environ.get(variable)
        if must_be_proved and (named or subprocess.run([*build, "--check"]).returncode):
            raise ValueError(f"{variable} names a program, and --proved tries the one that is proved here" if named else f"no proved {name} is built: {prove}")
        if not named and builds:
            ran = subprocess.run(build, stdin=subprocess.DEVNULL, stdout=subprocess.PIPE, text=True)
            if ran.returncode:
                raise ValueError(f"the {name} isn't there, and can't be built")
            environment[variable] = ran.stdout.strip()
        if environment.get(variable, "").endswith(".unproved"):
            unproved.append((f"the {name}: less is tried of the unproved one", prove))
    return environment, unproved


def remedy_of(reason):
    return next((remedy for word, remedy in REMEDIES if word.lower() in reason.lower()), None)


def sum_up(jobs, unproved):
    """Tells what was skipped, and the sum; gives the status."""
    reasons, stopped = {}, [job.path.stem for job in jobs if job.was_stopped]
    for job in jobs:
        for test, reason in (job.outcomes or {"skipped": []})["skipped"]:
            reasons.setdefault(reason, []).append(test)
    if reasons or unproved or stopped:
        print("\nNot tried, and what to do for it:")
    if stopped:
        print(f"  the time was up: {len(stopped)} files ({' '.join(sorted(stopped))}); ./test with their names, on a machine that is less busy")
    for reason, tests in sorted(reasons.items()):
        remedy = remedy_of(reason)
        print(f"  {reason}: {len(tests)} cases ({tests[0]}{', ..' if tests[1:] else ''})" + (f"; {remedy}" if remedy else ""))
    for what, remedy in unproved:
        print(f"  {what}; {remedy}")
    sums = [sum(job.counts[at] for job in jobs) for at in range(3)]
    print("\n" + ", ".join(f"{count} {outcome}" for count, outcome in zip(sums, OUTCOMES)) + (f", {len(stopped)} files not through" if stopped else ""))
    return 1 if sums[1] or not sums[0] else 0


def number_behind(words, name):
    """The words without this option, and its number, None where it isn't there; ValueError where it has none."""
    if name not in words:
        return words, None
    at = words.index(name)
    if not words[at + 1 : at + 2] or not words[at + 1].isdigit() or not int(words[at + 1]):
        raise ValueError(f"{name} takes a number from 1")
    return words[:at] + words[at + 2 :], int(words[at + 1])


def main(words):
    """Runs what the words ask for; gives the status."""
    if words[:1] == ["--file"]:
        _, path, report, *names = words
        return run_file(path, [name for name in names if name != "--failfast"], report, "--failfast" in names)
    if "--help" in words or "-h" in words:
        print(__doc__.strip())
        return 0
    if words == ["--list"]:
        print("\n".join(str(path.relative_to(TOP)) for path in files().values()))
        return 0
    try:
        words, at_once = number_behind(words, "--jobs")
        words, seconds = number_behind(words, "--within")
        at_once, until = at_once or max(1, len(os.sched_getaffinity(0))), None if seconds is None else time.monotonic() + seconds
        given = [word for word in words if word in ("--whole", "--proved")]
        names = [word for word in words if word not in given]
        jobs = jobs_of(names, seconds)
        environment, unproved = programs(not names or "--proved" in given, "--proved" in given)
    except ValueError as error:
        print(f"test: {error}", file=sys.stderr)
        return 2
    if "--whole" in given:
        environment["TORFYLLAN_WHOLE"] = "1"
    with concurrent.futures.ThreadPoolExecutor(at_once) as pool:
        try:
            for done in concurrent.futures.as_completed([pool.submit(job.run, environment, until=until) for job in jobs]):
                print(done.result().told(), flush=True)
        except KeyboardInterrupt:
            pool.shutdown(wait=False, cancel_futures=True)
            for job in jobs:
                job.stop()
            return INTERRUPTED
    return sum_up(jobs, unproved)
