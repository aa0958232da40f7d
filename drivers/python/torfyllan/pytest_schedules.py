"""`pytest --datastore-schedules N` and `--datastore-schedule WORDS`: tests under schedules, as `schedules` tells."""
import contextlib
import os
import shlex
from typing import Any, Callable, Dict, Iterator, List, NamedTuple, Optional

import pytest

from .errors import UnknownCommit
from .pytest_state import state_of
from .schedules import Given, Named, Run, Shrinking, smallest, told, tried

FIXTURES, KEPT = ("datastore", "fresh_datastore"), "datastore_kept"
TITLE = "the smallest schedule under which it fails"
_PROPERTY = "datastore_schedules"


class Ran(NamedTuple):
    """A run of a test: its reports, whether it failed, and the exception that ended it."""

    reports: List[Any]
    is_failed: bool
    ended: Optional[BaseException]


class Trial:
    """The runs of one test, each with fixtures and a namespace of its own; fixtures of wider scopes stay."""

    def __init__(self, item: Any) -> None:
        self.item = item
        self.state = state_of(item)
        self.kept_always = self.state.keeps

    def run(self, run: Optional[Run], *, shows: bool = False) -> Ran:
        """Runs the test, under a schedule or as it is written. With `shows` it is the run that is told: its talk is kept, and a debugger may stop in it."""
        item = self.item
        self.state.keeps, self.state.shows = self.kept_always or (shows and run is not None), shows
        self.state.begin(run)
        item._report_sections.clear()
        if getattr(item, "cls", None) is not None:
            for name in ("_instance", "_obj"):
                item.__dict__.pop(name, None)
        if hasattr(item, "_initrequest"):
            item._initrequest()
        with self._short_tracebacks(not shows):
            reports = [self._phase("setup", shows)]
            if reports[0].passed and not item.config.getoption("setuponly", False):
                reports.append(self._phase("call", shows))
            reports.append(self._phase("teardown", shows, nextitem=item.parent))
        item._request, item.funcargs = False, None
        self.state.number += 1
        return Ran(reports, any(report.failed for report in reports), self.state.ended)

    @contextlib.contextmanager
    def _short_tracebacks(self, are_wanted: bool) -> Iterator[None]:
        """A block in which the report of a failure takes little time, if it is shown to nobody."""
        option = self.item.config.option
        style = getattr(option, "tbstyle", "auto")
        option.tbstyle = "native" if are_wanted else style
        try:
            yield
        finally:
            option.tbstyle = style

    def _phase(self, when: Any, shows: bool, **words: Any) -> Any:
        hook: Any = getattr(self.item.ihook, f"pytest_runtest_{when}")
        return self._report(when, lambda: hook(item=self.item, **words), shows)

    def leave(self, nextitem: Any) -> Any:
        """Ends the fixtures of wider scopes that the next test doesn't use, and gives the report of that."""
        return self._report("teardown", lambda: self.item.session._setupstate.teardown_exact(nextitem), True)

    def _report(self, when: Any, work: Callable[[], Any], shows: bool) -> Any:
        item = self.item
        call: Any = pytest.CallInfo.from_call(work, when=when, reraise=(pytest.exit.Exception, KeyboardInterrupt))
        report = item.ihook.pytest_runtest_makereport(item=item, call=call)
        if shows and report.failed and call.excinfo is not None and not isinstance(call.excinfo.value, pytest.skip.Exception):
            item.ihook.pytest_exception_interact(node=item, call=call, report=report)
        return report

    def fails(self, run: Run) -> bool:
        """Whether the test fails under a schedule, otherwise than by a reply that was withheld."""
        ran = self.run(run)
        return ran.is_failed and not _is_withheld(ran.ended)


def _is_withheld(error: Optional[BaseException]) -> bool:
    """Whether an error is, or tells of, a reply that was withheld: then the application told its caller that it doesn't know."""
    while error is not None and not isinstance(error, AssertionError):
        if isinstance(error, UnknownCommit) or getattr(error, "unknown", None) is not None:
            return True
        error = error.__cause__ or error.__context__
    return False


def asked(config: Any) -> bool:
    """Whether tests are to be run under schedules."""
    return config.getoption("datastore_schedule", None) is not None or bool(config.getoption("datastore_schedules", 0))


def reports_of(item: Any) -> List[Any]:
    """Runs a test as the options say, and gives the reports of the run that counts: setup, call, teardown."""
    trial, words = Trial(item), item.config.getoption("datastore_schedule", None)
    if words is not None:
        given = Given(words)
        return _shown(trial, given, trial.run(given, shows=True), "")
    written = trial.run(None, shows=True)
    if written.is_failed or not all(report.passed for report in written.reports):
        return written.reports
    tried_ones: List[Run] = []
    for run in tried(item.config.getoption("datastore_schedules"), item.nodeid):
        tried_ones.append(run)
        if trial.fails(run):
            return _smallest(trial, run, len(tried_ones))
    written.reports[-1].user_properties.append((_PROPERTY, len(tried_ones)))
    return written.reports


def _smallest(trial: Trial, failing: Run, count: int) -> List[Any]:
    """The reports of the smallest failing run, which is made once more to be kept and drawn."""
    shrunk = smallest(failing, trial.fails)
    run: Run = Named(shrunk.run.atoms)
    ran = trial.run(run, shows=True)
    again = "" if ran.is_failed else "it didn't fail once more: what the test does isn't the same each time\n"
    if not ran.is_failed:
        run = shrunk.run
        ran = ran._replace(reports=_failed(ran.reports))
    return _shown(trial, run, ran, again + _counted(shrunk, count), count)


def _counted(shrunk: Shrinking, count: int) -> str:
    more = "; more decisions might be left out" if shrunk.is_cut_off else ""
    return f"found by run {count}, and made small by {shrunk.runs} more{more}\n"


def _failed(reports: List[Any]) -> List[Any]:
    """The reports of a test whose failure didn't come again."""
    reports[1].outcome, reports[1].longrepr = "failed", "it failed under a schedule, and not when it was run under the same one once more"
    return reports


def _id_here(item: Any) -> str:
    """The test's id as pytest takes it in the current folder."""
    file, colons, rest = str(item.nodeid).partition("::")
    path: str = str(getattr(item, "path", file))
    here = os.path.relpath(path)
    return (path if here.startswith(os.pardir) else here) + colons + rest


def _shown(trial: Trial, run: Run, ran: Ran, how: str, count: int = 0) -> List[Any]:
    """Adds to the reports of a run under a schedule what was decided in it."""
    excerpts = trial.state.excerpts
    lines = told(run, excerpts[0].line, excerpts[0].commit) if len(excerpts) == 1 else told(run)
    if ran.is_failed or how:
        said = "\n".join(lines) if lines else "every query sees all that was written before it, no commit conflicts, and each is told: it counts on a write that isn't applied"
        command = f"pytest {shlex.quote(_id_here(trial.item))} --datastore-schedule {run.word}"
        passes = "it passes as it is written, and fails where\n" if how else "it fails where\n"
        text = passes + said + "\n" + how + f"to repeat it: {command}"
    else:
        text = "\n".join(lines)
    if isinstance(run, Given) and run.without_effect:
        text += f"\nof no effect, as no request of the test meets it: {', '.join(run.without_effect)}"
    for report in ran.reports:
        if report.failed:
            report.sections.insert(0, (TITLE if how else "the schedule", text))
            break
    ran.reports[-1].user_properties.append((_PROPERTY, count))
    return ran.reports


def run_protocol(item: Any, nextitem: Any) -> Optional[bool]:
    """The hook pytest_runtest_protocol: takes over the tests that use the fixtures, where schedules are asked for."""
    if not asked(item.config) or not set(FIXTURES) & set(getattr(item, "fixturenames", ())):
        return None
    if item.get_closest_marker("datastore_as_written") is not None or KEPT in item.fixturenames:
        return None
    item.ihook.pytest_runtest_logstart(nodeid=item.nodeid, location=item.location)
    reports = reports_of(item)
    last = Trial(item).leave(nextitem)
    if last.failed:
        reports[-1] = last
    for report in reports:
        item.ihook.pytest_runtest_logreport(report=report)
    item.ihook.pytest_runtest_logfinish(nodeid=item.nodeid, location=item.location)
    return True


def summary(reporter: Any) -> None:
    """The hook pytest_terminal_summary: how many runs there were."""
    counts: Dict[str, int] = {}
    for reports in reporter.stats.values():
        for report in reports:
            for name, value in getattr(report, "user_properties", ()):
                if name == _PROPERTY and value:
                    counts[report.nodeid] = value
    if counts:
        tests, runs = len(counts), sum(counts.values())
        reporter.write_line(f"schedules: {tests} test{'s' * (tests > 1)}, run under {runs} beside as {'they are' if tests > 1 else 'it is'} written")


def check_words(config: Any) -> None:
    """Refuses words of the command line that are no schedule."""
    words, most = config.getoption("datastore_schedule", None), config.getoption("datastore_schedules", 0)
    if words is not None:
        try:
            Given(words)
        except ValueError as error:
            raise pytest.UsageError(f"--datastore-schedule: {error}") from None
    if most < 0:
        raise pytest.UsageError(f"--datastore-schedules is a number of runs, and not {most}")
