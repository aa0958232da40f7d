"""What is kept of a test that fails: its page, its lines and how they are served once more; and at the end which index definitions nothing used."""
import json
import os
import pathlib
import re
import shlex
import tempfile
from typing import Any, Dict, List, Optional

import pytest

from .indexes import Definition, definitions_of, written
from .process import repository
from .pytest_state import State

TITLE = "datastore report"
_FOLDER: Any = pytest.StashKey()
_INDEXES = "datastore_indexes"


def folder_asked(config: Any) -> Optional[pathlib.Path]:
    """The folder that the ini file gives by `datastore_report`; a relative one stands beside that file."""
    try:
        name = config.getini("datastore_report")
    except (KeyError, ValueError):
        return None
    return pathlib.Path(config.inipath.parent if config.inipath is not None else config.rootpath, name) if name else None


def folder_of(config: Any) -> pathlib.Path:
    """The folder of this run's pages: the one that was asked for, or one in pytest's cache, or a new one for temporary files."""
    if _FOLDER not in config.stash:
        cache = getattr(config, "cache", None)
        asked = folder_asked(config)
        if asked is None:
            asked = pathlib.Path(str(cache.mkdir("datastore")) if cache is not None else tempfile.mkdtemp(prefix="torfyllan-report-"))
        asked.mkdir(parents=True, exist_ok=True)
        config.stash[_FOLDER] = asked
    folder: pathlib.Path = config.stash[_FOLDER]
    return folder


def report_lines(item: Any, state: State) -> List[str]:
    """Writes the files of a test that failed, of each of its servers, and says where they are."""
    stem = folder_of(item.config) / re.sub(r"[^A-Za-z0-9_.\[\]-]+", "-", item.nodeid)[-120:].lstrip("-.")
    lines, top = [], repository()
    run = str(top / "run") if top is not None else "./run"
    for number, excerpt in enumerate(state.excerpts, 1):
        name = f"{stem}.{number}" if number > 1 else str(stem)
        log = excerpt.write_log(name)
        page = excerpt.draw(name)
        if page is not None:
            lines.append(f"page:    {_here(page)}")
        lines.append(f"lines:   {_here(log)}")
        lines.append(f"replay:  {shlex.quote(run)} --replay {shlex.quote(_here(log))}")
    return lines


def _here(file: str) -> str:
    below = os.path.relpath(file)
    return file if below.startswith(os.pardir) else below


# ---- index definitions


def note_indexes(report: Any, state: State) -> None:
    """Keeps in a test's report which definitions its queries can have used, and which were missing."""
    used = {_line(one) for server in state.servers for one in server._index_use.used(server._indexes.definitions())}
    missing = {entry for server in state.servers for entry in server._index_use.missing}
    if used or missing:
        report.user_properties.append((_INDEXES, json.dumps([sorted(used), sorted(missing)])))


def _line(one: Definition) -> str:
    return written([one])


def index_summary(reporter: Any, index_file: Optional[str]) -> None:
    """Tells which definitions of the index file no query of the run can have used, and which entries were missing."""
    used: Dict[str, None] = {}
    missing: Dict[str, None] = {}
    count = 0
    for reports in reporter.stats.values():
        for report in reports:
            count += getattr(report, "when", "") == "call"
            for name, value in getattr(report, "user_properties", ()):
                if name == _INDEXES:
                    one, other = json.loads(value)
                    used.update(dict.fromkeys(one))
                    missing.update(dict.fromkeys(other))
    definitions = _definitions(index_file) if index_file and count else []
    unused = [one for one in definitions if _line(one) not in used]
    for title, entries in (
        (f"index definitions of {_here(index_file) if index_file else ''} that no query of these tests can use", [_line(one).partition("\n")[2] for one in unused]),
        ("index definitions that were missing", list(missing)),
    ):
        if entries:
            reporter.section(title)
            reporter.write_line("".join(entries).rstrip("\n"))


def _definitions(index_file: str) -> List[Definition]:
    try:
        with open(index_file, encoding="utf-8-sig") as file:
            return definitions_of(file.read())
    except (OSError, ValueError):
        return []
