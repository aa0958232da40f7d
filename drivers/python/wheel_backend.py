"""Builds the package's wheel, for pip: `pip install ./drivers/python`, or with `-e` to use the files where they stand.

It is a build backend as PEP 517 and PEP 660 have them, over the standard library alone. A wheel that is built in the repository notes
where that is, so that the installed package finds the server's `run`.
"""
import base64
import hashlib
import os
import pathlib
import re
import zipfile

HERE = pathlib.Path(__file__).resolve().parent
PACKAGE = "torfyllan"


def _project():
    """Name, version, summary and Python of the project, and its entry points: `key = "value"` in these tables of pyproject.toml, and the package's version."""
    tables, table = {}, {}
    for line in (HERE / "pyproject.toml").read_text(encoding="utf-8").splitlines():
        head = re.fullmatch(r"\[(.+)\]", line.strip())
        if head:
            table = tables.setdefault(head.group(1), {})
        word = re.fullmatch(r'"?([\w.-]+)"? = "(.*)"', line.strip())
        if word:
            table[word.group(1)] = word.group(2)
    version = re.search(r'^__version__ = "(.*)"$', (HERE / PACKAGE / "version.py").read_text(encoding="utf-8"), re.M)
    tables["project"]["version"] = version[1]
    return tables["project"], {name[len("project.entry-points.") :]: words for name, words in tables.items() if name.startswith("project.entry-points.")}


def _metadata():
    project, _ = _project()
    lines = ["Metadata-Version: 2.1", f"Name: {project['name']}", f"Version: {project['version']}", f"Summary: {project['description']}"]
    return "\n".join([*lines, f"Requires-Python: {project['requires-python']}", ""])


def _entry_points():
    _, tables = _project()
    return "".join(f"[{table}]\n" + "".join(f"{name} = {target}\n" for name, target in words.items()) for table, words in tables.items())


def _folder():
    project, _ = _project()
    return f"{project['name']}-{project['version']}.dist-info"


def _files():
    """The package's files, by their names in the wheel."""
    for path in sorted((HERE / PACKAGE).rglob("*")):
        if path.is_file() and path.suffix != ".pyc":
            yield path.relative_to(HERE).as_posix(), path.read_bytes()
    top = HERE.parents[1]
    if (top / "run").exists() and (top / "crates.txt").exists():
        yield f"{PACKAGE}/repository.txt", f"{top}\n".encode()


def _wheel(folder, files):
    project, _ = _project()
    name = f"{project['name']}-{project['version']}-py3-none-any.whl"
    wheel = f"Wheel-Version: 1.0\nGenerator: {PACKAGE}\nRoot-Is-Purelib: true\nTag: py3-none-any\n"
    files = [*files, (f"{_folder()}/METADATA", _metadata().encode()), (f"{_folder()}/WHEEL", wheel.encode())]
    files.append((f"{_folder()}/entry_points.txt", _entry_points().encode()))
    record = []
    with zipfile.ZipFile(os.path.join(folder, name), "w", zipfile.ZIP_DEFLATED) as archive:
        for inner, content in files:
            digest = base64.urlsafe_b64encode(hashlib.sha256(content).digest()).rstrip(b"=").decode()
            record.append(f"{inner},sha256={digest},{len(content)}\n")
            archive.writestr(inner, content)
        record.append(f"{_folder()}/RECORD,,\n")
        archive.writestr(f"{_folder()}/RECORD", "".join(record))
    return name


def build_wheel(wheel_directory, config_settings=None, metadata_directory=None):
    """A wheel with the package's files."""
    return _wheel(wheel_directory, _files())


def build_editable(wheel_directory, config_settings=None, metadata_directory=None):
    """A wheel that names the folder in which the package stands."""
    return _wheel(wheel_directory, [(f"{PACKAGE}.pth", f"{HERE}\n".encode())])


def build_sdist(sdist_directory, config_settings=None):
    """Refused: the package is installed from the repository."""
    raise RuntimeError("there is no source distribution: install from the repository, as pip install ./drivers/python")
