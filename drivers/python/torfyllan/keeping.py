"""A server that keeps its journal in a file: its words, and what the driver does at its start."""
import os
import shutil
from typing import Any, Dict, List, Union

from .shards import LAST_ID

UNDRAWN: Dict[str, Any] = {"client": 0, "op": "put", "entity": {"key": [["torfyllan.nothing", LAST_ID]], "properties": {}}}
"""A put of an id that no server draws. Its refusal tells the next one that is drawn."""


class Keeping:
    """The file of a server. A ValueError says what is none."""

    def __init__(self, kept: Union[str, "os.PathLike[str]"]) -> None:
        name = os.fspath(kept)
        if not isinstance(name, str) or not name:
            raise ValueError(f"kept is the name of a file, and not {kept!r}")
        self.file = os.path.abspath(name)
        self._copies = 0

    @property
    def words(self) -> List[str]:
        """The program's words for it, which stand in front of all others."""
        return ["--kept", self.file]

    def copied(self, folder: str) -> str:
        """A copy of the file as it is now, in this folder; an empty one where there is no file."""
        self._copies += 1
        copy = os.path.join(folder, f"kept.{self._copies}")
        if os.path.isfile(self.file):
            shutil.copyfile(self.file, copy)
        else:
            open(copy, "wb").close()
        return copy
