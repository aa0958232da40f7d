"""Namespaces of a test's own: whatever an application names, each test has its own of that name.

A client whose namespace is an `OwnSpace` sends `tenant` as a name of the test's, and gives `tenant` back.
"""
import hashlib
from typing import Dict, Optional


_SHOWN = 60


class OwnSpace(str):
    """A test's namespace, which holds a namespace for each that the application names.

    In each of these a group has the shard that it has in the namespace of the application's name.
    """

    _sent: Dict[str, str]
    _told: Dict[str, str]

    def __new__(cls, name: str) -> "OwnSpace":
        made = super().__new__(cls, name)
        made._sent, made._told = {}, {}
        return made

    def sent(self, name: str) -> str:
        """The server's namespace for one that the application names; the test's own for the default one."""
        from .rules import namespace_fault
        from .shards import even_namespace

        # One that the server refuses is sent as it is.
        if not name or name == self or namespace_fault(name):
            return name or str(self)
        if name not in self._sent:
            digest = hashlib.sha256(f"{self} {name}".encode()).hexdigest()[:10]
            own = even_namespace(f"{name[:_SHOWN]}-{digest}-", like=name)
            self._sent[name], self._told[own] = own, name
        return self._sent[name]

    def told(self, name: str) -> str:
        """The application's name of a server's namespace."""
        return self._told.get(name, name)


def space_out(name: Optional[str], within: str) -> str:
    """The server's namespace for what a client of the namespace `within` names; None means that one."""
    if name is None:
        return within
    return within.sent(name) if isinstance(within, OwnSpace) else name


def space_in(name: str, within: str) -> Optional[str]:
    """What a client of the namespace `within` calls one of the server's; None where it is that one."""
    if name == within:
        return None
    return within.told(name) if isinstance(within, OwnSpace) else name
