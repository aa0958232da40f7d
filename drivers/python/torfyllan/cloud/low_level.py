"""Stands in for `google.cloud.datastore_v1` and the packages of administration: a name of them says what to use in its place."""
from typing import Any

from ..members import NoSuchName


def __getattr__(name: str) -> Any:
    if name.startswith("__"):
        raise AttributeError(f"module {__name__!r} has no attribute {name!r}")
    raise NoSuchName(f"{name}: calls of gRPC and jobs of administration aren't there: use google.cloud.datastore")
