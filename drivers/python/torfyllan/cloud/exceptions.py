"""The exceptions that a Datastore raises, and which of them a refusal becomes.

Where `google.api_core.exceptions` can be imported its classes are raised, and have the names of this module; else those of `api_exceptions`.
"""
import importlib
from typing import Any

from ..facade import asking
from . import api_exceptions
from .api_exceptions import *  # noqa: F403
from .api_exceptions import Aborted, DeadlineExceeded, FailedPrecondition, GoogleAPICallError, InvalidArgument, ResourceExhausted
from .members import API_CORE


def _real() -> Any:
    """The real package's module, or None."""
    try:
        found = importlib.import_module("google.api_core.exceptions")
    except ImportError:
        return None
    return found if isinstance(getattr(found, "GoogleAPICallError", None), type) else None


REAL = _real()
"""The real package's module where it can be imported, else None."""

if REAL is not None:
    globals().update({name: getattr(REAL, name) for name in api_exceptions.__all__ if hasattr(REAL, name)})

GoogleCloudError = GoogleAPICallError

asked = asking(
    {"Conflict": Aborted, "Expired": Aborted, "MissingIndex": FailedPrecondition, "NoMemory": ResourceExhausted,
     "IdsExhausted": ResourceExhausted, "UnknownCommit": DeadlineExceeded},
    InvalidArgument,
)
"""Calls the driver; a refusal is raised as the exception that it becomes, and is the `refusal` of it."""

__getattr__ = API_CORE.module_getattr(__name__, "exceptions.")
