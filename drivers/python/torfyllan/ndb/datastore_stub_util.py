"""When a testbed applies writes: the policies of `google.appengine.datastore.datastore_stub_util`."""
from typing import Any, Optional, Union

from .members import TABLE


class BaseConsistencyPolicy:
    """A policy; what it says is the `consistency` and the `seed` of the server."""

    consistency: Union[str, float] = "strong"
    seed = 0

    def __getattr__(self, name: str) -> Any:
        return TABLE.object_getattr(type(self), name)


class MasterSlaveConsistencyPolicy(BaseConsistencyPolicy):
    """Each write is applied before its call returns; a testbed has this one where none is given."""


class BaseHighReplicationConsistencyPolicy(BaseConsistencyPolicy):
    """A write is committed and applied later: here by a read that is up to date, or by `settle`."""

    consistency: Union[str, float] = "explicit"


class PseudoRandomHRConsistencyPolicy(BaseHighReplicationConsistencyPolicy):
    """Each write is applied at once with this probability, drawn by the seed, and else by a read that is up to date, or by `settle`.

    0 shows each stale read that there can be, and 1 none.
    """

    def __init__(self, probability: float = 0.5, seed: Optional[int] = 0) -> None:
        if isinstance(probability, bool) or not isinstance(probability, (int, float)) or not 0 <= probability <= 1:
            raise TypeError(f"probability is a number from 0 to 1, and not {probability!r}")
        self.SetProbability(probability)
        self.seed = seed or 0

    def SetProbability(self, probability: float) -> None:
        """Another probability, for the next `init_datastore_v3_stub`."""
        self.consistency = float(probability)
        if probability in (0, 1):
            self.consistency = "strong" if probability else "explicit"

    def SetSeed(self, seed: Optional[int]) -> None:
        """Another seed, for the next `init_datastore_v3_stub`."""
        self.seed = seed or 0


class TimeBasedHRConsistencyPolicy(BaseHighReplicationConsistencyPolicy):
    """As no write is ever applied by the clock here: applied by a read that is up to date, or by `settle`."""


__getattr__ = TABLE.module_getattr(__name__, "datastore_stub_util.")
