"""When writes are applied: when a test says so, at once, or each with a chance."""
import random
from typing import Dict, Optional, Union

EXPLICIT = "explicit"
STRONG = "strong"


class Consistency:
    """One of three modes: `"explicit"`, `"strong"`, or the share of writes, from 0 to 1, that are applied at once.

    The draws of a share begin with the seed anew in each namespace: what a test sees doesn't depend on the tests before it.
    """

    def __init__(self, mode: Union[str, float], seed: int) -> None:
        self.is_strong = mode == STRONG
        self.share: Optional[float] = None
        if not isinstance(mode, str):
            if isinstance(mode, bool) or not 0 <= mode <= 1:
                raise ValueError(f"consistency is 'explicit', 'strong', or a share from 0 to 1, and not {mode!r}")
            self.share = float(mode)
        elif mode not in (EXPLICIT, STRONG):
            raise ValueError(f"consistency is 'explicit', 'strong', or a share from 0 to 1, and not {mode!r}")
        self._seed = seed
        self._draws: Dict[str, random.Random] = {}

    def draw(self, namespace: str) -> bool:
        """Whether the next write of this namespace is applied at once."""
        if self.share is None:
            return False
        if namespace not in self._draws:
            self._draws[namespace] = random.Random(f"{self._seed} {namespace}")
        return self._draws[namespace].random() < self.share

    def restart(self) -> None:
        """Begins all draws anew."""
        self._draws = {}
