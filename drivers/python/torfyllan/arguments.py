"""What a server and its clients are made with, and what of it can't be."""
from typing import Any


def check_arguments(*, shards: Any, appliers: Any, window: Any, timeout: Any, start_timeout: Any, seed: Any) -> None:
    """A ValueError says which argument of a server is none."""
    for name, value, least, most in (("shards", shards, 1, 16), ("appliers", appliers, 0, 8), ("window", window, 1, 65_536)):
        if (value is not None or name != "window") and (not _is_int(value) or not least <= value <= most):
            raise ValueError(f"{name} is {least} to {most:,}, and not {value!r}")
    for name, seconds in (("timeout", timeout), ("start_timeout", start_timeout)):
        if isinstance(seconds, bool) or not isinstance(seconds, (int, float)) or not seconds > 0:
            raise ValueError(f"{name} is a number of seconds, and not {seconds!r}")
    if not _is_int(seed):
        raise ValueError(f"seed is a whole number, and not {seed!r}")


def check_client(number: Any, namespace: Any, clients: int) -> None:
    """A ValueError says what no client has: its number, or its namespace."""
    if not _is_int(number) or not 0 <= number < clients:
        raise ValueError(f"clients are numbered from 0 to {clients - 1}, and not {number!r}")
    if not isinstance(namespace, str):
        raise ValueError(f"a namespace is a str, and not {namespace!r}")


def _is_int(value: Any) -> bool:
    return isinstance(value, int) and not isinstance(value, bool)
