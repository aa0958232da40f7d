"""The names of `google.cloud.datastore.helpers`: places, which can be made and aren't stored."""
from typing import Any

from .members import TABLE

__all__ = ["GeoPoint"]


class GeoPoint:
    """A place by its latitude and longitude in degrees. A put refuses it."""

    def __init__(self, latitude: float, longitude: float) -> None:
        self.latitude = latitude
        self.longitude = longitude

    def __getattr__(self, name: str) -> Any:
        return TABLE.object_getattr(type(self), name, "helpers.")

    def __eq__(self, other: object) -> bool:
        if not isinstance(other, GeoPoint):
            return NotImplemented
        return (self.latitude, self.longitude) == (other.latitude, other.longitude)

    def __hash__(self) -> int:
        return hash((self.latitude, self.longitude))

    def __repr__(self) -> str:
        return f"GeoPoint({self.latitude!r}, {self.longitude!r})"


__getattr__ = TABLE.module_getattr(__name__, "helpers.")
