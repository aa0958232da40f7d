"""Properties of one value: numbers, texts, bytes, times, keys, and those that can be named and not stored."""
import datetime
import functools
import json
import pickle
import zlib
from typing import Any, Callable, Optional, Tuple

from .. import values
from ..facade import LONGEST, UTC
from .datastore_errors import BadValueError, ComputedPropertyError, NotStoredError
from .key import Key
from .members import TABLE
from .properties import Property


class IntegerProperty(Property):
    """A whole number of 64 bits; True is 1."""

    _takes, _types = "an int", (int,)

    def _validate(self, value: Any) -> Any:
        super()._validate(value)
        return int(value)


class BooleanProperty(Property):
    """True or False."""

    _takes, _types = "a bool", (bool,)


class _Long(Property):
    """Texts and bytes: what is not indexed may be long, and compressed."""

    _indexed = False
    _is_text = False
    _has_bound = True

    def __init__(self, name: Optional[str] = None, compressed: bool = False, **words: Any) -> None:
        super().__init__(name, **words)
        self._compressed = compressed
        if self._indexed and (compressed or type(self) in (TextProperty, CompressedTextProperty)):
            raise NotImplementedError("no TextProperty and no compressed property can be indexed; a StringProperty can")

    def _validate(self, value: Any) -> Any:
        if self._is_text and isinstance(value, bytes):
            try:
                value = value.decode("utf-8")
            except UnicodeDecodeError as error:
                raise self._expected("bytes that are UTF-8", value) from error
        super()._validate(value)
        size = len(value.encode("utf-8", "surrogatepass") if isinstance(value, str) else value) if self._has_bound else 0
        if self._indexed and size > LONGEST:
            raise BadValueError(
                f"{self._code_name or type(self).__name__}: it is indexed and has {size} bytes, more than {LONGEST};"
                " a TextProperty, or indexed=False, may have more")
        return value

    def _out(self, value: Any) -> Any:
        if self._compressed:
            return values.Blob(zlib.compress(value.encode() if self._is_text else value))
        return super()._out(value)

    def _in(self, value: Any) -> Any:
        content = value.encode() if isinstance(value, str) else bytes(value)
        content = zlib.decompress(content) if self._compressed else content
        return content.decode() if self._is_text else content


class TextProperty(_Long):
    """A text of any length, which isn't indexed."""

    _takes, _types = "a str", (str,)
    _is_text = True


class StringProperty(TextProperty):
    """A text, indexed, of at most 1,500 bytes; with `indexed=False` of any length."""

    _indexed = True


class CompressedTextProperty(TextProperty):
    """A text, stored compressed."""

    def __init__(self, name: Optional[str] = None, compressed: bool = True, **words: Any) -> None:
        super().__init__(name, True, **words)


class BlobProperty(_Long):
    """Bytes, not indexed unless `indexed=True`; `compressed=True` stores them compressed."""

    _takes, _types = "bytes", (bytes,)


class JsonProperty(BlobProperty):
    """A value that `json` writes, stored as its text; with `json_type` of that type alone."""

    _has_bound = False

    def __init__(self, name: Optional[str] = None, compressed: bool = False, json_type: Optional[type] = None,
                 **words: Any) -> None:
        self._json_type = json_type
        super().__init__(name, compressed, **words)

    def _validate(self, value: Any) -> Any:
        if self._json_type is not None and not isinstance(value, self._json_type):
            raise self._expected(f"a {self._json_type.__name__}", value)

    def _to_base_type(self, value: Any) -> Any:
        return json.dumps(value, separators=(",", ":")).encode()

    def _from_base_type(self, value: Any) -> Any:
        return json.loads(value)


class PickleProperty(BlobProperty):
    """A value that `pickle` writes."""

    _has_bound = False

    def _to_base_type(self, value: Any) -> Any:
        return pickle.dumps(value, 2)

    def _from_base_type(self, value: Any) -> Any:
        return pickle.loads(value)


class DateTimeProperty(Property):
    """A time of UTC, without a time zone. `auto_now` sets it at each put, `auto_now_add` at the first."""

    _takes = "a datetime of UTC without its time zone, as value.replace(tzinfo=None)"
    _types: Tuple[type, ...] = (datetime.datetime,)

    def __init__(self, name: Optional[str] = None, auto_now: bool = False, auto_now_add: bool = False,
                 tzinfo: Any = None, **words: Any) -> None:
        TABLE.refuse_words("DateTimeProperty", {"tzinfo": tzinfo})
        super().__init__(name, **words)
        if self._repeated and (auto_now or auto_now_add):
            raise ValueError("a repeated property can't have auto_now or auto_now_add")
        self._auto_now, self._auto_now_add = auto_now, auto_now_add

    def _validate(self, value: Any) -> Any:
        is_moment = isinstance(value, datetime.datetime)
        is_one = isinstance(value, self._types) and is_moment == (datetime.datetime in self._types)
        if not is_one or getattr(value, "tzinfo", None) is not None:
            raise self._expected(self._takes, value)

    def _prepare_for_put(self, entity: Any) -> None:
        if self._auto_now or (self._auto_now_add and not self._has_value(entity)):
            entity._values[self._name] = self._loaded(datetime.datetime.now(UTC))

    def _missing(self, entity: Any) -> bool:
        return super()._missing(entity) and not (self._auto_now or self._auto_now_add)

    def _in(self, value: Any) -> Any:
        return moment(value)


def moment(value: Any) -> datetime.datetime:
    """The time, without its zone, of a driver's date or of its microseconds, as a projection has it."""
    if isinstance(value, datetime.datetime):
        return value.astimezone(UTC).replace(tzinfo=None)
    return datetime.datetime(1970, 1, 1) + datetime.timedelta(microseconds=value)


class DateProperty(DateTimeProperty):
    """A date."""

    _takes, _types = "a date", (datetime.date,)

    def _out(self, value: Any) -> Any:
        return datetime.datetime(value.year, value.month, value.day, tzinfo=UTC)

    def _in(self, value: Any) -> Any:
        return moment(value).date()


class TimeProperty(DateTimeProperty):
    """A time of day."""

    _takes, _types = "a time without a time zone", (datetime.time,)

    def _out(self, value: Any) -> Any:
        return datetime.datetime.combine(datetime.date(1970, 1, 1), value, UTC)

    def _in(self, value: Any) -> Any:
        return moment(value).time()


class KeyProperty(Property):
    """A key of this kind, a text or a model class: `KeyProperty(kind=Book)`, `KeyProperty(Book)`; or of any."""

    def __init__(self, *given: Any, name: Optional[str] = None, kind: Any = None, **words: Any) -> None:
        for each in given:
            if isinstance(each, str) and name is None:
                name = each
            else:
                kind = each
        self._kind = getattr(kind, "_get_kind", lambda: kind)()
        super().__init__(name, **words)

    def _validate(self, value: Any) -> Any:
        if not isinstance(value, Key) or value.id() is None:
            raise self._expected("a Key that is complete", value)
        if self._kind is not None and value.kind() != self._kind:
            raise self._expected(f"a key of kind {self._kind!r}", value)


class GenericProperty(Property):
    """A property of any type that the server stores: those of an `Expando`, and those that a class doesn't tell of."""

    def __init__(self, name: Optional[str] = None, compressed: bool = False, **words: Any) -> None:
        TABLE.refuse_words("GenericProperty", {"compressed": compressed or None})
        super().__init__(name, **words)

    def _in(self, value: Any) -> Any:
        return moment(value) if isinstance(value, datetime.datetime) else super()._in(value)


class ComputedProperty(GenericProperty):
    """A value that a function of the entity gives: at each read, and stored at each put so that queries find it."""

    def __init__(self, func: Callable[[Any], Any], name: Optional[str] = None, **words: Any) -> None:
        super().__init__(name, **words)
        self._func = func

    def _get_value(self, entity: Any) -> Any:
        return super()._get_value(entity) if self._name in entity._projection else self._func(entity)

    def _set_value(self, entity: Any, value: Any) -> None:
        raise ComputedPropertyError(f"{self._code_name} is computed, and can't be set")


@functools.total_ordering
class GeoPt:
    """A place by its latitude and longitude in degrees: `GeoPt(52.4, 4.9)` or `GeoPt("52.4, 4.9")`. The server stores none."""

    def __init__(self, lat: Any, lon: Any = None) -> None:
        if lon is None:
            try:
                lat, lon = str(lat).split(",")
            except ValueError as error:
                raise BadValueError(f"a place is two numbers, as '52.4, 4.9', and not {lat!r}") from error
        try:
            self.lat, self.lon = float(lat), float(lon)
        except (TypeError, ValueError) as error:
            raise BadValueError(f"latitude and longitude are numbers, and not {lat!r} and {lon!r}") from error
        if not -90 <= self.lat <= 90 or not -180 <= self.lon <= 180:
            raise BadValueError(f"a latitude is -90 to 90 and a longitude -180 to 180, and not {self.lat} and {self.lon}")

    def __eq__(self, other: object) -> bool:
        return isinstance(other, GeoPt) and (self.lat, self.lon) == (other.lat, other.lon)

    def __lt__(self, other: "GeoPt") -> bool:
        return (self.lat, self.lon) < (other.lat, other.lon) if isinstance(other, GeoPt) else NotImplemented

    def __hash__(self) -> int:
        return hash((self.lat, self.lon))

    def __str__(self) -> str:
        return f"{self.lat},{self.lon}"

    def __repr__(self) -> str:
        return f"GeoPt({self.lat!r}, {self.lon!r})"


class BlobKey(str):
    """A key of the Blobstore, a text. The server stores none."""


class _NotStored(Property):
    """A property of a class that may be made, whose values the server doesn't store: unset, it stores None; a put or a
    comparison with a value is a `NotStoredError`."""

    _owner = ""

    def _fix_up(self, model: Any, code_name: str) -> None:
        super()._fix_up(model, code_name)
        self._owner = self._owner or f"{model.__name__}."

    def _out(self, value: Any) -> Any:
        what = f"{self._owner}{self._code_name or 'it'} is a {type(self).__name__}"
        raise NotStoredError(f"{what}, and has a value: the server stores no {self._takes}")


class FloatProperty(_NotStored):
    """A float, which the server doesn't store."""

    _takes, _types = "floats; keep cents or thousandths in an IntegerProperty, or a JsonProperty", (int, float)

    def _validate(self, value: Any) -> Any:
        super()._validate(value)
        return float(value)


class GeoPtProperty(_NotStored):
    """A place, which the server doesn't store."""

    _takes, _types = "places; keep millionths of a degree of latitude and longitude as integers", (GeoPt,)


class UserProperty(_NotStored):
    """A user of Google Accounts, which the server doesn't store. Nobody is signed in, so `auto_current_user` sets nothing."""

    _takes = "users of Google Accounts; keep the user's id in a StringProperty"

    def __init__(self, name: Optional[str] = None, auto_current_user: bool = False, auto_current_user_add: bool = False,
                 **words: Any) -> None:
        super().__init__(name, **words)


class BlobKeyProperty(_NotStored):
    """A key of the Blobstore, which the server doesn't store."""

    _takes, _types = "keys of the Blobstore; keep the key's text in a StringProperty", (BlobKey,)
