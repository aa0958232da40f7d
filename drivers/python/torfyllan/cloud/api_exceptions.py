"""The exceptions of `google.api_core.exceptions`, for where that package can't be imported.

`exceptions` chooses between them and the real ones.
"""
from typing import Any, Dict, List, Optional, Sequence, Type

from .members import API_CORE

__all__ = [
    "Aborted", "AlreadyExists", "AsyncRestUnsupportedParameterError", "BadGateway", "BadRequest", "Cancelled",
    "ClientError", "Conflict", "DataLoss", "DeadlineExceeded", "DuplicateCredentialArgs", "FailedPrecondition",
    "Forbidden", "GatewayTimeout", "GoogleAPICallError", "GoogleAPIError", "InternalServerError", "InvalidArgument",
    "LengthRequired", "MethodNotAllowed", "MethodNotImplemented", "MovedPermanently", "NotFound", "NotModified",
    "OutOfRange", "PermissionDenied", "PreconditionFailed", "Redirection", "RequestRangeNotSatisfiable",
    "ResourceExhausted", "ResumeIncomplete", "RetryError", "ServerError", "ServiceUnavailable", "TemporaryRedirect",
    "TooManyRequests", "Unauthenticated", "Unauthorized", "Unknown", "exception_class_for_grpc_status",
    "exception_class_for_http_status", "from_grpc_status", "from_http_status",
]


class GoogleAPIError(Exception):
    """What all exceptions of the package are."""


class DuplicateCredentialArgs(GoogleAPIError):
    """Credentials were given twice."""


class AsyncRestUnsupportedParameterError(NotImplementedError):
    """A parameter that the asynchronous transport over HTTP doesn't take."""


class RetryError(GoogleAPIError):
    """A call was tried until its time was over; `cause` is the exception of the last try."""

    def __init__(self, message: str, cause: Optional[BaseException] = None) -> None:
        super().__init__(message)
        self.message = message
        self._cause = cause

    @property
    def cause(self) -> Optional[BaseException]:
        """The exception of the last try."""
        return self._cause

    def __str__(self) -> str:
        return f"{self.message}, last exception: {self.cause}"


class GoogleAPICallError(GoogleAPIError):
    """What a call raises: `code` is the status of HTTP, `grpc_status_code` the name of gRPC's, `message` the text."""

    code: Optional[int] = None
    grpc_status_code: Optional[str] = None

    def __init__(self, message: str, errors: Sequence[Any] = (), details: Sequence[Any] = (), response: Any = None,
                 error_info: Any = None) -> None:
        super().__init__(message)
        self.message = message
        self._errors, self._details, self._response, self._error_info = errors, details, response, error_info

    @property
    def errors(self) -> List[Any]:
        """Further errors that were given."""
        return list(self._errors)

    @property
    def details(self) -> List[Any]:
        """Details that were given."""
        return list(self._details)

    @property
    def response(self) -> Any:
        """The response that was given, or None."""
        return self._response

    @property
    def reason(self) -> Optional[str]:
        """The reason that the error's information gives, if there is one."""
        return getattr(self._error_info, "reason", None)

    @property
    def domain(self) -> Optional[str]:
        """The domain of that reason."""
        return getattr(self._error_info, "domain", None)

    @property
    def metadata(self) -> Optional[Dict[str, str]]:
        """The metadata of that reason."""
        return getattr(self._error_info, "metadata", None)

    def __str__(self) -> str:
        return f"{self.code} {self.message}" + (f" {self.details}" if self._details else "")


# fmt: off
class Redirection(GoogleAPICallError): """A status from 300 on."""
class MovedPermanently(Redirection): code = 301
class NotModified(Redirection): code = 304
class TemporaryRedirect(Redirection): code = 307
class ResumeIncomplete(Redirection): code = 308
class ClientError(GoogleAPICallError): """The request is at fault: a status from 400 on."""
class BadRequest(ClientError): code = 400
class InvalidArgument(BadRequest): grpc_status_code = "INVALID_ARGUMENT"
class FailedPrecondition(BadRequest): grpc_status_code = "FAILED_PRECONDITION"
class OutOfRange(BadRequest): grpc_status_code = "OUT_OF_RANGE"
class Unauthorized(ClientError): code = 401
class Unauthenticated(Unauthorized): grpc_status_code = "UNAUTHENTICATED"
class Forbidden(ClientError): code = 403
class PermissionDenied(Forbidden): grpc_status_code = "PERMISSION_DENIED"
class NotFound(ClientError): code, grpc_status_code = 404, "NOT_FOUND"
class MethodNotAllowed(ClientError): code = 405
class Conflict(ClientError): code = 409
class AlreadyExists(Conflict): grpc_status_code = "ALREADY_EXISTS"
class Aborted(Conflict): grpc_status_code = "ABORTED"
class LengthRequired(ClientError): code = 411
class PreconditionFailed(ClientError): code = 412
class RequestRangeNotSatisfiable(ClientError): code = 416
class TooManyRequests(ClientError): code = 429
class ResourceExhausted(TooManyRequests): grpc_status_code = "RESOURCE_EXHAUSTED"
class Cancelled(ClientError): code, grpc_status_code = 499, "CANCELLED"
class ServerError(GoogleAPICallError): """The server is at fault: a status from 500 on."""
class InternalServerError(ServerError): code, grpc_status_code = 500, "INTERNAL"
class Unknown(ServerError): grpc_status_code = "UNKNOWN"
class DataLoss(ServerError): grpc_status_code = "DATA_LOSS"
class MethodNotImplemented(ServerError): code, grpc_status_code = 501, "UNIMPLEMENTED"
class BadGateway(ServerError): code = 502
class ServiceUnavailable(ServerError): code, grpc_status_code = 503, "UNAVAILABLE"
class GatewayTimeout(ServerError): code = 504
class DeadlineExceeded(GatewayTimeout): grpc_status_code = "DEADLINE_EXCEEDED"
# fmt: on


def _classes() -> List[Type[GoogleAPICallError]]:
    found: List[Type[GoogleAPICallError]] = [GoogleAPICallError]
    for kind in found:
        found += kind.__subclasses__()
    return found


# The first that has a status: those that stand above the others that have it.
_BY_CODE: Dict[Optional[int], Type[GoogleAPICallError]] = {}
_BY_GRPC: Dict[Optional[str], Type[GoogleAPICallError]] = {}
for _kind in _classes():
    _BY_CODE.setdefault(_kind.code, _kind)
    _BY_GRPC.setdefault(_kind.grpc_status_code, _kind)


def exception_class_for_http_status(status_code: int) -> Type[GoogleAPICallError]:
    """The class of a status of HTTP."""
    return _BY_CODE.get(status_code, GoogleAPICallError)


def exception_class_for_grpc_status(status_code: Any) -> Type[GoogleAPICallError]:
    """The class of a status of gRPC, by its name."""
    return _BY_GRPC.get(getattr(status_code, "name", status_code), GoogleAPICallError)


def from_http_status(status_code: int, message: str, **words: Any) -> GoogleAPICallError:
    """An exception of the class of a status of HTTP."""
    error = exception_class_for_http_status(status_code)(message, **words)
    if error.code is None:
        error.code = status_code
    return error


def from_grpc_status(status_code: Any, message: str, **words: Any) -> GoogleAPICallError:
    """An exception of the class of a status of gRPC."""
    error = exception_class_for_grpc_status(status_code)(message, **words)
    if error.grpc_status_code is None:
        error.grpc_status_code = status_code
    return error


__getattr__ = API_CORE.module_getattr(__name__, "exceptions.")
