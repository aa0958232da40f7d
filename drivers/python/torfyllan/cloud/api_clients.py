"""What applications make a Google client with, for where these packages can't be imported: options and credentials, which have no effect here.

It stands in for `google.auth`, `google.auth.credentials`, `google.oauth2.service_account`, `google.api_core.client_options` and
`google.api_core.gapic_v1.client_info`.
"""
import os
from typing import Any, Optional, Sequence, Tuple

from .members import API_CORE

__all__ = ["AnonymousCredentials", "ClientInfo", "ClientOptions", "Credentials", "default", "from_dict"]


class _Given:
    """Keeps what it was made with as attributes."""

    def __init__(self, *args: Any, **words: Any) -> None:
        self.__dict__.update(words)

    def __getattr__(self, name: str) -> Any:
        if name.startswith("_"):
            raise AttributeError(name)
        return None


class ClientOptions(_Given):
    """Options of a client, as `api_endpoint`; one that isn't given is None."""


class ClientInfo(_Given):
    """What a client tells of itself, as `user_agent`; what isn't given is None."""


class Credentials(_Given):
    """Credentials; what isn't given is None."""

    @classmethod
    def from_service_account_file(cls, filename: Any, **words: Any) -> "Credentials":
        """Credentials; the file isn't read."""
        return cls(**words)

    @classmethod
    def from_service_account_info(cls, info: Any, **words: Any) -> "Credentials":
        """Credentials."""
        return cls(**words)

    def with_scopes(self, scopes: Sequence[str], *args: Any, **words: Any) -> "Credentials":
        """The same credentials."""
        return self


class AnonymousCredentials(Credentials):
    """Credentials of nobody."""


def default(*args: Any, **words: Any) -> Tuple[Credentials, Optional[str]]:
    """Credentials, and the project that the environment names, or None."""
    return AnonymousCredentials(), os.environ.get("GOOGLE_CLOUD_PROJECT")


def from_dict(options: Any) -> ClientOptions:
    """The options of a dict."""
    return ClientOptions(**options)


__getattr__ = API_CORE.module_getattr(__name__)
