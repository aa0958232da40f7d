"""The exceptions of `google.appengine.api.datastore_errors`, and which of them a refusal of the server becomes."""
from ..facade import asking


class Error(Exception):
    """What the Datastore raises."""


# fmt: off
class BadValueError(Error): """A value that a property doesn't take."""
class BadPropertyError(Error): """A property that can't stand so."""
class BadRequestError(Error): """A request that the Datastore refuses."""
class BadArgumentError(Error): """An argument of a wrong type, or a combination that isn't allowed."""
class BadFilterError(Error): """A filter that can't be answered, as one on a property that isn't indexed."""
class BadQueryError(Error): """A query, or a text of GQL, that is none."""
class BadKeyError(Error): """A key that is none."""
class EntityNotFoundError(Error): """No entity has the key."""
class NeedIndexError(Error): """No index serves the query; the text has the entry to add to index.yaml."""
class TransactionFailedError(Error): """The transaction conflicted in each of its tries; nothing of it was written."""
class Rollback(Error): """Raised by the application: the transaction is rolled back, and `transaction` gives None."""
class InternalError(Error): """The server had no memory, or no more ids."""
class Timeout(Error): """A commit that is made, and its reply withheld on purpose. A server that doesn't reply in time is a `ServerFailed`."""
class CommittedButStillApplying(Error): """Never raised here: a commit is told at once, and applied later."""
class ReferencePropertyResolveError(Error): """Never raised here: it is of `db`."""
class KindError(BadValueError): """A kind without a model class, or an entity of another kind."""
class InvalidPropertyError(Error): """A query names a property that the model doesn't have."""
class UnprojectedPropertyError(Error): """A property of a projection's result that wasn't projected."""
class ReadonlyPropertyError(Error): """A property that can't be set: the entity is a projection's result."""
class ComputedPropertyError(ReadonlyPropertyError): """A computed property can't be set."""
class NotStoredError(BadValueError, NotImplementedError): """A value of a type that the server doesn't store."""
class ContextError(Error): """Of `google.cloud.ndb`: never raised here, where no context is open it is a RuntimeError."""
# fmt: on

BadProjectionError = InvalidPropertyError

asked = asking(
    {
        "MissingIndex": NeedIndexError, "Conflict": TransactionFailedError, "BadGql": BadQueryError,
        "TooManySubqueries": BadArgumentError, "several_cursor": BadArgumentError,
        "IdsExhausted": InternalError, "NoMemory": InternalError, "UnknownCommit": Timeout,
    },
    BadRequestError,
)
"""Calls the driver; a refusal is raised as the exception that it becomes, and is the `refusal` of it."""
