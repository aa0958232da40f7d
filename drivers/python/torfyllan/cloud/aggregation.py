"""The names of `google.cloud.datastore.aggregation`: how many results a query has."""
from typing import Any, List, Optional, Sequence

from .iterator import Iterator
from .members import TABLE

__all__ = ["AggregationQuery", "AggregationResult", "AggregationResultIterator", "BaseAggregation", "CountAggregation"]


class BaseAggregation:
    """What is asked of all results of a query, by the name `alias`."""

    def __init__(self, alias: Optional[str] = None) -> None:
        self.alias = alias

    def __getattr__(self, name: str) -> Any:
        return TABLE.object_getattr(type(self), name, "aggregation.")


class CountAggregation(BaseAggregation):
    """The number of results."""


class AggregationResult:
    """What an aggregation gave: its `alias` and its `value`."""

    def __init__(self, alias: str, value: Any) -> None:
        self.alias = alias
        self.value = value

    def __getattr__(self, name: str) -> Any:
        return TABLE.object_getattr(type(self), name, "aggregation.")

    def __repr__(self) -> str:
        return f"<Aggregation alias={self.alias}, value={self.value}>"


class AggregationQuery:
    """Aggregations of a query: `client.aggregation_query(query).count().fetch()`."""

    def __init__(self, client: Any, query: Any, **words: Any) -> None:
        TABLE.refuse_words("Client.aggregation_query", words)
        self._client, self._nested_query = client, query
        self._aggregations: List[BaseAggregation] = []

    def __getattr__(self, name: str) -> Any:
        return TABLE.object_getattr(type(self), name, "aggregation.")

    @property
    def project(self) -> str:
        """The query's project, or the client's."""
        return self._nested_query.project or self._client.project  # type: ignore[no-any-return]

    @property
    def namespace(self) -> Optional[str]:
        """The query's namespace, or the client's."""
        return self._nested_query.namespace or self._client.namespace  # type: ignore[no-any-return]

    def count(self, alias: Optional[str] = None) -> "AggregationQuery":
        """Adds the number of results, and gives the query."""
        return self.add_aggregation(CountAggregation(alias))

    def add_aggregation(self, aggregation: BaseAggregation) -> "AggregationQuery":
        """Adds an aggregation, and gives the query."""
        if not isinstance(aggregation, CountAggregation):
            raise TypeError(f"an aggregation is a CountAggregation, and not {aggregation!r}")
        self._aggregations.append(aggregation)
        return self

    def add_aggregations(self, aggregations: Sequence[BaseAggregation]) -> "AggregationQuery":
        """Adds aggregations, and gives the query."""
        for each in aggregations:
            self.add_aggregation(each)
        return self

    def fetch(self, client: Any = None, limit: Optional[int] = None, eventual: bool = False, retry: Any = None,
              timeout: Any = None, **words: Any) -> "AggregationResultIterator":
        """An iterator whose one result is the list of an `AggregationResult` for each aggregation.

        One without a name has `property_1`, `property_2` and so on.
        """
        TABLE.refuse_words("aggregation.AggregationQuery.fetch", words)
        if not self._aggregations:
            raise ValueError("an aggregation query has at least one aggregation: query.count()")
        return AggregationResultIterator(self, client or self._client, limit, eventual, retry)


class AggregationResultIterator(Iterator):
    """The results of an aggregation query."""

    def __init__(self, query: AggregationQuery, client: Any, limit: Optional[int] = None, eventual: bool = False,
                 retry: Any = None) -> None:
        super().__init__(query._nested_query, client, None, None, None, None, eventual, retry)
        self._aggregation_query, self.max_results = query, limit

    def _read(self) -> List[Any]:
        run = self._run if self._run.projection else self._run._replace(keys_only=True)
        transaction = self.client._transaction(None, self._eventual)
        found, _ = self._query._results(self.client, run, self._retry, transaction)
        names = [each.alias or f"property_{at}" for at, each in enumerate(self._aggregation_query._aggregations, 1)]
        self._found = [[AggregationResult(name, len(found)) for name in names]]
        return self._found

    @property
    def next_page_token(self) -> None:
        """None: there is one result."""
        return None


__getattr__ = TABLE.module_getattr(__name__, "aggregation.")
