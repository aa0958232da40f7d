"""The iterator of a query's results, and its pages."""
from typing import Any, List, Optional

from ..facade import cursor_out
from .entity import Entity, entity_in
from .exceptions import InvalidArgument
from .members import TABLE


class Page:
    """A page of results, which gives each once: `num_items` of them at its start, and `remaining` to be given."""

    def __init__(self, items: List[Any]) -> None:
        self._items = iter(items)
        self._num_items = self._remaining = len(items)

    @property
    def num_items(self) -> int:
        """The results of the page."""
        return self._num_items

    @property
    def remaining(self) -> int:
        """Those that haven't been given."""
        return self._remaining

    def __iter__(self) -> "Page":
        return self

    def __next__(self) -> Any:
        result = next(self._items)
        self._remaining -= 1
        return result

    def __getattr__(self, name: str) -> Any:
        return TABLE.object_getattr(type(self), name, "query.")


class Iterator:
    """The results of a query, which is asked once the first is taken. They are taken once: by `for`, by `next`, or by `pages`.

    `num_results` counts what was given, `page_number` the pages, and `max_results` is the limit.
    """

    def __init__(self, query: Any, client: Any, limit: Optional[int] = None, offset: Optional[int] = None,
                 start_cursor: Any = None, end_cursor: Any = None, eventual: bool = False, retry: Any = None,
                 timeout: Any = None, **words: Any) -> None:
        TABLE.refuse_words("Query.fetch", words)
        self._query, self.client, self.max_results = query, client, limit
        self._eventual, self._retry = eventual, retry
        self._given = start_cursor
        self._run = query._run(limit, offset, start_cursor, end_cursor)
        self.num_results = self.page_number = 0
        self._taken: Any = None
        self._found: Optional[List[Any]] = None
        self._cursor: Optional[str] = None
        self._has_branches = False
        self._token: Any = None

    def __getattr__(self, name: str) -> Any:
        return TABLE.object_getattr(type(self), name, "query.")

    def _start(self) -> None:
        if self._taken is not None:
            raise ValueError("Iterator has already started", self)

    def __iter__(self) -> Any:
        self._start()
        self._taken = self._items()
        return self._taken

    def __next__(self) -> Any:
        return next(iter(self) if self._taken is None else self._taken)

    def _items(self) -> Any:
        for page in self._pages(False):
            for item in page:
                self.num_results += 1
                yield item

    @property
    def pages(self) -> Any:
        """The results as one page."""
        self._start()
        self._taken = self._pages(True)
        return self._taken

    def _pages(self, counts: bool) -> Any:
        page = Page(self._read())
        self.page_number += 1
        if counts:
            self.num_results += page.num_items
        yield page

    def _read(self) -> List[Any]:
        """Asks the query."""
        branches = self._query._branches()
        self._has_branches = len(branches) > 1 or any(each.operator in ("IN", "!=") for each in branches[0])
        run = self._run._replace(cursor=self._run.limit is not None and not self._has_branches)
        transaction = self.client._transaction(None, self._eventual)
        found, self._cursor = self._query._results(self.client, run, self._retry, transaction)
        self._found = [self._made(each) for each in found]
        return self._found

    def _made(self, found: Any) -> Entity:
        return entity_in(found, self.client.project)

    @property
    def next_page_token(self) -> Optional[bytes]:
        """The cursor behind the results, if there are more behind the limit, else None. Before they are read it is the one that was given."""
        if self._found is None:
            return self._given  # type: ignore[no-any-return]
        if self._run.limit is None or len(self._found) < self._run.limit:
            return None
        if self._has_branches:
            raise InvalidArgument("a query with IN, !=, NOT_IN or Or has no cursors: use offset and limit there")
        if self._token is None:
            rest = self._run._replace(limit=1, offset=0, start=self._cursor, cursor=False)
            more = self._query._results(self.client, rest, self._retry, self.client._transaction(None, False))[0]
            self._token = (cursor_out(str(self._cursor)).encode() if more else None,)
        return self._token[0]  # type: ignore[no-any-return]
