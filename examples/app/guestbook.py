"""A guestbook: greetings by book, newest first, and how many there are.

`App` takes a client of the server, as the tests give it.
"""
import datetime

from torfyllan import Key, Text

INDEXES = """\
indexes:
# The greetings of one book, newest first.
- kind: Greeting
  ancestor: yes
  properties:
  - name: date
    direction: desc
"""


class App:
    def __init__(self, client):
        self.client = client

    def sign(self, book, author, content, date=None):
        """Adds a greeting and counts it, both or neither; gives its key."""

        def work():
            counted = self.client.get(Key("Guestbook", book)).entity
            greetings = counted["greetings"] if counted else 0
            self.client.put(Key("Guestbook", book), greetings=greetings + 1)
            date_now = date or datetime.datetime.now(datetime.timezone.utc)
            greeting = Key("Guestbook", book, "Greeting", None)
            return self.client.put(greeting, author=author, content=Text(content), date=date_now).key

        # Where another request signs the same book meanwhile, the commit is a conflict, and the work is done again.
        return self.client.run_in_transaction(work)

    def count(self, book):
        counted = self.client.get(Key("Guestbook", book)).entity
        return counted["greetings"] if counted else 0

    def newest(self, book, limit=10):
        """The newest greetings of a book. The book is their ancestor: such a query is never stale, and needs its index."""
        found = self.client.query("Greeting", ancestor=Key("Guestbook", book), orders=["-date"], limit=limit)
        return [(greeting["author"], greeting["content"]) for greeting in found]
