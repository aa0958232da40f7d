"""The guestbook as one writes it first: it works on a store in memory, and each of the three tests shows what is wrong with it."""
import datetime

from torfyllan import Key, Text

INDEXES = None


class App:
    def __init__(self, client):
        self.client = client

    def sign(self, book, author, content, date=None):
        counted = self.client.get(Key("Guestbook", book)).entity
        greetings = counted["greetings"] if counted else 0
        date_now = date or datetime.datetime.now(datetime.timezone.utc)
        # Wrong: the greeting has no ancestor, so a query that finds it can be stale.
        key = self.client.put(Key("Greeting", None), book=book, author=author, content=Text(content), date=date_now).key
        # Wrong: whoever signs between this read and this write is not counted.
        self.client.put(Key("Guestbook", book), greetings=greetings + 1)
        return key

    def count(self, book):
        counted = self.client.get(Key("Guestbook", book)).entity
        return counted["greetings"] if counted else 0

    def newest(self, book, limit=10):
        # Wrong: an equality with an order on another property needs an index of its own.
        found = self.client.query("Greeting", filters=[("book", "=", book)], orders=["-date"], limit=limit)
        return [(greeting["author"], greeting["content"]) for greeting in found]
