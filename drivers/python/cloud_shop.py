"""A ticket shop for Google Cloud Datastore, as an application has it: it imports what it imports on Google Cloud, and knows of no test."""
import datetime
import logging
import os

from google.api_core import exceptions, retry
from google.api_core.retry import Retry, if_exception_type
from google.cloud import datastore
from google.cloud.datastore import Entity, Key
from google.cloud.datastore.query import And, Or, PropertyFilter

log = logging.getLogger(__name__)

MOST_PER_COMMIT = 500
HOLD = datetime.timedelta(minutes=15)
CONFLICTS = Retry(predicate=if_exception_type(exceptions.Aborted), initial=0.01, maximum=0.1, multiplier=2.0, deadline=10.0)
READS = retry.Retry(predicate=retry.if_transient_error, deadline=5)


class SoldOut(Exception):
    """There aren't so many seats left."""


class NoSuchEvent(LookupError):
    """There is no event of this key."""


class Shop:
    """The shop of one tenant."""

    def __init__(self, project=None, tenant=None):
        self.client = datastore.Client(project=project or os.environ.get("GOOGLE_CLOUD_PROJECT"), namespace=tenant)

    # -- events

    def event_key(self, code):
        return self.client.key("Event", code)

    def add_event(self, code, title, starts, seats, price, genres=(), text=""):
        event = Entity(key=self.event_key(code), exclude_from_indexes=("text",))
        event.update({"title": title, "starts": starts, "seats": seats, "left": seats, "price": price, "genres": list(genres), "text": text, "closed": False})
        self.client.put(event, timeout=10)
        return event

    def event(self, code):
        event = self.client.get(self.event_key(code), retry=READS, timeout=5)
        if event is None:
            raise NoSuchEvent(code)
        return event

    def events(self, codes):
        """The events of these codes, and those codes that there is no event of."""
        missing, deferred = [], []
        keys = [self.event_key(code) for code in codes]
        found = self.client.get_multi(keys, missing=missing, deferred=deferred)
        while deferred:
            keys, deferred = deferred, []
            found += self.client.get_multi(keys, missing=missing, deferred=deferred)
        return {event.key.name: event for event in found}, [entity.key.id_or_name for entity in missing]

    def calendar(self, size=3, cursor=None):
        """A page of the events that aren't closed, the next ones first, and the cursor of the page behind it."""
        query = self.client.query(kind="Event", order=["starts"])
        query.add_filter(filter=PropertyFilter("closed", "=", False))
        results = query.fetch(start_cursor=cursor, limit=size)
        page = next(results.pages)
        events = list(page)
        token = results.next_page_token
        return events, token.decode("utf-8") if token else None

    def search(self, genre=None, at_most=None, title=None):
        query = self.client.query(kind="Event")
        if genre and title:
            query.add_filter(filter=Or([PropertyFilter("genres", "=", genre), PropertyFilter("title", "=", title)]))
        elif genre:
            query.add_filter("genres", "=", genre)
        if at_most is not None:
            query.add_filter(filter=And([PropertyFilter("price", ">", 0), PropertyFilter("price", "<=", at_most)]))
            query.order = ["-price"]
        return [event["title"] for event in query.fetch()]

    def titles(self):
        query = self.client.query(kind="Event", projection=["title"])
        query.order = ["title"]
        return [event["title"] for event in query.fetch()]

    # -- orders

    @CONFLICTS
    def order(self, code, customer, seats, now):
        """Holds seats for a customer; an order stands below its customer."""
        customer_key = self.client.key("Customer", customer)
        with self.client.transaction() as transaction:
            event = self.client.get(self.event_key(code))
            if event is None:
                raise NoSuchEvent(code)
            if event["left"] < seats:
                transaction.rollback()
                raise SoldOut(code)
            event["left"] -= seats
            order = datastore.Entity(self.client.key("Order", parent=customer_key), exclude_from_indexes=["receipt"])
            order.update(event=event.key, seats=seats, paid=False, held_until=now + HOLD, receipt=None)
            transaction.put(event)
            transaction.put(order)
        log.info("order %s of %s", order.key.id, order.key.parent.name)
        return order.key

    def pay(self, order_key):
        with self.client.transaction():
            order = self.client.get(order_key)
            order["paid"] = True
            order["receipt"] = "R-%d\n" % order.key.id + "." * 2000
            self.client.put(order)

    def orders_of(self, customer):
        query = self.client.query(kind="Order", ancestor=self.client.key("Customer", customer))
        return list(query.fetch(retry=READS))

    def order_by_link(self, link):
        return self.client.get(Key.from_legacy_urlsafe(link))

    def link_of(self, order_key):
        return order_key.to_legacy_urlsafe(location_prefix="s~").decode("ascii")

    def expire(self, now):
        """Gives back the seats of orders that weren't paid in time; gives their number."""
        query = self.client.query(kind="Order", filters=[("paid", "=", False), ("held_until", "<", now)])
        query.keys_only()
        expired = 0
        for found in query.fetch():
            expired += self._give_back(found.key)
        return expired

    @CONFLICTS
    def _give_back(self, order_key):
        with self.client.transaction() as transaction:
            order = self.client.get(order_key, transaction=transaction)
            if order is None or order["paid"]:
                return 0
            event = self.client.get(order["event"])
            event["left"] += order["seats"]
            self.client.put(event)
            self.client.delete(order_key)
        return 1

    def waiting(self):
        query = self.client.query(kind="Order", filters=[("paid", "=", False)])
        counted = self.client.aggregation_query(query=query).count(alias="waiting")
        for results in counted.fetch():
            return {result.alias: result.value for result in results}["waiting"]

    def report(self, codes):
        """Seats sold, all as of one time."""
        with self.client.transaction(read_only=True):
            events = self.client.get_multi([self.event_key(code) for code in codes])
        return {event.key.name: event["seats"] - event["left"] for event in events}

    # -- loads

    def load(self, rows):
        """Puts events of another system under ids, in commits of a size that the Datastore takes; gives their keys."""
        keys = self.client.allocate_ids(self.client.key("Event"), len(rows))
        batch = None
        for key, row in zip(keys, rows):
            if batch is None:
                batch = self.client.batch()
                batch.begin()
            event = Entity(key)
            event.update(row)
            batch.put(event)
            if len(batch.mutations) == MOST_PER_COMMIT:
                batch.commit(timeout=30)
                batch = None
        if batch is not None:
            batch.commit()
        return keys

    def load_orders(self, customer, rows):
        """Puts orders of another system under the ids that they had there."""
        keys = [self.client.key("Customer", customer, "Order", number) for number in rows]
        self.client.reserve_ids_multi(keys)
        entities = []
        for key, row in zip(keys, rows.values()):
            entity = self.client.entity(key=key)
            entity.update(row)
            entities.append(entity)
        self.client.put_multi(entities)
        return keys

    def close(self, code):
        """Takes an event out of the calendar, by a transaction without a `with` block."""
        transaction = self.client.transaction()
        transaction.begin()
        try:
            event = self.client.get(self.event_key(code), transaction=transaction)
            event["closed"] = True
            transaction.put(event)
        except BaseException:
            transaction.rollback()
            raise
        transaction.commit()

    def remove_all(self, kind="Event"):
        query = self.client.query(kind=kind)
        query.keys_only()
        keys = [entity.key for entity in query.fetch()]
        for at in range(0, len(keys), MOST_PER_COMMIT):
            self.client.delete_multi(keys[at : at + MOST_PER_COMMIT])
        return len(keys)
