"""A ticket shop as applications of App Engine were written in 2014. Nothing in it knows of Torfyllan."""
import datetime
import json

from google.appengine.api import datastore_errors, namespace_manager
from google.appengine.datastore.datastore_query import Cursor
from google.appengine.ext import ndb
from google.appengine.ext.ndb import polymodel


class Price(ndb.Model):
    currency = ndb.StringProperty(default="SEK", choices=["SEK", "EUR"])
    cents = ndb.IntegerProperty(required=True)


class TicketClass(ndb.Model):
    name = ndb.StringProperty(required=True)
    price = ndb.StructuredProperty(Price)
    seats = ndb.IntegerProperty()


class Event(polymodel.PolyModel):
    """The root of an entity group, which has its stock of tickets."""

    title = ndb.StringProperty(required=True)
    starts = ndb.DateTimeProperty()
    doors = ndb.TimeProperty()
    tags = ndb.StringProperty(repeated=True)
    classes = ndb.StructuredProperty(TicketClass, repeated=True)
    description = ndb.TextProperty(compressed=True)
    rating = ndb.FloatProperty()
    place = ndb.GeoPtProperty()
    search_title = ndb.ComputedProperty(lambda self: self.title.lower())
    created = ndb.DateTimeProperty(auto_now_add=True)
    changed = ndb.DateTimeProperty(auto_now=True)

    _use_memcache = False

    @classmethod
    def tagged(cls, *tags):
        return cls.query(cls.tags.IN(tags))


class Concert(Event):
    artist = ndb.StringProperty()


class Game(Event):
    teams = ndb.KeyProperty(kind="Team", repeated=True)


class Stock(ndb.Model):
    """How many tickets of a class are left: a child of its event, named as the class."""

    left = ndb.IntegerProperty(default=0)


class Customer(ndb.Model):
    email = ndb.StringProperty(required=True)
    name = ndb.StringProperty()
    settings = ndb.JsonProperty(default={})
    spent = ndb.IntegerProperty(default=0)

    def _pre_put_hook(self):
        self.email = self.email.strip().lower()

    @classmethod
    def _post_delete_hook(cls, key, future):
        future.check_success()
        ndb.delete_multi(Order.query(ancestor=key).iter(keys_only=True))


class Item(ndb.Model):
    event = ndb.KeyProperty(kind=Event)
    ticket_class = ndb.StringProperty()
    count = ndb.IntegerProperty(default=1)
    cents = ndb.IntegerProperty()


class Order(ndb.Model):
    """A child of its customer."""

    items = ndb.LocalStructuredProperty(Item, repeated=True)
    status = ndb.StringProperty(choices=["paid", "refunded"], default="paid")
    events = ndb.ComputedProperty(lambda self: [item.event for item in self.items], repeated=True)
    total = ndb.ComputedProperty(lambda self: sum(item.cents * item.count for item in self.items))
    ordered = ndb.DateTimeProperty(auto_now_add=True)

    def _post_put_hook(self, future):
        ndb.get_context().call_on_commit(lambda: Log.note("order %s: %s" % (future.get_result().id(), self.status)))


class Log(ndb.Model):
    text = ndb.TextProperty()

    @classmethod
    @ndb.non_transactional
    def note(cls, text):
        cls(text=text).put(use_cache=False, use_memcache=False)


class SoldOut(Exception):
    pass


@ndb.transactional
def open_sale(event):
    """Puts an event and a stock for each of its classes, in one transaction."""
    if not event.key:
        event.key = ndb.Key(Event, Event.allocate_ids(size=1)[0])
    futures = [event.put_async()]
    for ticket_class in event.classes:
        futures.append(Stock(parent=event.key, id=ticket_class.name, left=ticket_class.seats).put_async())
    ndb.Future.wait_all(futures)
    return futures[0].get_result()


@ndb.tasklet
def take(event_key, name, count):
    """Takes tickets out of the stock, in the open transaction."""
    event, stock = yield event_key.get_async(), ndb.Key(Stock, name, parent=event_key).get_async()
    if stock is None or stock.left < count:
        raise SoldOut("%s has no %d of %s" % (event_key.id(), count, name))
    stock.left -= count
    yield stock.put_async()
    price = [each.price for each in event.classes if each.name == name][0]
    raise ndb.Return(Item(event=event_key, ticket_class=name, count=count, cents=price.cents))


@ndb.transactional_tasklet(xg=True, retries=5)
def buy_async(customer_key, wanted):
    """Buys tickets of several events: their groups and the customer's are one transaction."""
    customer = yield customer_key.get_async()
    items = yield [take(event_key, name, count) for event_key, name, count in wanted]
    order = Order(parent=customer_key, items=items)
    customer.spent += order.total
    order_key, _ = yield order.put_async(), customer.put_async()
    raise ndb.Return(order_key)


def buy(customer_key, *wanted):
    return buy_async(customer_key, wanted).get_result()


def refund(order_key):
    """Gives the tickets back; an order is refunded once."""

    def work():
        order, customer = ndb.get_multi([order_key, order_key.parent()])
        if order.status == "refunded":
            raise ndb.Rollback()
        stocks = ndb.get_multi(ndb.Key(Stock, item.ticket_class, parent=item.event) for item in order.items)
        for stock, item in zip(stocks, order.items):
            stock.left += item.count
        order.status = "refunded"
        customer.spent -= order.total
        ndb.put_multi(stocks + [order, customer])
        return True

    try:
        return bool(ndb.transaction(work, xg=True))
    except datastore_errors.TransactionFailedError:
        return False


def page_of(query, size, bookmark=None):
    """A page of results, and the bookmark of the next, None at the end."""
    results, cursor, more = query.fetch_page(size, start_cursor=Cursor(urlsafe=bookmark) if bookmark else None)
    return results, cursor.urlsafe() if more else None


@ndb.tasklet
def line_of(order):
    events = yield ndb.get_multi_async([item.event for item in order.items])
    raise ndb.Return("%s: %s, %d" % (order.status, " + ".join(event.title for event in events), order.total))


@ndb.synctasklet
def account(customer_key):
    """A customer's page: orders, the last first, each with the titles of its events."""
    query = Order.query(ancestor=customer_key).order(-Order.ordered)
    customer, lines, count = yield customer_key.get_async(), query.map_async(line_of), query.count_async()
    raise ndb.Return({"name": customer.name, "lines": lines, "count": count})


def sign_up(email, name):
    return Customer.get_or_insert(email.strip().lower(), email=email, name=name, settings={"ratio": 0.5, "news": True}).key


@ndb.toplevel
def application(environ, start_response):
    """The shop's start page, as JSON."""
    context = ndb.get_context()
    context.set_memcache_policy(lambda key: key.kind() != "Stock")
    context.set_memcache_timeout_policy(lambda key: 60)
    context.set_cache_policy(lambda key: key.kind() != "Stock")
    namespace_manager.set_namespace(environ.get("shop.tenant", ""))
    now = environ.get("shop.now", datetime.datetime(2014, 5, 1))
    events = Event.query(Event.starts >= now).order(Event.starts).fetch(10, projection=[Event.starts, Event.title])
    start_response("200 OK", [("Content-Type", "application/json")])
    return [json.dumps([[event.title, event.starts.isoformat(), event.key.urlsafe()] for event in events]).encode("utf-8")]
