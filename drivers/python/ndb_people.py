"""Models and people that the tests of `torfyllan.ndb` share, and the index file that their queries need."""
import os
import sys

sys.path.insert(0, os.path.dirname(os.path.abspath(__file__)))
import ndb_case
from torfyllan import ndb
from torfyllan.ndb import datastore_errors as errors

INDEXES = """\
indexes:
- kind: Person
  properties:
  - name: name
  - name: age
    direction: desc
- kind: Person
  properties:
  - name: age
  - name: name
- kind: Person
  ancestor: yes
  properties:
  - name: age
"""


class Address(ndb.Model):
    city = ndb.StringProperty()
    street = ndb.StringProperty(indexed=False)


class Person(ndb.Model):
    name = ndb.StringProperty()
    age = ndb.IntegerProperty(default=0)
    tags = ndb.StringProperty(repeated=True)
    active = ndb.BooleanProperty(default=True)


class Everything(ndb.Model):
    text = ndb.TextProperty()
    packed = ndb.TextProperty(compressed=True)
    quiet = ndb.StringProperty(indexed=False)
    number = ndb.IntegerProperty("n")
    truth = ndb.BooleanProperty()
    moment = ndb.DateTimeProperty()
    day = ndb.DateProperty()
    time = ndb.TimeProperty()
    other = ndb.KeyProperty(kind=Person)
    blob = ndb.BlobProperty()
    found = ndb.BlobProperty(indexed=True)
    json = ndb.JsonProperty()
    pickle = ndb.PickleProperty(compressed=True)
    home = ndb.StructuredProperty(Address)
    homes = ndb.StructuredProperty(Address, repeated=True)
    local = ndb.LocalStructuredProperty(Person)
    shout = ndb.ComputedProperty(lambda self: (self.quiet or "").upper()[:9])


class Upper(ndb.StringProperty):
    """A property of one's own: it takes short texts, and stores them in capitals."""

    def _validate(self, value):
        if len(value) > 3:
            raise errors.BadValueError("too long")

    def _to_base_type(self, value):
        return value.upper()

    def _from_base_type(self, value):
        return value.lower() + "!"


class Checked(ndb.Model):
    who = ndb.StringProperty(required=True, verbose_name="Who it is")
    colour = ndb.StringProperty(choices=["red", "blue"])
    even = ndb.IntegerProperty(validator=lambda prop, value: value - value % 2)
    upper = Upper()
    made = ndb.DateTimeProperty(auto_now_add=True)
    changed = ndb.DateTimeProperty(auto_now=True)


class Loose(ndb.Expando):
    name = ndb.StringProperty()


class WithPeople(ndb_case.WithServer):
    indexes = INDEXES

    def people(self, *rows):
        keys = ndb.put_multi([Person(id=name, name=name, age=age, tags=list(tags)) for name, age, *tags in rows])
        self.client.settle()
        return keys

    def names(self, query, **options):
        return [person.name for person in query.fetch(**options)]
