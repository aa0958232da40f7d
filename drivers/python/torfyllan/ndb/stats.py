"""Statistics of the Datastore: `google.appengine.ext.ndb.stats`. It can be imported; each of its names is refused by a sentence."""
from .members import TABLE

__getattr__ = TABLE.module_getattr(__name__, "stats.")
