"""The names of `google.cloud.datastore.query_profile`, each of which says that queries aren't explained."""
from .members import TABLE

__getattr__ = TABLE.module_getattr(__name__, "query_profile.")
