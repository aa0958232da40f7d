"""The Blobstore: `google.appengine.ext.ndb.blobstore`. Keys of blobs can be named, and are refused at the put; the other names by a sentence."""
from .kinds import BlobKey, BlobKeyProperty
from .members import TABLE

__getattr__ = TABLE.module_getattr(__name__, "blobstore.")
__all__ = ["BlobKey", "BlobKeyProperty"]
