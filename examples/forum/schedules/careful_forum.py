"""A forum in ndb that passes its tests under every schedule: queries below an ancestor, transactions without effects outside, and posts with names."""
import uuid

from google.appengine.api.datastore_errors import Timeout
from google.appengine.ext import ndb


class Thread(ndb.Model):
    title = ndb.StringProperty(required=True)
    posts = ndb.IntegerProperty(default=0)


class Post(ndb.Model):
    author = ndb.StringProperty(required=True)
    text = ndb.TextProperty()


def start(title):
    return Thread(title=title).put()


@ndb.transactional
def _add(thread_key, name, author, text):
    """Adds the post of this name and counts it, unless it is there."""
    if Post.get_by_id(name, parent=thread_key) is None:
        thread = thread_key.get()
        thread.posts += 1
        ndb.put_multi([thread, Post(id=name, parent=thread_key, author=author, text=text)])


def write(thread_key, author, text, tell, tries=3):
    """Adds a post, counts it, and tells a reader of it once it is there."""
    name = uuid.uuid4().hex
    for left in reversed(range(tries)):
        try:
            _add(thread_key, name, author, text)
            break
        except Timeout:
            if not left:
                raise
    tell(author)


def authors(thread_key):
    """Who has written. The thread is the ancestor: such a query is never stale."""
    return [post.author for post in Post.query(ancestor=thread_key)]
