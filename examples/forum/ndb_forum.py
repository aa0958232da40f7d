"""A forum in ndb: threads, their posts, newest first, and how many there are. It imports what it imports on App Engine."""
from google.appengine.ext import ndb


class Thread(ndb.Model):
    title = ndb.StringProperty(required=True)
    started = ndb.DateTimeProperty(auto_now_add=True)
    posts = ndb.IntegerProperty(default=0)


class Post(ndb.Model):
    author = ndb.StringProperty(required=True)
    text = ndb.TextProperty()
    written = ndb.DateTimeProperty(auto_now_add=True)


def start(title):
    return Thread(title=title).put()


@ndb.transactional
def write(thread_key, author, text):
    """Adds a post and counts it, both or neither. ndb runs this again where another request writes in the thread meanwhile."""
    thread = thread_key.get()
    thread.posts += 1
    post = Post(parent=thread_key, author=author, text=text)
    return ndb.put_multi([thread, post])[1]


def newest(thread_key, limit=20):
    """The newest posts. The thread is their ancestor: such a query is never stale, and needs its index."""
    return Post.query(ancestor=thread_key).order(-Post.written).fetch(limit)
