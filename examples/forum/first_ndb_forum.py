"""The forum in ndb as one writes it first: it works on a store in memory, and each of the three tests shows what is wrong with it."""
from google.appengine.ext import ndb


class Thread(ndb.Model):
    title = ndb.StringProperty(required=True)
    started = ndb.DateTimeProperty(auto_now_add=True)
    posts = ndb.IntegerProperty(default=0)


class Post(ndb.Model):
    thread = ndb.KeyProperty(kind=Thread)
    author = ndb.StringProperty(required=True)
    text = ndb.TextProperty()
    written = ndb.DateTimeProperty(auto_now_add=True)


def start(title):
    return Thread(title=title).put()


def write(thread_key, author, text):
    thread = thread_key.get()
    # Wrong: the post has no ancestor, so a query that finds it can be stale.
    post = Post(thread=thread_key, author=author, text=text).put()
    # Wrong: whoever writes between this get and this put is not counted.
    thread.posts += 1
    thread.put()
    return post


def newest(thread_key, limit=20):
    # Wrong: an equality with an order on another property needs an index of its own.
    return Post.query(Post.thread == thread_key).order(-Post.written).fetch(limit)
