"""A forum in ndb that passes its tests as they are written, and not under every schedule: each of the three tests shows one thing that is wrong."""
from google.appengine.api.datastore_errors import Timeout
from google.appengine.ext import ndb


class Thread(ndb.Model):
    title = ndb.StringProperty(required=True)
    posts = ndb.IntegerProperty(default=0)


class Post(ndb.Model):
    thread = ndb.KeyProperty(kind=Thread)
    author = ndb.StringProperty(required=True)
    text = ndb.TextProperty()


def start(title):
    return Thread(title=title).put()


@ndb.transactional(xg=True)
def _add(thread_key, author, text, tell):
    thread = thread_key.get()
    thread.posts += 1
    # Wrong: the post has no ancestor, so a query that finds it can be stale.
    ndb.put_multi([thread, Post(thread=thread_key, author=author, text=text)])
    # Wrong: after a conflict this is run again, and the reader told again.
    tell(author)


def write(thread_key, author, text, tell, tries=3):
    """Adds a post, counts it, and tells a reader of it."""
    for left in reversed(range(tries)):
        try:
            return _add(thread_key, author, text, tell)
        except Timeout:
            # Wrong: the post may be there, and is then added and counted once more.
            if not left:
                raise


def authors(thread_key):
    return [post.author for post in Post.query(Post.thread == thread_key)]
