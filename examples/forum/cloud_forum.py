"""A forum for the Cloud client: threads, their posts, newest first, and how many there are. It imports what it imports on Google Cloud."""
import datetime

from google.cloud import datastore
from google.cloud.exceptions import Conflict


def start(client, title):
    thread = datastore.Entity(client.key("Thread"))
    thread.update(title=title, posts=0)
    client.put(thread)
    return thread.key


def write(client, thread_key, author, text, tries=4):
    """Adds a post and counts it, both or neither; tries again where another request writes in the thread meanwhile."""
    for left in reversed(range(tries)):
        post = datastore.Entity(client.key("Post", parent=thread_key), exclude_from_indexes=["text"])
        post.update(author=author, text=text, written=datetime.datetime.now(datetime.timezone.utc))
        try:
            with client.transaction():
                thread = client.get(thread_key)
                thread["posts"] += 1
                client.put_multi([thread, post])
            return post.key
        except Conflict:
            if not left:
                raise


def newest(client, thread_key, limit=20):
    """The newest posts. The thread is their ancestor: such a query is never stale, and needs its index."""
    return list(client.query(kind="Post", ancestor=thread_key, order=["-written"]).fetch(limit=limit))
