"""The forum for the Cloud client as one writes it first: each of the three tests shows what is wrong with it."""
import datetime

from google.cloud import datastore


def start(client, title):
    thread = datastore.Entity(client.key("Thread"))
    thread.update(title=title, posts=0)
    client.put(thread)
    return thread.key


def write(client, thread_key, author, text):
    thread = client.get(thread_key)
    # Wrong: the post has no ancestor, so a query that finds it can be stale.
    post = datastore.Entity(client.key("Post"), exclude_from_indexes=["text"])
    post.update(thread=thread_key, author=author, text=text, written=datetime.datetime.now(datetime.timezone.utc))
    client.put(post)
    # Wrong: whoever writes between this get and this put is not counted.
    thread["posts"] += 1
    client.put(thread)
    return post.key


def newest(client, thread_key, limit=20):
    # Wrong: an equality with an order on another property needs an index of its own.
    query = client.query(kind="Post", filters=[("thread", "=", thread_key)], order=["-written"])
    return list(query.fetch(limit=limit))
