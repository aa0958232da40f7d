"""Three tests of a forum that pass as they are written; under schedules all three fail for the one that is written first.

    FORUM=hasty_forum pytest examples/forum/schedules/test_forum.py                               all three pass
    FORUM=hasty_forum pytest examples/forum/schedules/test_forum.py --datastore-schedules 50      all three fail
    pytest examples/forum/schedules/test_forum.py --datastore-schedules 50                        all three pass

`pytest.ini` beside it says `datastore_consistency = strong`: as they are written, each query sees what was written before it.
"""
import importlib
import os
import sys

import torfyllan.ndb

torfyllan.ndb.install()
sys.path.insert(0, os.path.dirname(os.path.abspath(__file__)))
forum = importlib.import_module(os.environ.get("FORUM", "careful_forum"))


def test_a_post_is_listed(ndb_context):
    thread = forum.start("Hello")
    forum.write(thread, "ann", "First", tell=print)
    assert forum.authors(thread) == ["ann"]


def test_a_reader_is_told_once(ndb_context):
    told = []
    forum.write(forum.start("Hello"), "ann", "First", tell=told.append)
    assert told == ["ann"]


def test_a_post_is_counted_once(ndb_context):
    thread = forum.start("Hello")
    forum.write(thread, "ann", "First", tell=print)
    with torfyllan.ndb.use(ndb_context.client):
        assert thread.get().posts == 1
