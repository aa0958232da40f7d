"""Tests of schedules: how they are written, drawn and made small; what a server does under one; and the examples that pytest finds by them.

    python3 drivers/python/test_schedules.py
"""
import pathlib
import random
import unittest

from by_pytest import TestByPytest
from torfyllan import Conflict, Key, Server, UnknownCommit
from torfyllan.journal import Site
from torfyllan.schedules import CONFLICT, LOST, STALE, Decision, Drawn, Given, Named, Run, Stalest, smallest, tried

FORUM = pathlib.Path(__file__).resolve().parents[2] / "examples" / "forum" / "schedules"


def decision(number, kind=LOST):
    return Decision(kind, Run().request(0, {"op": "put"}, "", Site(f"file{number}.py", number)))


class Pretended(Run):
    """A run in which these decisions took effect."""

    def __init__(self, decisions):
        super().__init__()
        self.made = list(decisions)


class Words(unittest.TestCase):
    def test_words_that_are_read(self):
        for words in ("none", "", "5:stale", "5:stale-3-4.2,7:conflict", " 5:lost, 6:stale-1 "):
            with self.subTest(words=words):
                Given(words)

    def test_words_that_are_none(self):
        for words in ("5", "5:", "x:stale", "0:lost", "5:stale-", "5:lost-3", "5:Stale", "5:stale-3.", "5;stale"):
            with self.subTest(words=words), self.assertRaisesRegex(ValueError, "is no decision of a schedule: these are N:stale"):
                Given(words)


class Smallest(unittest.TestCase):
    def test_what_can_be_left_out_is(self):
        """For each set of decisions that it takes to fail, that set is found."""
        every = [decision(number) for number in range(40)]
        for needed in ({0}, {39}, {3, 17}, {0, 1, 2, 38, 39}, set(range(12, 20))):
            with self.subTest(needed=needed):
                ran = []

                def fails(run):
                    run.made = [one for one in every if one.atoms[0] in run._atoms]
                    ran.append(run)
                    return {every[number].atoms[0] for number in needed} <= run._atoms

                found = smallest(Pretended(every), fails)
                self.assertEqual(found.run.made, [every[number] for number in sorted(needed)])
                self.assertEqual((found.runs, found.is_cut_off), (len(ran), False))
                self.assertLess(len(ran), 100)

    def test_one_that_becomes_needless_later(self):
        """The first may be left out only where the last is left out: a second pass finds it."""
        every = [decision(number) for number in range(4)]
        names = [one.atoms[0] for one in every]

        def fails(run):
            run.made = [one for one in every if one.atoms[0] in run._atoms]
            return names[1] in run._atoms and (names[0] in run._atoms or names[3] not in run._atoms)

        self.assertEqual(smallest(Pretended(every), fails).run.made, [every[1]])

    def test_nothing_to_leave_out(self):
        self.assertEqual(smallest(Run(), self.fail).runs, 0)
        self.assertEqual(smallest(Pretended([decision(1)]), self.fail).runs, 0)


class OnAServer(unittest.TestCase):
    def setUp(self):
        self.server = Server().start()
        self.addCleanup(self.server.kill)
        self.client, self.runs = self.server.client(), 0

    def under(self, run, work):
        """Does the work under a schedule, in a namespace of its own; gives what it gives."""
        self.client.settle()
        self.runs += 1
        kept, self.server._choices = self.server._choices, run
        try:
            return work(self.server.client(namespace=f"run{self.runs}"))
        finally:
            self.server._choices = kept

    @staticmethod
    def names(client):
        """What three queries see of what is written before them: requests 1 and 2, 4 and 6 write tasks, 3, 5 and 7 ask for them."""
        seen = []
        for names in (("a", "b"), ("c",), ("d",)):
            for name in names:
                client.put(Key("Task", name))
            seen.append("".join(key.identifier for key in client.query("Task", select="keys")))
        return seen

    def test_what_a_query_misses(self):
        shards = [self.client.shard_of(Key("Task", name)) for name in "abcd"]
        self.assertEqual(len(set(shards)), 4, "the table below counts on groups in four shards")
        for words, seen in (
            ("none", ["ab", "abc", "abcd"]),
            ("3:stale", ["", "abc", "abcd"]),
            ("3:stale-1", ["b", "abc", "abcd"]),
            ("3:stale-2", ["a", "abc", "abcd"]),
            ("3:stale-2,5:stale-2", ["a", "ac", "abcd"]),
            ("3:stale-2,5:stale-2,7:stale-2-6", ["a", "ac", "ac"]),
            ("5:stale-2", ["ab", "abc", "abcd"]),
            ("7:stale", ["ab", "abc", "abc"]),
        ):
            with self.subTest(words=words):
                self.assertEqual(self.under(Given(words), self.names), seen)

    def test_what_took_effect_is_told_and_repeats_it(self):
        for seed in range(20):
            run = Drawn(random.Random(seed), 4)
            try:
                seen = self.under(run, self.names)
            except UnknownCommit:
                seen = "unknown"
            with self.subTest(seed=seed, word=run.word):
                for again in (Given(run.word), Named(run.atoms)):
                    try:
                        self.assertEqual(self.under(again, self.names), seen)
                    except UnknownCommit:
                        self.assertEqual(seen, "unknown")
                    self.assertEqual(again.word, run.word)
        run = Given("2:conflict,5:stale-2,9:lost")
        self.under(run, self.names)
        self.assertEqual((run.word, run.without_effect), ("none", ["2:conflict", "5:stale-2", "9:lost"]))

    def test_what_stands_behind_a_missed_entry_in_its_shard_is_missed(self):
        """Of one group: its second version isn't seen without its first."""

        def work(client):
            for n in (1, 2):
                client.put(Key("Task", "a"), n=n)
            return [task["n"] for task in client.query("Task")]

        for words, seen, told in (("3:stale-1", [], "3:stale"), ("3:stale-2", [1], "3:stale-2"), ("3:stale-1-2", [], "3:stale")):
            run = Given(words)
            self.assertEqual((self.under(run, work), run.word), (seen, told))

    def test_entries_of_other_kinds_are_no_decisions(self):
        def work(client):
            client.put(Key("Other", "a"))
            client.put(Key("Task", "a"))
            return [len(client.query(kind)) for kind in ("Task", "Third", "Other")]

        for run, seen, offered in ((Run(), [1, 0, 1], [3, 5]), (Stalest(), [0, 0, 0], [3, 5]), (Given("5:stale"), [1, 0, 0], [3, 5])):
            self.assertEqual(self.under(run, work), seen)
            self.assertEqual([request.number for kind, request in run.offered if kind == STALE], offered)

    def test_a_transaction_of_two_groups_is_seen_in_part(self):
        def work(client):
            with client.transaction(xg=True):
                client.put(Key("Task", "a"))
                client.put(Key("Task", "b"))
            return [key.identifier for key in client.query("Task", select="keys")]

        for words, seen in (("none", ["a", "b"]), ("5:stale-4.1", ["b"]), ("5:stale-4.2", ["a"]), ("5:stale-4.1-4.2", []), ("5:stale", [])):
            with self.subTest(words=words):
                self.assertEqual(self.under(Given(words), work), seen)

    def test_conflicts_and_lost_replies(self):
        def work(client):
            def add():
                found = client.get(Key("C", "c")).entity
                client.put(Key("C", "c"), n=(found["n"] if found else 0) + 1)

            try:
                client.run_in_transaction(add)
            except UnknownCommit:
                client.run_in_transaction(add)
            return client.get(Key("C", "c")).entity["n"]

        for words, n, requests in (("none", 1, 5), ("4:conflict", 1, 9), ("4:conflict,8:conflict", 1, 13), ("4:lost", 2, 9), ("4:conflict,8:lost", 2, 13)):
            run = Given(words)
            with self.subTest(words=words):
                self.assertEqual((self.under(run, work), run.word, run.lines.keys()), (n, words, set(range(1, requests + 1))))
                again = Named(run.atoms)
                self.assertEqual((self.under(again, work), again.word), (n, words))

    def test_a_decision_is_found_again_where_a_conflict_is_left_out(self):
        def work(client):
            client.run_in_transaction(lambda: client.put(Key("Task", "a")))
            return len(client.query("Task"))

        run = Given("3:conflict,7:stale-6")
        self.assertEqual((self.under(run, work), run.word), (0, "3:conflict,7:stale"))
        without = Named([atom for atom in run.atoms if atom[0] != CONFLICT])
        self.assertEqual((self.under(without, work), without.word), (0, "4:stale"))

    def test_a_transaction_that_nobody_else_knows_does_not_conflict(self):
        def work(client):
            client.begin()
            client.put(Key("Task", None))
            client.commit()

        run = Run()
        self.under(run, work)
        self.assertEqual([kind for kind, _ in run.offered], [LOST])

    def test_at_most_two_conflicts_in_a_row_are_drawn(self):
        def work(client):
            with client.transaction():
                client.get(Key("C", "c"))

        def in_a_row(run, most=0):
            for count in range(20):
                try:
                    self.under(run, work)
                except Conflict:
                    most = max(most, len(run.made))
                else:
                    run.made = []
            return most

        self.assertEqual(max(in_a_row(Drawn(random.Random(seed), 0)) for seed in range(10)), 2)

    def test_the_replies_tell_what_is_applied(self):
        """What the driver keeps of each shard is what the server says, behind requests of every kind."""
        draws, server = random.Random(5), self.server
        clients = [server.client(number, namespace=space) for number, space in ((0, ""), (1, ""), (2, "other"))]
        for _ in range(250):
            client = draws.choice(clients)
            key = Key("Task", draws.choice("abcdefgh"))
            op = draws.choice(["put", "put", "put", "get", "query", "ancestor", "apply", "begin", "commit", "settle"])
            if op == "begin" and not client.in_transaction:
                client.begin(xg=True)
            elif op == "commit" and client.in_transaction:
                try:
                    client.commit()
                except Conflict:
                    pass
            elif op == "put":
                client.put(key)
            elif op == "get":
                client.get(key)
            elif op == "ancestor":
                client.query("Task", ancestor=key)
            elif op == "apply" and not client.in_transaction:
                client.apply(draws.randrange(16))
            elif op == "query" and not client.in_transaction:
                client.query("Task")
            elif op == "settle" and not client.in_transaction and draws.random() < 0.2:
                client.settle()
            told = server._exchange([b'{"client":9,"op":"query","kind":"Nothing"}'], 60, None)[0]
            self.assertEqual(server._steering._applied, told["applied"], op)
        self.assertTrue(server._steering._is_exact)

    def test_which_schedules_are_tried(self):
        def work(client):
            client.put(Key("Task", "a"))
            with client.transaction():
                client.put(Key("Task", "a"))
            try:
                return len(client.query("Task"))
            except UnknownCommit:
                return None

        words = []
        for run in tried(50, "seed"):
            try:
                self.under(run, work)
            except (UnknownCommit, Conflict):
                pass
            words.append(run.word)
        self.assertEqual(words[0], "none")
        self.assertEqual(words[1], "5:stale")
        self.assertEqual(set(words[2:5]), {"1:lost", "4:conflict", "4:lost"})
        self.assertLessEqual(set(words), {"none", "1:lost", "4:conflict", "4:lost", "5:stale", "5:stale-4"})
        self.assertLess(len(words), 50)
        self.assertEqual(len(list(tried(50, "seed"))), 1, "a run that leaves nothing open is tried once")


class ByPytest(TestByPytest):
    def test_the_forum_that_is_written_first(self):
        said, status = self.pytest(FORUM, "test_forum.py", FORUM="hasty_forum")
        self.assertEqual(status, 0, said)
        said, status = self.pytest(FORUM, "test_forum.py", "--datastore-schedules", "50", FORUM="hasty_forum")
        self.assertEqual(status, 1, said)
        self.assertIn("3 failed", said)
        for words in (
            r"the query of Post in line \d+, hasty_forum.py:43, misses commit 2, Key\('Post', \d+\) of a transaction by line \d+, hasty_forum.py:35",
            r"the commit in line \d+, hasty_forum.py:35, conflicts: another client writes to a group of the transaction right before",
            r"the commit in line \d+, hasty_forum.py:35, is lost: it is made, and its caller isn't told",
        ):
            self.assertRegex(said, words)
        for test, words in (("a_post_is_listed", "7:stale"), ("a_reader_is_told_once", "6:conflict"), ("a_post_is_counted_once", "6:lost")):
            name = f"test_forum.py::test_{test}"
            self.assertIn(f"to repeat it: pytest {name} --datastore-schedule {words}\n", said)
            again, status = self.pytest(FORUM, name, "--datastore-schedule", words, FORUM="hasty_forum")
            self.assertEqual((status, "1 failed" in again), (1, True), again)

    def test_the_careful_forum(self):
        said, status = self.pytest(FORUM, "test_forum.py", "--datastore-schedules", "12")
        self.assertEqual(status, 0, said)
        self.assertRegex(said, r"schedules: 3 tests, run under 3\d beside as they are written")

    def test_fixtures_of_wider_scopes_stay_and_others_are_made_anew(self):
        text = """
made = []

@pytest.fixture(scope="module")
def once():
    made.append("once")
    yield
    print("end of once")

@pytest.fixture
def each():
    made.append("each")

class TestIt:
    def test_it(self, once, each, fresh_or_not, datastore):
        assert not hasattr(self, "seen")
        self.seen = True
        datastore.put(Key("Task", "a"))
        datastore.query("Task")

    @pytest.fixture
    def fresh_or_not(self):
        return len(made)

def test_last():
    assert made.count("once") == 1 and made.count("each") > 4
"""
        said, status = self.run_tests(text, "--datastore-schedules", "20")
        self.assertEqual(status, 0, said)

    def test_cases_of_unittest(self):
        text = """
import unittest

class TestIt(unittest.TestCase):
    @pytest.fixture(autouse=True)
    def lent(self, datastore):
        self.datastore = datastore

    def setUp(self):
        self.keys = [Key("Task", "a"), Key("Task", "b")]

    def test_it(self):
        self.assertEqual(len(self.keys), 2)
        for key in self.keys:
            self.datastore.put(self.keys.pop())
        self.assertEqual(self.datastore.count("Task"), 1)
"""
        said, status = self.run_tests(text, "--datastore-schedules", "5", ini="datastore_consistency = strong\n")
        self.assertIn("1 failed", said)
        self.assertIn("test_it.py::TestIt::test_it --datastore-schedule 2:stale", said)

    def test_namespaces_that_the_application_names_are_not_shared_by_runs(self):
        text = """
def test_it(datastore):
    datastore.put(Key("Task", None, namespace="tenant"))
    datastore.settle()
    assert len(datastore.query("Task", namespace="tenant")) == 1
"""
        said, status = self.run_tests(text, "--datastore-schedules", "10")
        self.assertEqual(status, 0, said)

    def test_a_test_that_counts_on_what_is_not_applied(self):
        text = "\ndef test_it(datastore):\n    datastore.put(Key('Task', 'a'))\n    assert not datastore.query('Task')\n"
        said, status = self.run_tests(text, "--datastore-schedules", "5")
        self.assertEqual(status, 1, said)
        self.assertIn("it counts on a write that isn't applied", said)
        self.assertIn("--datastore-schedule none", said)
        said, status = self.run_tests(text.replace("\ndef", "\n@pytest.mark.datastore_as_written\ndef"), "--datastore-schedules", "5")
        self.assertEqual(status, 0, said)

    def test_a_test_that_fails_as_it_is_written_is_told_as_ever(self):
        text = "\ndef test_it(datastore):\n    datastore.put(Key('Task', 'a'))\n    assert datastore.query('Task')\n"
        said, status = self.run_tests(text, "--datastore-schedules", "5")
        self.assertEqual(status, 1, said)
        self.assertNotIn("schedule under which", said)

    def test_a_reply_that_is_withheld_is_no_failure_by_itself(self):
        text = """
def test_through(datastore):
    datastore.put(Key("Task", "a"))

def test_wrapped(datastore):
    try:
        datastore.put(Key("Task", "a"))
    except UnknownCommit:
        raise ValueError("not sure")

def test_told(datastore):
    try:
        datastore.put(Key("Task", "a"))
    except UnknownCommit:
        assert False
"""
        said, status = self.run_tests(text, "--datastore-schedules", "5")
        self.assertIn("1 failed, 2 passed", said)
        self.assertIn("test_told --datastore-schedule 1:lost", said)

    def test_words_that_are_none_are_refused(self):
        said, status = self.run_tests("\ndef test_it():\n    pass\n", "--datastore-schedule", "5:slow")
        self.assertEqual(status, 4, said)
        self.assertIn("'5:slow' is no decision of a schedule", said)
        said, status = self.run_tests("\ndef test_it(datastore):\n    assert False\n", "--datastore-schedule", "5:stale")
        self.assertIn("of no effect, as no request of the test meets it: 5:stale", said)

    def test_background_appliers_are_refused(self):
        text = """
@pytest.fixture(scope="session")
def datastore_server():
    with Server(appliers=1) as server:
        yield server

def test_it(datastore):
    datastore.put(Key("Task", "a"))
"""
        said, status = self.run_tests(text, "--datastore-schedules", "5")
        self.assertIn("its server can't have background appliers: give it appliers=0", said)

    def test_fifty_schedules_take_little_time(self):
        """Twenty requests, of which five are queries: the processor time of the test's own process."""
        text = """
import os

def test_it(datastore):
    for n in range(5):
        datastore.put(Key("Task", n + 1), n=n)
        datastore.put(Key("Other", n + 1), n=n)
        datastore.query("Task")
    for n in range(5):
        datastore.get(Key("Task", n + 1))

def test_time(datastore):
    print("took", sum(os.times()[:2]))
"""
        seconds = []
        for words in (("--datastore-schedules", "0"), ("--datastore-schedules", "50")):
            said, status = self.run_tests(text, "-s", *words)
            self.assertEqual(status, 0, said)
            seconds.append(float(said.split("took ")[1].split()[0]))
        self.assertLess(seconds[1] - seconds[0], 1.5)


if __name__ == "__main__":
    unittest.main()
