"""The guestbook and the forums as they are written first: each of their tests fails, for its reason. The mended ones' tests stand in examples."""
import os
import re
import subprocess
import sys

from tests.case import EXAMPLES, Case, server

# The file of tests, the variable that names the application, the one that is written first, and the reason of each test.
FIRST = [
    ("app/test_guestbook.py", "GUESTBOOK", "first_guestbook", "Guestbook", {
        "test_the_index_file_serves_the_queries": "MissingIndex", "test_a_new_greeting_is_shown_at_once": r"\[\] != \[\('bob'",
        "test_two_who_sign_at_once_are_both_counted": "2 != 3"}),
    *((f"forum/test_{form}_forum.py", "FORUM", f"first_{form}_forum", "Forum", {
        "test_the_index_file_serves_the_queries": "MissingIndex|NeedIndexError|no matching index", "test_a_new_post_is_listed_at_once": r"\[\] != \[",
        "test_two_who_write_at_once_are_both_counted": "1 != 2"}) for form in ("ndb", "cloud")),
]


class First(Case):
    def test_each_fails_for_its_reason(self):
        for file, variable, application, name, reasons in FIRST:
            tests = set(re.findall(r"^    def (test_\w+)", (EXAMPLES / file).read_text(encoding="utf-8"), re.M))
            self.expect(f"the tests of {file}", tests, set(reasons))
            for test, reason in reasons.items():
                environment = {**os.environ, "TORFYLLAN": server(), variable: application, "PYTHONDONTWRITEBYTECODE": "1"}
                ran = subprocess.run([sys.executable, EXAMPLES / file, f"{name}.{test}"], env=environment, capture_output=True, text=True)
                found = ran.returncode == 1 and re.search(reason, ran.stderr) is not None
                self.expect(f"whether {application} fails {test} by {reason}\n{ran.stderr[-1500:]}", found, True)
