"""When `run` builds, in a small repository with a kit that only pretends to prove: proved programs, unproved ones, failures, and an interrupt.

    ./test tests.test_builds
"""
import os
import shutil
import signal
import subprocess
import time

from tests.pretending import Runs


class Builds(Runs):
    def test_it_proves_once(self):
        errors = self.prove()
        self.assertIn("building the server: 2 crates are proved", errors)
        self.assertIn("ds_low proved (1 of 2); ", errors)
        self.assertIn(" left\n", errors)
        self.assertTrue(errors.splitlines()[-1].endswith("it is in use from now on"), errors)
        # A copy is proved of what the server stands on, without mutants and what was built.
        self.assertEqual(self.calls(), ["ci", "proves ds_low", "proves ds_server"])
        self.assertEqual(self.run_with(), ("proved --shards 1 --appliers 0", 0, ""))
        self.assertEqual(self.prove(), "the server is proved, and in use\n")
        (self.kit / "calls").write_text("")
        self.run_with()
        self.assertEqual((self.kit / "calls").read_text(), "", "a start asks nothing of the kit")

    def test_a_proved_program_is_preferred(self):
        self.run_with()
        self.prove()
        self.assertEqual(self.run_with(), ("proved --shards 1 --appliers 0", 0, ""))
        self.assertEqual(self.run_with("--unproved")[0], "unproved --shards 1 --appliers 0")

    def test_each_change_is_seen(self):
        self.prove()
        low, proved = self.top / "crates" / "ds_low", self.top / "crates" / "ds_server" / "out" / "ds_server"
        source = low / "src" / "lib.rt"

        def keep_time():
            # Another text of the same length, with the time of change of before, as some tools leave it.
            before = source.stat()
            source.write_text("fn two() {}\n")
            os.utime(source, ns=(before.st_atime_ns, before.st_mtime_ns))

        def replace():
            (low / "other").write_text("fn six() {}\n")
            os.utime(low / "other", (1, 1))
            os.replace(low / "other", source)

        def another_kit():
            (self.kit / "KIT-ID").write_text("a kit 2\n")
            os.utime(self.kit / "KIT-ID", (5, 5))

        def add_proof():
            (low / "proofs").mkdir()
            (low / "proofs" / "One.antt").write_text("x")

        changes = [
            keep_time,
            replace,
            lambda: (low / "src" / "more.rt").write_text("x"),
            lambda: (low / "src" / "more.rt").rename(low / "src" / "again.rt"),
            lambda: (low / "src" / "again.rt").unlink(),
            add_proof,
            another_kit,
            lambda: proved.unlink(),
            lambda: (self.top / "crates.txt").write_text("ds_low:\nds_other:\nds_server: ds_low ds_other\nds_audit: ds_low\nds_fill: ds_low\n"),
        ]
        for change in changes:
            self.calls()
            change()
            self.assertEqual(self.run_with()[:2], ("unproved --shards 1 --appliers 0", 0))
            if not proved.exists():
                self.prove()
            self.build("--note")
            self.assertEqual(self.run_with(), ("proved --shards 1 --appliers 0", 0, ""), change)

    def test_what_changes_nothing_builds_nothing(self):
        self.prove()
        self.calls()
        source = self.top / "crates" / "ds_low" / "src" / "lib.rt"
        for change in (source.touch, lambda: source.write_text(source.read_text()), lambda: (self.top / "crates" / "ds_other" / "src" / "lib.rt").write_text("x")):
            change()
            self.assertEqual(self.run_with(), ("proved --shards 1 --appliers 0", 0, ""))
            self.assertEqual(self.calls(), [])
        moved = self.top.parent / "moved"
        shutil.copytree(self.top, moved)
        self.top = moved
        self.assertEqual(self.run_with(), ("proved --shards 1 --appliers 0", 0, ""), "a copy of the checkout is built")

    def test_without_a_kit_what_is_built_is_served(self):
        self.prove()
        bare = self.path_without("rt")
        self.assertEqual(self.run_with(PATH=bare), ("proved --shards 1 --appliers 0", 0, ""))
        (self.top / "crates/ds_low/src/lib.rt").touch()
        self.assertEqual(self.run_with(PATH=bare), ("proved --shards 1 --appliers 0", 0, ""))

    def test_a_note_is_taken_for_a_build(self):
        out = self.top / "crates" / "ds_server" / "out"
        out.mkdir()
        (out / "ds_server").write_text("#!/bin/bash\necho noted\n")
        (out / "ds_server").chmod(0o755)
        self.assertEqual((self.build("--check"), self.build("--note"), self.build("--check")), (1, 0, 0))
        self.assertEqual(self.run_with(), ("noted", 0, ""))
        self.assertEqual(self.calls(), [])

    def test_a_failure_says_what_failed(self):
        out, status, errors = self.run_with("--prove", KIT_FAILS="ds_low")
        self.assertEqual((out, status), ("", 99))
        self.assertIn("ds_low NOT PROVED\n== ds_low\nno proof of it\n", errors)
        self.assertIn("ds_server: not built", errors)

    def path_without(self, *names):
        """A PATH with the usual programs but for these."""
        folder = self.top.parent / "-".join(names)
        folder.mkdir()
        for name in ("bash", "env", "readlink", "stat", "find", "sed", "cat", "git", "setsid", "python3", "rt", "dirname", "id"):
            found = shutil.which(name, path=self.environment["PATH"])
            if found and name not in names:
                (folder / name).symlink_to(found)
        return str(folder)

    def test_what_is_wanting_is_one_sentence(self):
        out, status, errors = self.run_with(PATH=self.path_without("rt"))
        self.assertEqual((out, status, errors.count("\n")), ("", 96, 1), errors)
        self.assertIn("put its `rt` on PATH", errors)
        out, status, errors = self.run_with(PATH=self.path_without("python3"))
        self.assertEqual((out, status, errors.count("\n")), ("", 98, 1), errors)
        self.assertIn("Python 3.9 or later", errors)
        old = self.top.parent / "old"
        old.mkdir()
        (old / "python3").write_text("#!/bin/bash\nexit 1\n")
        (old / "python3").chmod(0o755)
        self.assertEqual(self.run_with(PATH=f"{old}:{self.environment['PATH']}")[1], 98)

    def test_a_checkout_that_cannot_be_written(self):
        crate = self.top / "crates" / "ds_server"
        (crate / "out").write_text("in the way, as a folder that can't be written is")
        out, status, errors = self.run_with()
        self.assertEqual((out, status, errors.count("\n")), ("", 97, 1), errors)
        self.assertIn("can't be written", errors)

    def test_a_copy_that_cannot_be_made(self):
        (self.top / "HANDLES").unlink()
        out, status, errors = self.run_with("--prove")
        self.assertEqual((out, status), ("", 97), errors)
        self.assertIn("the crates can't be copied to", errors)

    def test_an_interrupt_ends_a_build_quietly(self):
        slow, pipe = {**self.environment, "KIT_WAITS_FOR": str(self.top / "nothing")}, subprocess.PIPE
        started = subprocess.Popen([self.top / "run", "--prove"], env=slow, stdin=pipe, stdout=pipe, stderr=pipe, text=True, start_new_session=True)
        while not (self.kit / "calls").exists() or "ci" not in (self.kit / "calls").read_text():
            time.sleep(0.05)
        os.killpg(started.pid, signal.SIGINT)
        _, errors = started.communicate(timeout=60)
        self.assertNotIn("Traceback", errors.replace("KeyboardInterrupt", ""))
        self.assertIn(started.returncode, (130, -signal.SIGINT))


class Unproved(Runs):
    TOLD = "nothing is proved of this build of the server, which is some 150 times slower; ./run --prove makes the proved one, in about "

    def test_a_start_answers_at_once(self):
        out, status, errors = self.run_with()
        self.assertEqual((out, status), ("unproved --shards 1 --appliers 0", 0), errors)
        self.assertEqual([call.split()[0] for call in self.calls()], ["try"])
        self.assertIn(self.TOLD, errors)
        out, status, errors = self.run_with("--shards", "3")
        self.assertEqual((out, status, errors.count("\n")), ("unproved --shards 3 --appliers 0", 0, 1), errors)
        self.assertTrue(errors.startswith(self.TOLD), errors)
        self.assertEqual(self.calls(), [])

    def test_the_program_of_the_trial_is_kept(self):
        self.run_with()
        self.calls()
        out_folder = self.top / "crates/ds_server/out"
        self.assertEqual([path.name for path in out_folder.iterdir() if "trial" in path.name], [])
        (out_folder / "trial" / "left").mkdir(parents=True)
        (self.top / "crates/ds_low/src/lib.rt").write_text("fn new() {}\n")
        self.run_with()
        self.assertEqual([call.split()[0] for call in self.calls()], ["try"])

    def test_a_start_answers_while_another_proves(self):
        slow = {**self.environment, "KIT_WAITS_FOR": str(self.top / "go")}

        def proving():
            started = subprocess.Popen([self.top / "run", "--prove"], env=slow, stdin=subprocess.DEVNULL, stderr=subprocess.PIPE, text=True)
            self.addCleanup(started.stderr.close)
            return started

        first = proving()
        while "ci" not in self.calls_so_far():
            time.sleep(0.05)
        self.assertEqual(self.run_with()[0], "unproved --shards 1 --appliers 0")
        # A second one that is to prove waits, and tells how far it is.
        second = proving()
        self.assertIn("another build of this repository is under way", second.stderr.readline())
        (self.top / "go").touch()
        self.assertEqual((first.wait(60), second.wait(60)), (0, 0))
        self.assertEqual(self.run_with(), ("proved --shards 1 --appliers 0", 0, ""))
        self.assertEqual(self.calls().count("ci"), 1)

    def calls_so_far(self):
        notes = self.kit / "calls"
        return notes.read_text().splitlines() if notes.exists() else []

    def test_a_trial_that_builds_nothing(self):
        (self.kit / "bin" / "rt").write_text("#!/bin/bash\n[[ $1 == version ]] && echo kit && exit\necho 'error: no such name'\nexit 1\n")
        out, status, errors = self.run_with()
        self.assertEqual((out, status), ("", 99))
        self.assertIn("ds_server: not built\nerror: no such name", errors)
