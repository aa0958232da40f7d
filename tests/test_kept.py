"""The server that keeps a file: what a later run finds, which files are damaged and how that is told, a file that another server has, disks that are full,
index files under which what is kept has too many rows, and what opening a large file costs.
"""
import contextlib
import json
import os
import random
import subprocess
import tempfile

from tests.case import SECONDS, SEED, TOP, WORDS, keeper
from tests.keeping import SETTLE, Kept, kept_text, put, read, request, sample, seconds_of

from kept_text import FIRST, THREE, WHOLE, batch, delete, kept, line

GET = request("get", key=[["T", "a"]])
MANY = ["--indexes", "index.yaml", *WORDS]
# Two lists of 150 values each have 22,500 rows here.
INDEX = "indexes:\n- kind: T\n  properties:\n  - name: a\n  - name: b\n"
LISTS = {"a": list(range(150)), "b": list(range(150))}
SECONDS_TO_OPEN = 6


class Kepts(Kept):
    def test_a_later_run_finds_what_was_committed(self):
        first = self.serve(put("a", v=1))
        self.expect("the first run", first.end, (0, b'{"client":0,"commit":1,"key":[["T","a"]],"line":1,"ok":"put"}\n', ""))
        second = self.serve(put("b") + GET)
        wanted = b'{"client":0,"commit":2,"key":[["T","b"]],"line":1,"ok":"put"}\n{"client":0,"entity":{"key":[["T","a"]],"properties":{"v":1}},"line":2,"ok":"get","place":2}\n'
        self.expect("the second run", second.end, (0, wanted, ""))
        commits, next_id, place, damaged = read(self.file.read_bytes())
        self.expect("the file", ([it.number for it in commits], next_id, damaged, self.file.stat().st_size), ([1, 2], FIRST, False, place + 1))

    def test_what_a_run_finds_is_committed_and_not_applied(self):
        self.serve(put("a", v=1) + SETTLE)
        found = self.serve(request("query", kind="T", select="keys") + SETTLE + request("query", kind="T", select="keys"))
        wanted = ('{"applied":[0],"client":0,"line":1,"ok":"query","results":[]}\n{"applied":[1],"client":0,"line":2,"ok":"settle","place":1}\n'
                  '{"applied":[1],"client":0,"line":3,"ok":"query","results":[[["T","a"]]]}\n')
        self.expect("queries before and behind a settle", found.end, (0, wanted.encode(), ""))

    def test_ids_go_on(self):
        """Ids are drawn behind those of earlier runs: of puts, of `allocate_ids`, of a transaction that was rolled back or left open, and of a run without a commit."""
        new, ids = request("put", entity={"key": [["N", None]], "properties": {}}), request("allocate_ids", count=1)
        begin = request("begin")
        firsts = []
        for text in (new, request("allocate_ids", count=10), begin + new + request("rollback"), begin + new, ids):
            ran = self.serve(text + b"\n" + ids)
            firsts.append(json.loads(ran.lines[-1])["first"] - FIRST)
        self.expect("the first id that is drawn last in each run", firsts, [1, 12, 14, 16, 18])
        commits, next_id, _, _ = read(self.file.read_bytes())
        self.expect("commits and counter", (len(commits), next_id), (1, FIRST + 19))

    def test_transactions_are_kept_as_they_were(self):
        text = put("a", n=1) + request("begin", xg=True) + GET + request("delete", key=[["U", 1]]) + put("b", kind="T") + request("commit") + request("begin") + request("commit")
        self.serve(text)
        commits = read(self.file.read_bytes())[0]
        self.expect("the second commit", (commits[1].touched, commits[1].writes), ([[[["T", "a"]], 1], [[["U", 1]], 1], [[["T", "b"]], 1]], [delete([["U", 1]]), kept_text.put([["T", "b"]])]))
        self.expect("one that touched and wrote nothing", (commits[2].touched, commits[2].writes), ([], []))
        again = self.serve(SETTLE)
        self.expect("places and entries of a run behind it", json.loads(again.output), {"applied": [3], "client": 0, "line": 1, "ok": "settle", "place": 3})

    def test_words(self):
        for words in ([], ["--kept"], ["--kept", ""], ["--kept", "-f"], ["--kept=f", *WORDS], [*WORDS, "--kept", "f"], ["--kept", "f", "--kept", "g"], ["--kept", "f", "--shards", "17"]):
            ran = subprocess.run([keeper(), *words], input=b"", capture_output=True, cwd=self.folder, timeout=SECONDS)
            self.expect(f"{words}", (ran.returncode, ran.stdout, ran.stderr, os.listdir(self.folder)), (1, b"", b"usage\n", []))

    def test_words_and_index_file_are_looked_at_first(self):
        content = b"\x01\x00"
        wrong = self.serve(SETTLE, MANY, content, index="x\n")
        self.expect("a damaged file and a wrong index file", (*wrong.end, self.file.read_bytes()), (2, b"", "index file: line 1", content))
        self.file.unlink()
        self.expect("no file and a wrong index file", (*self.serve(SETTLE, MANY, index="x\n").end, self.file.exists()), (2, b"", "index file: line 1", False))
        os.unlink(os.path.join(self.folder, "index.yaml"))
        self.expect("no index file", (*self.serve(SETTLE, MANY).end, self.file.exists()), (5, b"", "file fault", False))


class Damaged(Kept):
    def opens(self, what, content):
        """Opens a file of these bytes: it is damaged where the reader says so, and then unchanged, and has the commits and the counter that it says."""
        commits, next_id, place, damaged = read(content)
        ran = self.serve(SETTLE + b"\n" + request("allocate_ids", count=1) + b"\n", content=content)
        if damaged:
            self.expect(f"{what}: status, output, standard error, whether it is unchanged", (*ran.end, self.file.read_bytes() == content), (9, b"", f"damaged: {place}", True))
            return
        found = [json.loads(it) for it in ran.lines]
        self.expect(f"{what}: status, standard error, commits, the next id", (ran.status, ran.errors, *(it.get("place", it.get("first")) for it in found)), (0, "", len(commits), next_id))
        after = read(self.file.read_bytes())
        self.expect(f"{what}: what the file has afterwards", after[:2] + after[3:], (commits, next_id + 1, False))

    def test_files_without_a_batch(self):
        for content in (b"", b"\x00", b"\x01", b"\x01\x00", b"\x00\x01\x02", b"\x02"):
            self.opens(repr(content), content)

    def test_a_file_cut_at_each_byte(self):
        """Of a batch of three commits, alone and behind another."""
        front = batch([line(1, [])])
        behind = front + batch([it.replace(f'"commit":{n}', f'"commit":{n + 1}') for n, it in enumerate(THREE, 1)], FIRST + 1) + b"\x00"
        for name, content, first in (("three commits", WHOLE, 0), ("three commits behind another", behind, len(front))):
            for cut in range(first, len(content) + 1, sample(1, 40, 1)):
                self.opens(f"{name}, cut at {cut}", content[:cut])

    def test_lines_that_are_none(self):
        front = batch([])
        for what, text in kept_text.WRONG[:: sample(1, 8, 1)]:
            self.opens(what, kept(front, batch([text])))
        for what, text in kept_text.RIGHT:
            self.opens(what, kept(front, batch([text])))

    def test_random_bytes(self):
        print(f"seed {SEED}")
        draw = random.Random(SEED)
        for at in range(sample(60, 6, 2_000)):
            content = bytearray(WHOLE[:-1] + WHOLE[:-1] if at % 2 else draw.randbytes(draw.randrange(1, 100)))
            for _ in range(draw.randrange(1, 3)):
                content[draw.randrange(len(content))] = draw.choice((0, 1, 10, 34, draw.randrange(256)))
            self.opens(f"bytes {at}", bytes(content))

    def test_how_it_is_told(self):
        front = batch([line(1, [kept_text.put([["T", "a"]])])])
        content = front + batch([line(3, [])]) + b"\x00"
        self.file.write_bytes(content)
        ran = self.told(SETTLE)
        self.expect("status, output", (ran.status, ran.output), (9, b""))
        self.expect("standard error", ran.errors, f"damaged: {len(front)}\nrun: kept is damaged at byte {len(front)}, and unchanged: ./run --kept-journal kept prints the commits before that,"
                    f" and head -c {len(front) + 1} kept > kept.mended makes a file that keeps them")
        shown = subprocess.run([TOP / "run", "--kept-journal", "kept"], cwd=self.folder, capture_output=True, text=True)
        told = f"kept is damaged at byte {len(front)}, and what stands there can't be read: head -c {len(front) + 1} kept > kept.mended makes a file that keeps what is printed here\n"
        self.expect("what ./run --kept-journal prints", (shown.returncode, shown.stdout, shown.stderr), (9, line(1, [kept_text.put([["T", "a"]])]) + "\n", told))
        self.file.write_bytes(content[:len(front) + 1])
        ran = self.told(SETTLE)
        self.expect("the file that head makes", (ran.status, json.loads(ran.output)["place"], ran.errors), (0, 1, "kept: 1 commit and 1 entity were found"))
        self.expect("a file that isn't there", subprocess.run([TOP / "run", "--kept-journal", "none"], cwd=self.folder, capture_output=True, text=True).returncode, 95)


class Disks(Kept):
    def test_two_servers_on_one_file(self):
        with self.begin() as first:
            first.stdin.write(put("a") + b"\n")
            first.stdin.flush()
            first.stdout.readline()
            before = self.file.read_bytes()
            second = self.told(put("b"))
            self.expect("status and output of the second", (second.status, second.output), (8, b""))
            self.expect("whether it is told", second.errors.endswith("run: kept is in use by another server: end that one, or give this one a file of its own"), True)
            self.expect("the line before", second.errors.splitlines()[-2], "disk fault")
            self.expect("the file", self.file.read_bytes(), before)
            first.stdin.close()
            self.expect("the first one's end", (first.wait(SECONDS), first.stderr.read()), (0, b""))
        self.expect("a server behind it", self.serve(put("b")).status, 0)

    def test_what_is_no_file(self):
        for name in (".", "none/kept", "/dev/null", "kept/kept"):
            self.file.write_bytes(b"")
            ran = subprocess.run([keeper(), "--kept", name, *WORDS], input=SETTLE, capture_output=True, cwd=self.folder, timeout=SECONDS)
            self.expect(f"{name}: status, output, standard error's last line", (ran.returncode, ran.stdout, ran.stderr.splitlines()[-1:]), (8, b"", [b"disk fault"]))

    def test_a_full_disk(self):
        """A file system of its own with few pages, where one may be mounted: what was answered is found by a later run, which goes on once there is room."""
        script = 'mount -t tmpfs -o size=64k tmpfs "$1" || exit 77; cd "$1"; shift; "$@" >&3; status=$?; cat kept >&4; exit $status'
        lines = b"".join(put(n, n="x" * 500) + b"\n" for n in range(1, 201))
        with tempfile.TemporaryDirectory() as folder, tempfile.TemporaryFile() as output, tempfile.TemporaryFile() as file:
            process = subprocess.Popen(["unshare", "-rm", "bash", "-c", script, "full", folder, keeper(), "--kept", "kept", *WORDS], stdin=subprocess.PIPE, stdout=subprocess.DEVNULL,
                                      stderr=subprocess.PIPE, preexec_fn=lambda: (os.dup2(output.fileno(), 103), os.dup2(file.fileno(), 104), os.dup2(103, 3), os.dup2(104, 4)), pass_fds=(3, 4))
            with contextlib.suppress(OSError):
                process.stdin.write(lines)
            with contextlib.suppress(OSError):
                process.stdin.close()
            status = process.wait(SECONDS)
            errors = process.stderr.read().decode()
            process.stderr.close()
            if status == 77 or status == 1 and "unshare" in errors:
                self.skipTest("no file system can be mounted here")
            output.seek(0)
            file.seek(0)
            replies, content = output.read(), file.read()
        answered = replies.count(b"\n")
        self.expect("status, and standard error's last line", (status, errors.splitlines()[-1:]), (8, ["disk fault"]))
        self.expect(f"whether some of 200 puts are answered, {answered}, and some not", 20 < answered < 200, True)
        commits, _, _, damaged = read(content)
        self.expect(f"whether {len(commits)} commits are kept of {answered} that were answered", (damaged, len(commits) in (answered, answered + 1)), (False, True))
        again = self.serve(SETTLE, content=content)
        self.expect("a later run", (again.status, json.loads(again.output)["place"]), (0, len(commits)))

    def test_an_index_file_with_too_many_rows(self):
        text = put("a", a=[1, 2], b=[1, 2]) + put("b", **LISTS) + put("b", **LISTS)
        self.expect("a run without an index file", self.serve(text).status, 0)
        content = self.file.read_bytes()
        ran = self.serve(SETTLE, MANY, index=INDEX)
        self.expect("one with it", ran.end, (10, b"", "too many rows: commit 2"))
        self.expect("whether what is kept is the same", read(self.file.read_bytes()), read(content))
        told = self.told(SETTLE, MANY)
        self.expect("how it is told", told.errors.splitlines()[1:], ["too many rows: commit 2", "run: commit 2 of kept puts an entity that has more than 20,000 index rows under this index file:"
                    " serve it with the index file under which it was put, or take definitions of its kind out of this one"])
        self.expect("one without it again", self.serve(SETTLE).status, 0)


class Costs(Kept):
    def test_opening_a_large_file(self):
        """200,000 commits, some 40 MB; of which nothing is applied by what is asked."""
        count = sample(200_000, 2_000, 200_000)
        lines = [line(n, [kept_text.put([["Task", n % 50_000 + 1]], done=False, n=n, title="x" * 80)]) for n in range(1, count + 1)]
        content = kept(*(batch(lines[at:at + 20]) for at in range(0, count, 20)))
        ran, seconds = seconds_of(lambda: self.serve(request("begin") + put("a"), content=content))
        self.expect("status, place", (ran.status, json.loads(ran.lines[-1])["place"]), (0, count))
        print(f"{count} commits, {len(content) // 1_000_000} MB: {seconds:.1f} seconds of a processor")
        if count == 200_000:
            self.expect(f"whether {seconds:.1f} seconds of a processor are at most {SECONDS_TO_OPEN}", seconds <= SECONDS_TO_OPEN, True)
