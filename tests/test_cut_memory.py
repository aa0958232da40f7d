"""A reindexer that is refused memory, one call after the other, before, at and behind the change of its index file; and one that can't start threads.

A run ends with status 0, or with 6 and `no memory` behind whole rounds, and what was answered is legal. Appliers, and what feeds the second store, that
can't have threads of their own leave the run legal and whole, and without appliers its replies as they are.
"""
import json
import pathlib
import random
import tempfile

import tests.auditing  # noqa: F401, for the path of the judgements
from tests.case import EXAMPLES, SEED, WHOLE, auditor, reindexer
from tests.refusing import Refusing

import cut
import twice

FOLDER = EXAMPLES / "reindex"
IS_SLOW = reindexer().endswith(".unproved")
CALLS = 12 if IS_SLOW else 60


class Memory(Refusing):
    def test_one_call_after_the_other(self):
        draw, told, ended = random.Random(SEED), 0, {0: 0, 6: 0}
        for name in ("an_index_is_added", "transactions_go_on"):
            lines, words = self.example(name)
            for appliers in ("0", "3"):
                given = [appliers if before == "--appliers" else word for before, word in zip(["", *words], words)]
                whole = self.run_refused(lines, given, of=reindexer())
                self.expect(f"{name}: without refusals", (whole.status, whole.errors, whole.counts["refused"]), (0, "", 0))
                calls = [(call, behind) for call in range(1, whole.counts["memory"] + 1) for behind in ("", "..")]
                for call, behind in calls if WHOLE else draw.sample(calls, min(CALLS // 4, len(calls))):
                    ran = self.run_refused(lines, given, of=reindexer(), memory=f"{call}{behind}")
                    what = f"{name}, {appliers} appliers, refused from call {call} of {whole.counts['memory']}{behind}"
                    self.expect(f"{what}: status and standard error", (ran.status, ran.errors), (6, "no memory") if ran.status == 6 else (0, ""))
                    ended[ran.status] = ended.get(ran.status, 0) + 1
                    told += ran.output.count(b'"NoMemory"')
                    self.judge(what, lines, ran, given)
        self.expect("whether runs ended in both ways and some reply told of a refusal", (ended[0] > 0, ended[6] > 0, told > 0), (True, True, True))
        print(f"runs by their status: {json.dumps(ended)}; {told} replies 24")

    def test_threads_that_do_not_start(self):
        """The starts of threads are refused, one after the other, and all of them."""
        for name in ("an_index_is_added", "transactions_go_on"):
            lines, words = self.example(name)
            for appliers in ("0", "3"):
                given = [appliers if before == "--appliers" else word for before, word in zip(["", *words], words)]
                starts = self.run_refused(lines, given, of=reindexer()).counts["threads"]
                self.expect(f"{name}, {appliers} appliers: whether each of them has a thread", starts >= int(appliers), True)
                for at in ("1..", *map(str, range(1, starts + 1)))[: starts + 1 if starts else 0]:
                    ran = self.run_refused(lines, given, of=reindexer(), threads=at)
                    what = f"{name}, {appliers} appliers, start {at} of {starts} refused"
                    self.expect(f"{what}: status, standard error, whether one was refused", (ran.status, ran.errors, ran.counts["refused"] > 0), (0, "", True))
                    self.judge(what, lines, ran, given)
                    if appliers == "0":
                        self.expect(f"{what}: the replies", ran.output, (FOLDER / f"{name}.expected").read_bytes())

    def example(self, name):
        """The lines and the words of an example, whose index files are put into the folder."""
        for file in ("index.yaml", "next.yaml"):
            pathlib.Path(self.folder, file).write_bytes((FOLDER / f"{name}.{file}").read_bytes())
        return (FOLDER / f"{name}.jsonl").read_bytes(), (FOLDER / f"{name}.words").read_text(encoding="utf-8").split()

    def judge(self, what, lines, ran, words):
        """Judges the rounds that were answered; where the run has ended early they are whole ones."""
        count, asked = len(ran.lines), lines.split(b"\n")
        ends = [(cut.first_rounds(asked, rounds) or (len(asked), sum(bool(it.strip()) for it in asked))) for rounds in range(1, 13)]
        end = next((end for end, answered in ends if answered == count), 0)
        self.expect(f"{what}: whether {count} replies are those of whole rounds", count == 0 or end > 0, True)
        self.expect(f"{what}: whether all was answered", ran.status == 6 or end == len(asked), True)
        if count:
            with tempfile.TemporaryDirectory() as folder:
                names = [pathlib.Path(folder, name) for name in ("lines", "replies")]
                for name, content in zip(names, (b"\n".join(asked[:end]), ran.output)):
                    name.write_bytes(content)
                first, second = (str(pathlib.Path(self.folder, name)) for name in ("index.yaml", "next.yaml"))
                self.expect(f"{what}: the verdict", twice.judged(auditor(), *map(str, names), ["--indexes", first, *words[6:]], second, int(words[3])), (0, "legal\n"))
