"""What tools/faults says of programs that do right, and that do wrong, where something is refused."""
import unittest
from unittest import mock

from cases import examples_of
from failing import limits, refusals, runs
from failing.tally import Tally
from .programs import ANSWERING, ANSWERING_MANY, Programs


class Refusals(Programs):
    def tally(self, kind, flaw=""):
        bench, total = self.bench(self.program(ANSWERING, flaw)), Tally()
        for job, *given in refusals.jobs(bench.tried, kind, [self.case()]):
            total.add(job(bench.tried, *given))
        return total

    def ends(self, kind, flaw=""):
        """How many ended how, over all rows, and how many wrong."""
        tally = self.tally(kind, flaw)
        return {end: count for ends in tally.rows.values() for end, count in ends.items()}, tally.counts()

    def test_memory(self):
        self.assertEqual(self.ends("memory"), ({"right answers": 1, "`fault 90`": 2}, (3, 0)))
        for flaw in ("crashes", "goes on", "wrong line"):
            self.assertEqual(self.ends("memory", flaw)[1], (1, 2))
        self.assertEqual(self.ends("memory", "tells before")[1], (0, 3))

    def test_what_ends_wrong_is_told_so_that_it_can_be_made_again(self):
        lines = list(self.tally("memory", "goes on").lines())
        self.assertEqual(lines, [
            "memory: small/show: 1 right answers, 2 wrong",
            r"  REFUSE=memory REFUSE_FIRST=1 REFUSE_LAST=1, 1 refused: status 0, wrote 'another\n'",
            r"  REFUSE=memory REFUSE_FIRST=1, 1 refused: status 0, wrote 'another\n'"])
        line, = [line for line in self.tally("memory", "crashes").lines() if "LAST" in line]
        self.assertIn("status -11", line)

    def test_reads(self):
        # 2 of the file as it is read, and 11 of an octet at a time: alone, and with those that follow.
        self.assertEqual(self.ends("read")[1], (1 + 2 * 2 + 1 + 2 * 11, 0))
        self.assertEqual(self.ends("read", "reads on")[1], (2, 2 * 2 + 2 * 11))

    def test_writes(self):
        # The text has 11 octets; and there are a full disk and a closed stream.
        self.assertEqual(self.ends("write")[1], (1 + 2 + 1 + 2 * 11 + 2, 0))
        self.assertEqual(self.ends("write", "writes on")[1], (2, 2 + 2 * 11 + 2))

    def many(self):
        """A case of two questions, the first of which is refused."""
        folder = self.room / "many"
        folder.mkdir(exist_ok=True)
        files = {"commands": b"7 check --questions questions\n", "questions": b". 43\na. 1\n",
                 "check.stdout": b"refused 701 . 43\nSecureAnswer a. 1\nrrset 1 signature 1\n"}
        for name, octets in files.items():
            (folder / name).write_bytes(octets)
        example, = examples_of(folder)
        return runs.Case(example)

    def test_memory_of_many_questions(self):
        """A whole text may stand before the fault, and no half of one."""
        case = self.many()
        self.assertEqual(case.firsts, {b"refused 701 . 43\n"})
        self.assertEqual(self.case().firsts, set())
        for flaw, ends in (("no half", {"`fault 90`": 2, "`fault 90` behind the first texts": 2, "right answers": 1}),
                           ("tells a half", {"`fault 90`": 2, "right answers": 1})):
            bench, tally = self.bench(self.program(ANSWERING_MANY, flaw)), Tally()
            for job, *given in refusals.jobs(bench.tried, "memory", [case]):
                tally.add(job(bench.tried, *given))
            self.assertEqual(tally.rows["memory: many/check"], ends, flaw)
            self.assertEqual(tally.counts(), (sum(ends.values()), 5 - sum(ends.values())))

    def test_a_run_without_end_is_ended(self):
        tried = self.script("exec sleep 60\n")
        with mock.patch.object(runs, "SECONDS", 0.1), runs.Bench(tried) as bench:
            self.assertEqual(bench.answer([]).status, -9)


class Limits(Programs):
    def tally(self, text):
        tally = Tally()
        with mock.patch.multiple(limits, LEAST=16384, STEP=1024, BEYOND=4096):
            for job, *given in limits.jobs(self.script(text), [self.case()]):
                tally.add(job(self.script(text), *given))
        return tally

    def answering(self, below):
        """A script that does this where the limit is below 32768."""
        return f'[ "$(ulimit -v)" -ge 32768 ] || {{ {below}; }}\necho "the answer"\n'

    def test_each_limit_is_tried(self):
        tally = self.tally(self.answering("echo fault 90 >&2; exit 1"))
        self.assertEqual(tally.rows["limits: small/show"], {"`fault 90`": 16, "right answers": 5})
        self.assertEqual(tally.counts(), (22, 0))

    def test_what_the_loader_refuses_is_told_apart(self):
        for text in ("./it: error while loading shared libraries: libc.so.6",
                     "cannot allocate TLS data structures for initial thread"):
            told = f"echo {text} >&2; exit 127"
            self.assertEqual(self.tally(self.answering(told)).counts(), (22, 0), text)
        self.assertEqual(self.tally(self.answering("echo no >&2; exit 127")).counts()[1], 16)
        first = 'if [ "$(ulimit -v)" -lt 20000 ]; then echo fault 90 >&2; exit 1; fi'
        self.assertEqual(self.tally(self.answering(f"{first}; kill -SEGV $$")).counts()[1], 12)


if __name__ == "__main__":
    unittest.main()
