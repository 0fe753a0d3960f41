"""Tests of tools/judge --resume: rows that an earlier run wrote are taken, and the others are as without it."""
import json
import random
import shutil
import subprocess
import unittest

from dnssec_check_tools.judging import text
from dnssec_check_tools.resuming import rows

from .helper import ANCHORS, JUDGE, NOON, Judging, capture_of, needs_dns

QUESTIONS = ("www.bind.test/A", "nosuch.bind.test/A")
ODD = ("plain.cap", "a\tb;echo X;.cap", "octet\udcff\x1b.cap", "z'é.cap")


@needs_dns
class Resume(Judging):
    def setUp(self):
        super().setUp()
        if self.room in self.program.parents:
            self.skipTest("the double knows no such questions")
        self.captures = self.room / "captures"
        self.captures.mkdir()
        for name, source in zip(ODD, ("bind-www-a", "bind-nosuch", "bind-www-a", "roll-gone")):
            shutil.copy(capture_of(source), self.captures / name)
        self.table = self.room / "table"

    def told(self, *words, at=("--at", NOON), program=None):
        """The status, the octets that are printed, and the errors."""
        command = [*JUDGE, "--program", program or self.program, "--anchors", ANCHORS, *at, *words]
        done = subprocess.run([str(word) for word in command], capture_output=True, check=False)
        return done.returncode, done.stdout, done.stderr.decode()

    def resumed(self, *words, **named):
        return self.told("--resume", self.table, *words, **named)

    def test_wherever_the_table_was_cut_off_the_same_comes_out(self):
        for form, has_all in (("--tsv", True), ("--jsonl", False)):
            words = (form, self.captures, *QUESTIONS)
            whole = self.told(*words)
            self.assertEqual((whole[0], whole[2]), (5, ""))
            ends = [place + 1 for place, octet in enumerate(whole[1]) if octet == 10]
            cuts = (0, 30, ends[0], ends[1] - 1, ends[2], ends[3] + 40, len(whole[1]) - 1, len(whole[1]))
            for cut in cuts if has_all else cuts[-3:-1]:
                self.table.write_bytes(whole[1][:cut])
                with self.subTest(f"{form} {cut}"):
                    self.assertEqual(self.resumed(*words), whole)

    def test_what_is_whole_is_not_judged_again(self):
        words = ("--tsv", self.captures, *QUESTIONS)
        status, output, _ = self.told(*words)
        self.table.write_bytes(output)
        begun = self.room / "begun"
        self.assertEqual(self.resumed(*words, program=self.stand_in(f"touch {begun}")), (status, output, ""))
        self.assertFalse(begun.exists())
        self.table.write_bytes(output[:-1])
        again = self.resumed(*words, program="/bin/false")
        self.assertEqual((again[0], again[1].count(b"\tfault\t"), again[1].splitlines()[:-2]), (1, 2, output.splitlines()[:-2]))

    def test_what_failed_is_judged_again(self):
        words = ("--tsv", self.captures, *QUESTIONS)
        status, failed, _ = self.told(*words, program="/bin/false")
        self.assertEqual((status, failed.count(b"\tfault\t")), (1, 8))
        self.table.write_bytes(failed)
        self.assertEqual(self.resumed(*words), self.told(*words))

    def test_other_questions_and_moments_are_judged(self):
        self.table.write_bytes(self.told("--tsv", self.captures, *QUESTIONS)[1])
        for words, at in (((QUESTIONS[0],), NOON), (QUESTIONS[::-1], NOON), (QUESTIONS, "1795348801")):
            words = ("--tsv", self.captures, *words)
            with self.subTest(words):
                self.assertEqual(self.resumed(*words, at=("--at", at)), self.told(*words, at=("--at", at)))

    def test_the_moments_are_those_of_the_table(self):
        words = ("--tsv", self.captures, *QUESTIONS)
        whole = self.told(*words, at=("--at", "1795348801", "--at", NOON))
        self.table.write_bytes(b"".join(whole[1].splitlines(True)[:7]))
        self.assertEqual(self.resumed(*words, at=()), whole)

    def test_of_all_that_captures_have_the_last_is_judged_again(self):
        words = ("--tsv", "--every", self.captures)
        status, output, _ = self.told(*words)
        first = [line for line in output.splitlines(True)[1:] if line.startswith(output.splitlines()[1].split(b"\t")[0] + b"\t")]
        for lines in (output.splitlines(True)[: len(first)], output.splitlines(True)[: len(first) + 2]):
            self.table.write_bytes(b"".join(lines))
            self.assertEqual(self.resumed(*words), (status, output, ""))

    def test_what_is_no_such_table_is_refused(self):
        lines = self.told("--tsv", self.captures, *QUESTIONS)[1].splitlines(True)
        for octets, said in ((b"capture\tname\n", f"{self.table} is no table of --tsv: its first line has other columns"),
                             (b"".join([*lines[:2], b"x\n", *lines[2:]]), f"line 3 of {self.table} is no row of --tsv"),
                             (b"".join([*lines[:2], lines[2].replace(NOON.encode(), b"noon")]), f"line 3 of {self.table} is no row of --tsv")):
            self.table.write_bytes(octets)
            self.assertEqual(self.resumed("--tsv", self.captures, *QUESTIONS), (7, b"", f"judge: refused: {said}\n"))
        for line in (b"[]\n", b"{}\n", b"1\n", lines[0], b'{"capture": "a"}\n', b"[" * 100000 + b"\n"):
            self.table.write_bytes(line)
            told = self.resumed("--jsonl", self.captures, *QUESTIONS)
            self.assertEqual(told, (7, b"", f"judge: refused: line 1 of {self.table} is no row of --jsonl\n"))

    def test_with_what_it_goes(self):
        self.table.write_bytes(b"")
        for words, said in (((), "--resume goes with --tsv or --jsonl"), (("--tsv", "--zone"), "--resume goes without --zone"),
                            (("--tsv", "--html", self.room / "page"), "--resume goes without"), (("--tsv", "--resume", "x"), "--resume is given twice")):
            status, output, errors = self.resumed(*words, self.captures)
            self.assertEqual((status, output), (2, b""))
            self.assertIn(said, errors)
        self.table.unlink()
        for path in (self.table, self.captures, "-"):
            status, _, errors = self.told("--tsv", "--resume", path, self.captures, *QUESTIONS)
            self.assertEqual((status, f"--resume: {path} is no file" in errors), (2, True), errors)

    def test_the_table_is_not_written_over(self):
        self.table.write_bytes(b"")
        command = [*JUDGE, "--program", self.program, "--tsv", "--resume", self.table, self.captures, *QUESTIONS]
        with open(self.table, "ab") as file:
            done = subprocess.run([str(word) for word in command], stdout=file, stderr=subprocess.PIPE, check=False)
        self.assertEqual((done.returncode, self.table.read_bytes()), (2, b""))
        self.assertIn(f"the standard output is {self.table}, which is read, and would be written", done.stderr.decode())


@needs_dns
class Rows(unittest.TestCase):
    """What is read of a line, whatever is in it."""

    VALUES = ("a.cap", 7, "b.", "A", 0, "SecureAnswer", {}, None, None, None, [], None)
    TSV = b"a.cap\t7\tb.\tA\t0\tSecureAnswer\t\t\t\t\t\t"

    def test_a_row(self):
        row = rows.Written("a.cap", 7, "b.", "A", 0)
        line = json.dumps(dict(zip(text.COLUMNS, self.VALUES))).encode()
        self.assertEqual((rows.of_tsv(self.TSV), rows.of_json(line)), (row, row))
        whole = line.replace(b'"b."', b"null").replace(b'"A"', b"null")
        self.assertEqual(rows.of_json(whole), row._replace(name="", kind=""))

    def test_what_is_none(self):
        for old, new in ((b"7", b"x"), (b"\t0", b"\t9"), (b"b.", b"b\x1b."), (b"b.", b"b\xff."), (b"\t\t", b"\t"), (b"A", b"A\t")):
            self.assertIsNone(rows.of_tsv(self.TSV.replace(old, new, 1)), new)
        for place, new in ((0, 1), (1, "7"), (1, None), (2, ["b."]), (3, 1), (4, 9), (4, "0"), (4, 1.5)):
            values = [*self.VALUES[:place], new, *self.VALUES[place + 1 :]]
            self.assertIsNone(rows.of_json(json.dumps(dict(zip(text.COLUMNS, values))).encode()), (place, new))
        line = json.dumps(dict(zip(text.COLUMNS, self.VALUES)))
        for other in (line.replace("b.", "b\x7f"), line.replace("b.", "bü"), json.dumps(dict(zip(text.COLUMNS[::-1], self.VALUES)))):
            self.assertIsNone(rows.of_json(other.encode()), other)

    def test_any_octets(self):
        """Seeded, so that what fails is found again."""
        source = random.Random(7)
        for line in (self.TSV, json.dumps(dict(zip(text.COLUMNS, self.VALUES))).encode()):
            for _ in range(2000):
                octets = bytearray(line)
                for _ in range(source.randrange(1, 4)):
                    octets[source.randrange(len(octets))] = source.choice(b'\t\n"{}[],:\\\x00\xff0a')
                for read in (rows.of_tsv, rows.of_json):
                    self.assertIsInstance(read(bytes(octets)), (rows.Written, type(None)))


if __name__ == "__main__":
    unittest.main()
