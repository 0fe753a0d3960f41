"""Tests of what is odd over captures of real signers: each kind is shown by one, and by one that just isn't odd not."""
import json
import unittest

from dnssec_check_tools.odd.kinds import kinds
from tool import PROGRAM, run

from .helper import CAPTURES, moment_of_captures

BESIDE, GAP = "not-", "chain-gap"


def judged(*words):
    given = ("--program", PROGRAM, "--anchors", CAPTURES / "anchor", "--at", moment_of_captures())
    status, output, errors = run("judge", *given, *words)
    return status, output.decode().splitlines(), errors


@unittest.skipUnless(PROGRAM.exists(), "needs the program")
class Captures(unittest.TestCase):
    maxDiff = None

    @classmethod
    def setUpClass(cls):
        cls.status, lines, cls.errors = judged(CAPTURES, "--jsonl")
        rows = map(json.loads, lines)
        cls.rows = {row["capture"].split("/")[-1].removesuffix(".cap"): row for row in rows}

    def test_each_is_proved(self):
        self.assertEqual(self.errors, "")
        for name, row in self.rows.items():
            wanted = 3 if name == "alias-into-unsigned" else 0
            self.assertEqual(row["status"], wanted, name)

    def test_each_kind_is_shown_by_its_capture_alone(self):
        for word in kinds():
            if word != GAP:
                with self.subTest(word):
                    self.assertIn(word, self.rows[word]["odd"])
                    self.assertNotIn(word, self.rows[BESIDE + word]["odd"])

    def test_a_large_exponent(self):
        self.assertEqual(self.rows["rsa-exponent-large"]["odd"], ["rsa-exponent"])
        self.assertEqual(self.rows["not-rsa-exponent-large"]["odd"], [])

    def test_a_gap_is_shown_by_the_transfer(self):
        for name, is_odd in ((GAP, True), (BESIDE + GAP, False)):
            status, lines, errors = judged("--zone", "--warn", CAPTURES / f"{name}.cap")
            told = [line for line in lines if "ODD" in line and " as the next" in line]
            self.assertEqual((status, len(told), errors), (5 if is_odd else 0, int(is_odd), ""))


if __name__ == "__main__":
    unittest.main()
