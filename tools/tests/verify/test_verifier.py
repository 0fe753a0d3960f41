"""Tests of what bounds the verifying: the budget of time, what is kept of it, and how much that is."""
import time
import unittest
from unittest import mock

from tool import DATA, run

from dnssec_check_tools.verifying import entries, verifier
from dnssec_check_tools.verifying.verifier import digest_of

LINES = [f"todo 13 {number:02x} 02 03" for number in range(4)]


class Clock:
    """It goes on by a second whenever a signature is verified, and by nothing else."""

    def __init__(self):
        self.now, self.verified = 100.0, []

    def __call__(self):
        return self.now

    def is_good(self, entry):
        self.now += 1
        self.verified.append(entry.line)
        return entry.fields[0] == "01"


class Within(unittest.TestCase):
    def setUp(self):
        self.clock, self.kept = Clock(), verifier.Kept(3)
        patch = mock.patch.object(verifier, "is_verified_good", self.clock.is_good)
        patch.start()
        self.addCleanup(patch.stop)

    def told(self, seconds, lines):
        """What comes of each line: the first word, None where the budget was spent."""
        told, within = [], verifier.Verifier(seconds, self.kept, self.clock)
        for line in lines:
            try:
                word, rest = within.statement_of(line, "a line", digest_of(line)).split(" ", 1)
                self.assertEqual(f"todo {rest}", line + "\n")
                told.append(word)
            except verifier.Spent as why:
                self.assertIn(f"the {seconds} seconds of the budget are over; --budget SECONDS gives more", str(why))
                told.append(None)
        return told

    def test_what_is_behind_the_time_is_not_verified(self):
        for seconds, told in ((0, [None] * 4), (2, ["bad", "good", None, None]), (4, ["bad", "good", "bad", "bad"])):
            with self.subTest(seconds):
                self.kept = verifier.Kept()
                self.assertEqual(self.told(seconds, LINES), told)

    def test_the_time_is_that_of_the_processor(self):
        """So a machine that has other work to do takes none of it, and neither does what other threads do."""
        within = verifier.Verifier(1, self.kept)
        time.sleep(1.2)
        self.assertTrue(within.statement_of(LINES[1], "a line", digest_of(LINES[1])).startswith("good "))
        end = time.thread_time() + 1.1
        while time.thread_time() < end:
            pass
        with self.assertRaises(verifier.Spent):
            within.statement_of(LINES[2], "a line", digest_of(LINES[2]))

    def test_what_was_verified_is_not_verified_again(self):
        self.assertEqual(self.told(9, LINES[:2] * 2), ["bad", "good"] * 2)
        self.assertEqual(self.told(0, LINES[:3]), ["bad", "good", None])
        self.assertEqual(self.clock.verified, LINES[:2])

    def test_each_field_makes_another_line(self):
        lines = ["todo 13 01 02 03", "todo 14 01 02 03", "todo 13 0102 03 -", "todo 13 01 0203 -", "todo 13 01 02 04", "todo 13 - 02 03"]
        self.told(9, lines)
        self.assertEqual(self.clock.verified, lines)

    def test_of_too_many_the_first_goes(self):
        self.told(9, LINES)
        self.assertEqual(len(self.kept.found), 3)
        self.assertEqual(self.told(0, LINES), [None, "good", "bad", "bad"])


class Command(unittest.TestCase):
    def test_what_is_left_out_has_one_note_and_status_1(self):
        given = (DATA / "todo").read_bytes()
        count = given.count(b"\n")
        why = "line 1 of -: the 0 seconds of the budget are over; --budget SECONDS gives more"
        told = f"verify: left out {count - 1} more and {why}\n"
        self.assertEqual(run("verify", "--budget", "0", given=given), (1, b"", told))
        self.assertEqual(run("verify", "--budget", "0", given=given.split(b"\n")[0]), (1, b"", f"verify: left out {why}\n"))
        self.assertEqual(run("verify", "--budget", "600", given=given)[0], 0)

    def test_a_long_exponent_is_left_out(self):
        """RFC 3110 2: the length of the exponent in one octet, the exponent of nine octets, the modulus."""
        modulus = "f" * 128
        line = f"todo 8 09{'80' * 8}81{modulus} 02 {'01' * 64}\n"
        told = "verify: left out line 1 of -: the exponent of the RSA key has more than 64 bits\n"
        self.assertEqual(run("verify", given=line.encode()), (1, b"", told))

    def test_what_is_no_number_is_refused(self):
        for text in ("", "-1", "1.5", "x", "9" * 13, "\u0661"):
            status, _, errors = run("verify", "--budget", text)
            self.assertEqual(status, 2, text)
            self.assertIn("is no whole number of up to twelve digits", errors)


class Real(unittest.TestCase):
    def test_good_and_bad_are_as_without_a_budget(self):
        within = verifier.Verifier(600, verifier.Kept())
        lines = (DATA / "todo").read_text().splitlines()
        told = [within.statement_of(line, "a line", digest_of(line)) for line in lines * 2]
        self.assertEqual("".join(told), (DATA / "statements").read_text() * 2)
        self.assertEqual({entries.entry_of(line, "").line for line in lines}, set(lines))


if __name__ == "__main__":
    unittest.main()
