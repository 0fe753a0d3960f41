"""How a guard's count is read of what it prints and of its status."""
import unittest

from checking.counts import BROKEN, Count, of_closing_line, of_status, of_unittest

RAN = "...\n----\nRan {} in 3.2s\n\n{}\n"


class Counts(unittest.TestCase):
    def test_the_last_closing_line_counts(self):
        for printed, status, wanted in (
                ("1 passed, 1 failed\nmore\n297 passed, 0 failed\n", 0, Count(297, 0)),
                ("3 passed, 2 failed\n", 1, Count(3, 2)),
                # It ended otherwise than it says, said nothing, or tried nothing.
                ("3 passed, 0 failed\n", 1, Count(3, 1)),
                ("Traceback\n", 1, BROKEN),
                ("", 0, BROKEN),
                ("0 passed, 0 failed\n", 0, BROKEN),
                ("say: 3 passed, 0 failed\n", 0, BROKEN)):
            with self.subTest(printed, status=status):
                self.assertEqual(of_closing_line(printed, status), wanted)

    def test_tests_that_were_skipped_have_not_passed(self):
        for number, last, status, wanted in (
                ("12 tests", "OK", 0, Count(12, 0)),
                ("1 test", "OK", 0, Count(1, 0)),
                ("12 tests", "OK (skipped=2)", 0, Count(10, 2)),
                ("12 tests", "FAILED (failures=1, errors=2, skipped=3)", 1, Count(6, 6)),
                ("12 tests", "OK", 1, Count(12, 1)),
                ("0 tests", "OK", 0, BROKEN)):
            with self.subTest(last, number=number):
                self.assertEqual(of_unittest(RAN.format(number, last), status), wanted)
        self.assertEqual(of_unittest("Killed\n", 137), BROKEN)

    def test_by_the_status_alone(self):
        self.assertEqual((of_status("", 0), of_status("", 2)), (Count(1, 0), BROKEN))

    def test_a_sum(self):
        self.assertEqual(str(sum([Count(3, 1), Count(4, 0)], Count(0, 0))), "7 passed, 1 failed")


if __name__ == "__main__":
    unittest.main()
