"""The share of the faults that is tried: how much of each kind, and that a seed chooses it again."""
import argparse
import unittest
from fractions import Fraction

from failing.share import chosen, share_of
from tool import run


class Share(unittest.TestCase):
    def test_so_many_of_the_jobs_in_their_order(self):
        jobs = list(range(100))
        for share, count in ((Fraction(1), 100), (Fraction(1, 4), 25), (Fraction(1, 1000), 1)):
            some = chosen(jobs, share, "7")
            self.assertEqual((len(some), some), (count, sorted(set(some))))
        self.assertEqual(chosen([], Fraction(1, 4), "7"), [])

    def test_a_seed_chooses_the_same_again(self):
        jobs, share = list(range(1000)), Fraction(1, 10)
        self.assertEqual(chosen(jobs, share, "7"), chosen(jobs, share, "7"))
        self.assertNotEqual(chosen(jobs, share, "7"), chosen(jobs, share, "8"))

    def test_what_is_a_share(self):
        self.assertEqual((share_of("1/20"), share_of("0.5"), share_of("1")), (Fraction(1, 20), Fraction(1, 2), 1))
        for text in ("0", "2", "-1/2", "1/0", "half", ""):
            with self.subTest(text), self.assertRaises(argparse.ArgumentTypeError):
                share_of(text)

    def test_a_share_that_is_none(self):
        status, output, errors = run("faults", "--share", "3/2")
        self.assertEqual((status, output), (2, b""))
        self.assertIn("3/2 is no share, such as 1/20", errors)


if __name__ == "__main__":
    unittest.main()
