"""Tests of how values are said: distances, dates, names of algorithms and digests."""
import unittest

from dnssec_check_tools.explaining import values

NOON = 1795348800


class Values(unittest.TestCase):
    def test_distances_have_one_unit(self):
        rows = ((0, "0 seconds"), (1, "1 second"), (119, "119 seconds"), (120, "2 minutes"), (7199, "119 minutes"),
                (7200, "2 hours"), (172799, "47 hours"), (172800, "2 days"), (4536000, "52 days"), (63115199, "730 days"),
                (63115200, "2 years"))
        for seconds, text in rows:
            self.assertEqual(values.distance(seconds), text)

    def test_dates_have_the_time_where_they_are_near(self):
        self.assertEqual(values.date(NOON + 172800, NOON), "2026-11-24")
        self.assertEqual(values.date(NOON + 172799, NOON), "2026-11-24T11:59:59Z")
        self.assertEqual(values.ago(4536000, NOON), "2026-10-01 (52 days ago)")
        self.assertEqual(values.ahead(3600, NOON), "2026-11-22T13:00:00Z (in 60 minutes)")
        self.assertEqual(values.date(281474976710655, NOON), "281474976710655")

    def test_a_round_of_the_clock_later(self):
        later = NOON + (1 << 32)
        self.assertEqual(values.until(later + 98 * 86400, later), "until 2163-04-06 (98 days)")

    def test_names(self):
        self.assertEqual(values.key_name(9, 13), "key 9 (ECDSAP256SHA256)")
        self.assertEqual(values.key_name(9, 99), "key 9 (algorithm 99)")
        self.assertEqual([values.digest_name(number) for number in (1, 2, 4, 99)],
                         ["SHA-1", "SHA-256", "SHA-384", "digest type 99"])
        self.assertEqual([values.flag_names(flags) for flags in (0, 256, 257, 385)],
                         ["no flags", "ZONE", "ZONE SEP", "ZONE REVOKE SEP"])

    def test_lists(self):
        self.assertEqual([values.all_of(words) for words in ([], ["a"], ["a", "b"], ["a", "b", "c"])],
                         ["", "a", "a and b", "a, b and c"])


if __name__ == "__main__":
    unittest.main()
