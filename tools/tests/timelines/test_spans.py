"""Tests of the range that the signatures of a capture span, and of how long each is valid around a moment."""
import struct
import unittest

import tool  # noqa: F401
from dnssec_check_tools.asking.moments import MOMENT_MOST
from dnssec_check_tools.capturing.frames import framed
from dnssec_check_tools.timelines.spans import HALF, ROUND, Range, Wish, nearest, range_of, window


def capture(*times):
    """A response with a signature for each pair of an inception and an expiration."""
    rdata = [struct.pack(">HBBIIIHB", 1, 13, 1, 5, last, first, 7, 0) + b"s" for first, last in times]
    records = [b"\1a\0" + struct.pack(">HHIH", 46, 1, 5, len(each)) + each for each in rdata]
    return framed([struct.pack(">6H", 1, 0x8400, 0, len(records), 0, 0) + b"".join(records)])


class Ranges(unittest.TestCase):
    def test_from_the_first_time_to_the_last(self):
        self.assertEqual(range_of(capture((1000, 2000), (500, 1500)), 1200), Range(500, 2000))
        self.assertEqual(range_of(capture((1000, 2000)) + capture((2500, 3000)), 0), Range(1000, 3000))

    def test_without_a_signature_it_is_now_alone(self):
        for octets in (b"", capture(), b"torn", framed([b"none"])):
            self.assertEqual(range_of(octets, 77), Range(77, 77))

    def test_times_are_those_nearest_to_now(self):
        late = 3 * ROUND
        self.assertEqual(range_of(capture((1000, 2000)), late), Range(late + 1000, late + 2000))
        self.assertEqual(range_of(capture((ROUND - 10, 10)), late), Range(late - 10, late + 10))

    def test_it_is_shorter_than_a_round(self):
        """Whatever the times are, so that no capture is refused for them."""
        for now in (0, 7, HALF, ROUND, 5 * ROUND, MOMENT_MOST):
            for times in ((0, HALF), (HALF, 0), (0, ROUND - 1), (now + HALF - 1, now - HALF), (now - HALF, now + HALF - 1)):
                span = range_of(capture(tuple(each % ROUND for each in times)), now)
                self.assertTrue(0 <= span.first <= span.last <= MOMENT_MOST, (now, times))
                self.assertLess(span.last - span.first, ROUND)

    def test_one_that_is_told_is_that_of_all(self):
        self.assertEqual(Wish(Range(3, 9), False).of(capture((1000, 2000)), 7), Range(3, 9))
        self.assertEqual(Wish(None, False).of(capture((1000, 2000)), 7), Range(1000, 2000))


def is_valid(times, moment):
    """RFC 4034 3.1.5, by the arithmetic of RFC 1982."""
    return (moment - times[0]) % ROUND < HALF and (times[1] - moment) % ROUND < HALF


class Windows(unittest.TestCase):
    def test_it_ends_where_the_signature_does(self):
        for times in ((1000, 2000), (1000, 1000), (ROUND - 5, 5), (0, HALF - 1), (0, HALF), (0, HALF + 9), (9, 4), (7, 5)):
            for round_ in (0, 1, 2):
                inner = [times[0], times[1], times[0] + HALF - 1, times[1] - HALF + 1, times[0] + HALF, times[1] - HALF]
                for moment in (each + round_ * ROUND for each in inner):
                    if is_valid(times, moment):
                        span = window(times, moment)
                        self.assertTrue(span.has(moment), (times, moment))
                        self.assertEqual([is_valid(times, each) for each in (span.first - 1, span.first, span.last, span.last + 1)],
                                         [False, True, True, False], (times, moment))

    def test_the_nearest_moment(self):
        self.assertEqual([nearest(5, now) for now in (0, HALF + 4, HALF + 6, ROUND)], [5, 5, ROUND + 5, ROUND + 5])


if __name__ == "__main__":
    unittest.main()
