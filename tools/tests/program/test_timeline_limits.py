"""Timelines at their limits: ends of the clock of signatures, odd windows, ranges of one moment and of a whole round, and as
many signatures as a capture has messages, each with times of its own. What has to come is worked out here from when each
signature is valid."""
import unittest

from dnssec_check_tools.capturing.frames import framed
from dnssec_check_tools.timelines.spans import HALF, ROUND
from dnssec_check_tools.wire import header, record, rrsig
from messages import DNSKEY, KEY_TAG, TYPES, counted, name

from .desk import ADDRESS, ANCHOR, Desk
from .timelines import as_object, is_valid, told_of

HOST = "host.example."
ALWAYS = (ROUND - 10, HALF - 20)  # valid for nearly half a round from the beginning of each


def signed(owner, rtype, rdata, times):
    """A message of a record with a signature of these times."""
    covering = rrsig(TYPES[rtype], counted(owner), name("example."), KEY_TAG, b"\xcc", times)
    records = record(name(owner), TYPES[rtype], rdata, 5) + record(name(owner), TYPES["RRSIG"], covering, 5)
    return framed([header(1, (0, 2, 0, 0)) + records])


def expected(first, last, is_secure):
    """The verdicts of a range with the moments of each, by whether it's secure at a moment; None, nothing, where it isn't."""
    points = sorted({each + less for each in is_secure.points(first, last) for less in (0, 1)} | {first})
    stays = []
    for point in (each for each in points if first <= each <= last):
        said = is_secure(point)
        if not stays or stays[-1][2] != said:
            if stays:
                stays[-1][1] = point - 1
            stays.append([point, last, said])
    return [tuple(stay) for stay in stays]


class Rule:
    """Which copy of the address carries the answer at a moment: the first whose signature is valid, with that of the keys."""

    def __init__(self, keys, hosts):
        self.keys, self.hosts = keys, hosts

    def __call__(self, moment):
        if is_valid(self.keys, moment):
            for number, times in enumerate(self.hosts, 2):
                if is_valid(times, moment):
                    return f"SecureAnswer rrset {number} signature 1"
        return "Bogus"

    def points(self, first, last):
        for inception, expiration in (self.keys, *self.hosts):
            for each in (inception, expiration, inception + HALF, expiration - HALF, inception + HALF - 1, expiration - HALF + 1):
                for round_ in range(first // ROUND - 1, last // ROUND + 2):
                    yield each % ROUND + round_ * ROUND


class Limits(Desk):
    def timeline(self, first, last, keys, hosts):
        capture = signed("example.", "DNSKEY", DNSKEY, keys) + b"".join(signed(HOST, "A", ADDRESS, each) for each in hosts)
        span = ("--from", first, "--to", last)
        status, listed, errors = self.told("list", *span, capture=capture)
        self.assertEqual((status, errors), (0, ""))
        statements = listed.replace("todo ", "good ").encode()
        asked = ("timeline", *span, "--name", HOST, "--type", 1)
        files = {"capture": capture, "anchors": ANCHOR, "statements": statements}
        (status, text, errors), (_, line, _) = self.told(*asked, **files), self.told(*asked, "--json", **files)
        self.assertEqual((status, errors), (0, ""))
        return told_of(text, as_object(line))

    def assert_told(self, first, last, keys, hosts):
        timeline = self.timeline(first, last, keys, hosts)
        told = [(stay.first, stay.last, stay.words) for stay in timeline.stays]
        self.assertEqual(told, expected(first, last, Rule(keys, hosts)))
        self.assertTrue(all(timeline.edges))
        return timeline

    def test_around_the_ends_of_the_clock(self):
        for middle in (HALF, ROUND, ROUND + HALF, 2 * ROUND, 3 * ROUND + HALF):
            for shift in (-2, -1, 0, 1, 2):
                times = ((middle + shift) % ROUND, (middle + shift + 3) % ROUND)
                with self.subTest(middle=middle, shift=shift):
                    keys = (middle - 100) % ROUND, (middle + 100) % ROUND
                    told = self.assert_told(middle - 8, middle + 8, keys, [times])
                    self.assertEqual([stay.words.split(" ")[0] for stay in told.stays], ["Bogus", "SecureAnswer", "Bogus"])

    def test_odd_windows(self):
        rows = {
            "one second": (5000, 5000),
            "never": (5000, 4999),
            "half a round": (5000, 5000 + HALF - 1),
            "more than half a round": (5000, 5000 + HALF),
            "it ends before it begins": (5000, 4000),
            "it ends an hour before a round is over": (5000, (5000 - 3600) % ROUND),
        }
        for what, times in rows.items():
            for first, last in ((4000, 6000), (0, ROUND - 1), (HALF + 3000, HALF + 8000), (4999, 4999), (5000, 5000), (5001, 5001)):
                with self.subTest(what, first=first, last=last):
                    self.assert_told(first, last, (0, HALF - 1), [times])

    def test_one_that_holds_throughout_has_one_interval(self):
        told = self.assert_told(ROUND, ROUND + 10**9, ALWAYS, [ALWAYS])
        self.assertEqual((len(told.stays), told.stays[0].by), (1, [(1, 1), (2, 1)]))

    def test_ranges(self):
        times = (1000, 2000)
        for first in (999, 1000, 1500, 2000, 2001):
            self.assertEqual(len(self.assert_told(first, first, times, [times]).stays), 1)
        for first in (0, 1, 1500, HALF, ROUND, 281474976710655 - (ROUND - 1)):
            self.assert_told(first, first + ROUND - 1, times, [times])
        self.assert_told(281474976710655, 281474976710655, times, [times])
        for first, last in ((0, ROUND), (1500, 1500 + ROUND), (1, 0), (281474976710655, 0)):
            asked = ("--from", first, "--to", last, "--name", HOST, "--type", 1)
            self.assertEqual(self.told("timeline", *asked, capture=b"", anchors=ANCHOR), (7, "", "refused 821\n"))
            self.assertEqual(self.told("list", *asked[:4], capture=b"torn"), (7, "", "refused 821\n"))

    def test_64_messages_that_are_signed_at_64_times(self):
        """63 copies of the address beside the keys: each begins a day behind the one before, and lasts for a week."""
        day = 86400
        hosts = [((each + 1) * day, (each + 8) * day) for each in range(63)]
        told = self.assert_told(0, 80 * day, (10, 75 * day), hosts)
        self.assertGreater(len(told.stays), 60)
        mixed = [hosts[each * 37 % 63] for each in range(63)]
        self.assert_told(0, 80 * day, (10, 75 * day), mixed)


if __name__ == "__main__":
    unittest.main()
