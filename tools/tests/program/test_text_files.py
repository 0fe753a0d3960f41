"""Long text files: what stands at their end counts as what stands at their beginning."""
import base64
import unittest

from messages import DNSKEY

from .desk import ANCHOR, GOOD_HOST, GOOD_KEYS, HOST, KEYS, Desk, keyed, other_statements, said

MEGABYTE = 1_000_000
NOTES = b"# a note\n" * (MEGABYTE // 9 + 1)
NOTE_COUNT = NOTES.count(b"\n")


class Statements(Desk):
    def test_of_65_each_counts(self):
        self.assert_answer(2, statements=other_statements(63) + GOOD_HOST + GOOD_KEYS)
        self.assert_answer(2, statements=GOOD_HOST + other_statements(63) + GOOD_KEYS)

    def test_of_two_megabytes_the_last_counts(self):
        others = other_statements(9000)
        self.assertGreater(len(others), 2 * MEGABYTE - 200_000)
        self.assert_answer(2, statements=others + GOOD_HOST + GOOD_KEYS)
        self.assertEqual(self.verdict(statements=others + GOOD_KEYS)[0], 4)
        bad = said("bad", "example.", "DNSKEY", DNSKEY)
        self.assertEqual(self.verdict(statements=others + bad), (5, "Bogus host.example. 1\n", ""))

    def test_a_fault_of_the_last_line_is_told(self):
        others = other_statements(9000)
        for last in (b"good 13 010203 00", b"good 13 010203 00 c", b"fair 13 010203 00 cc", b"good 256 010203 00 cc"):
            self.assert_refused("501 line 9001", statements=others + last)
        self.assert_refused("502 line 9001", statements=others + others.split(b"\n")[0].replace(b"good", b"bad"))
        self.assert_refused(f"501 line {NOTE_COUNT + 1}", statements=NOTES + b"x")

    def test_long_hex_counts(self):
        """A statement of 65,535 octets of each kind, which is on another signature."""
        long = b"ab" * 65_535
        self.assert_answer(2, statements=b"good 13 %s %s %s\n" % (long, long, long) + GOOD_HOST + GOOD_KEYS)
        self.assert_refused("501 line 1", statements=b"good 13 %s %s %s0\n" % (long, long, long) + GOOD_HOST)


class Anchors(Desk):
    def others(self, count):
        return b"".join(b"KEY n%d.example. 256 3 13 AQID\n" % number for number in range(count))

    def test_the_64th_counts_and_a_65th_is_refused(self):
        self.assert_answer(2, anchors=self.others(63) + ANCHOR)
        self.assert_answer(2, anchors=NOTES + self.others(63) + ANCHOR)
        self.assert_refused("602 line 65", anchors=self.others(64) + ANCHOR)
        self.assert_refused(f"602 line {NOTE_COUNT + 65}", anchors=NOTES + self.others(64) + ANCHOR)

    def test_a_fault_of_the_last_line_is_told(self):
        for last in (b"KEY", b"KEY example. 256 3 13 AQI", b"DS example. 2063 13 2 0", b"KEY example 256 3 13 AQID"):
            self.assert_refused("601 line 65", anchors=self.others(64) + last)
            self.assert_refused(f"601 line {NOTE_COUNT + 1}", anchors=NOTES + last)

    def test_a_digest_of_any_length_is_read(self):
        other = b"DS example. 2063 13 2 %s\n" % (b"ab" * 65_535)
        self.assert_answer(2, anchors=other + ANCHOR)
        self.assertEqual(self.verdict(anchors=other), (5, "Bogus host.example. 1\n", ""))


class Keys(Desk):
    """2,000 shared keys behind a megabyte, and two messages that the last one signed."""
    SECRET = bytes(range(32))
    LAST = NOTE_COUNT + 2001

    def setUp(self):
        super().setUp()
        secret = base64.b64encode(self.SECRET)
        self.keys = NOTES + b"".join(b"k%04d.example. %s\n" % (number, secret) for number in range(2000))
        self.capture = b"".join(keyed(octets[2:], self.SECRET, "k1999.example.") for octets in (KEYS, HOST))

    def test_the_last_key_signs(self):
        self.assert_answer(2, capture=self.capture, keys=self.keys)
        self.assert_answer(2, capture=self.capture, keys=self.keys, macs=NOTES + b"-\n-\n")
        self.assert_refused("312 message 1", capture=self.capture, keys=self.keys.replace(b"k1999", b"k2000"))

    def test_a_fault_of_the_last_line_is_told(self):
        for last in (b"x", b"x. ", b"x. AQI", b"x AQID"):
            self.assert_refused(f"301 line {self.LAST}", capture=self.capture, keys=self.keys + last)
        self.assert_refused(f"302 line {self.LAST}", capture=self.capture, keys=self.keys + b"K0000.Example. AQID")

    def test_of_macs_the_last_counts(self):
        request = b"ab" * 32
        self.assert_refused("313 message 2", capture=self.capture, keys=self.keys, macs=NOTES + b"-\n" + request)
        for last in (b"x", request[1:], b"--"):
            told = f"801 line {NOTE_COUNT + 2}"
            self.assert_refused(told, capture=self.capture, keys=self.keys, macs=NOTES + b"-\n" + last)
        for given in (b"-\n", b"-\n-\n-\n"):
            self.assert_refused("802", capture=self.capture, keys=self.keys, macs=NOTES + given)


if __name__ == "__main__":
    unittest.main()
