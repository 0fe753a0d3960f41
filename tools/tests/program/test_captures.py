"""Captures at their limits, of messages, records, octets and names, and the most hashes that a question asks for."""
import struct
import unittest

from dnssec_check_tools.capturing.frames import framed
from dnssec_check_tools.wire import header
from messages import DNSKEY, message, name, record, signed
from zones import Hashing, hash_text

from .desk import ADDRESS, GOOD_HOST, GOOD_KEYS, HOST, KEYS, MOMENT, Desk, keyed, said

LONGEST = 65_535
SECRET = bytes(range(32))


SIGNED = [signed("example.", "DNSKEY", DNSKEY), signed("host.example.", "A", ADDRESS)]


def filled(size):
    """A response of so many octets, its length in front: the key and the address with their signatures, and a TXT record
    of the root with the rest, all zeros."""
    front = header(1, (0, 5, 0, 0)) + b"".join(SIGNED)
    return struct.pack("!H", size) + front + record(name("."), "TXT", bytes(size - len(front) - 11))


def hosts(first, count):
    """A message of so many addresses, each of a name of its own."""
    octets = b"".join(record(name(f"n{number}.example."), "A", ADDRESS) for number in range(first, first + count))
    return framed([header(1, (0, count, 0, 0)) + octets])


class Octets(Desk):
    """Messages of 65,535 octets, the most that a frame holds."""

    def test_the_longest_message_is_evidence(self):
        longest = filled(LONGEST)
        self.assertEqual(len(longest), 2 + LONGEST)
        self.assert_answer(2, capture=longest)
        status, output, errors = self.told("show", capture=longest)
        self.assertEqual((status, errors, output.count("\n")), (0, "", 6))
        zeros = LONGEST - 12 - len(b"".join(SIGNED)) - 11
        self.assertEqual(output.split("\n")[5], f"record 5 . 16 1 5 {'00' * zeros}")

    def test_64_of_the_longest_messages_are_evidence(self):
        self.assert_answer(2, capture=filled(LONGEST) * 64)

    def test_the_longest_message_is_opened(self):
        signing = len(keyed(HOST[2:], SECRET, "k.")) - len(HOST)
        longest = keyed(filled(LONGEST - signing)[2:], SECRET, "k.")
        self.assertEqual(len(longest) - 2, LONGEST)
        keys = b"k. AAECAwQFBgcICQoLDA0ODxAREhMUFRYXGBkaGxwdHh8=\n"
        self.assert_answer(2, capture=longest, keys=keys)
        changed = bytearray(longest)
        changed[40_000] ^= 1
        self.assert_refused("313 message 1", capture=bytes(changed), keys=keys)

    def test_a_message_torn_at_its_last_octet_is_refused(self):
        for octets in (filled(LONGEST), filled(LONGEST) * 3):
            self.assertEqual(self.told("show", capture=octets[:-1]), (7, "", "refused 209\n"))


class Numbers(Desk):
    def test_4096_records_are_evidence_and_one_more_is_refused(self):
        """62 messages of 66 addresses, each an RRset, then the key and the answer."""
        others = b"".join(hosts(66 * number, 66) for number in range(62))
        self.assert_answer(62 * 66 + 2, capture=others + KEYS + HOST)
        self.assert_refused("403 message 64", capture=others + KEYS + hosts(5000, 3))

    def test_64_messages_are_evidence_and_one_more_is_refused(self):
        self.assert_answer(64, capture=KEYS + hosts(0, 1) * 62 + HOST)
        self.assert_refused("403 message 65", capture=KEYS + hosts(0, 1) * 63 + HOST)

    def test_show_has_no_such_limits(self):
        capture = b"".join(hosts(50 * number, 50) for number in range(200))
        wanted = "".join(f"message {number + 1} 0001 8400 0 50 0 0\n" + "".join(
            f"record {place + 1} n{50 * number + place}.example. 1 1 5 c0000201\n" for place in range(50))
            for number in range(200))
        self.assertEqual(self.told("show", capture=capture), (0, wanted, ""))

    def test_a_fault_of_the_last_message_is_told(self):
        capture = b"".join(hosts(50 * number, 50) for number in range(200))
        short = struct.pack("!H", 11) + bytes(11)
        self.assertEqual(self.told("show", capture=capture + short), (7, "", "refused 201 message 201\n"))
        self.assertEqual(self.told("show", capture=capture + bytes(2)), (7, "", "refused 208\n"))
        self.assert_refused("401 message 64", capture=KEYS + hosts(0, 1) * 62 + self.query())

    def query(self):
        return framed([header(1, (0, 0, 0, 0), 0)])


class Signatures(Desk):
    """A key and a thousand addresses, each of a name of its own and with a signature."""
    OWNERS = [f"n{number:04}.example." for number in range(1000)]

    def setUp(self):
        super().setUp()
        parts = [[signed(each, "A", ADDRESS) for each in self.OWNERS[first:first + 20]] for first in range(0, 1000, 20)]
        self.capture = KEYS + b"".join(message(*part) for part in parts)
        self.lines = [GOOD_KEYS] + [said("good", each, "A", ADDRESS) for each in self.OWNERS]

    def test_what_is_to_check_is_listed(self):
        entries = sorted(line.split(b" ") for line in self.lines)
        wanted = b"".join(b" ".join([b"todo"] + fields[1:]) for fields in entries).decode()
        self.assertEqual(self.told("list", "--moment", MOMENT, capture=self.capture), (0, wanted, ""))
        last = entries[-1]
        self.assertEqual(self.told("list", "--moment", MOMENT, capture=self.capture, statements=b" ".join(last)),
                         (0, wanted.removesuffix(b" ".join([b"todo"] + last[1:]).decode()), ""))

    def test_what_they_sign_is_listed(self):
        wanted = "".join(f"data {place} 1 {line.split()[3].decode()}\n" for place, line in enumerate(self.lines, 1))
        self.assertEqual(self.told("list", "--all", "--moment", MOMENT, capture=self.capture), (0, wanted, ""))

    def test_the_last_counts(self):
        given = {"owner": self.OWNERS[-1], "capture": self.capture}
        wanted = f"SecureAnswer {self.OWNERS[-1]} 1\nrrset 1001 signature 1\n"
        self.assertEqual(self.verdict(statements=b"".join(self.lines), **given), (0, wanted, ""))
        wanted = f"Pending {self.OWNERS[-1]} 1\n" + self.lines[-1].replace(b"good", b"todo").decode()
        self.assertEqual(self.verdict(statements=b"".join(self.lines[:-1]), **given), (4, wanted, ""))

    def test_each_verdict_is_explained(self):
        given = {"owner": self.OWNERS[-1], "capture": self.capture}
        good = b"".join(self.lines)
        for word, statements in (("SecureAnswer", good), ("Pending", b""), ("Bogus", good.replace(b"good", b"bad"))):
            self.assert_explained(word, statements=statements, **given)


class LongName(Desk):
    """A name of 127 labels, and eight salts of 500 iterations: 1,022,040 hashes of SHA-1."""
    NAME = "a." * 127
    ANCHOR = b"KEY . 256 3 13 AQID\n"

    def rrset(self, number):
        """Of the last salt a circle of the root alone, which denies all else; of the others what covers nothing."""
        hashing = Hashing(500, f"{number:016x}")
        at = hashing.hash_of(".")
        following = at if number == 7 else (int.from_bytes(at, "big") + 1).to_bytes(20, "big")
        return f"{hash_text(at)}.", hashing.nsec3(following, "NS SOA")

    def test_it_is_denied(self):
        rrsets = [(".", "DNSKEY", DNSKEY)] + [(owner, "NSEC3", rdata) for owner, rdata in map(self.rrset, range(8))]
        capture = b"".join(message(signed(*each, signer=".")) for each in rrsets)
        statements = b"".join(said("good", *each, signer=".") for each in rrsets)
        wanted = f"SecureNoName {self.NAME} 1\nrecord {rrsets[8][0]} 50\n"
        given = {"owner": self.NAME, "capture": capture, "anchors": self.ANCHOR}
        self.assertEqual(self.verdict(statements=statements, **given), (0, wanted, ""))
        status, output, errors = self.verdict(statements=b"", **given)
        self.assertEqual((status, output.split("\n")[0], output.count("\ntodo "), errors),
                         (4, f"Pending {self.NAME} 1", 9, ""))
        self.assert_explained("SecureNoName", statements=statements, **given)
        self.assert_explained("Pending", statements=b"", **given)
        ninth = message(signed(*self.of_ninth_salt(), signer="."))
        self.assertEqual(self.verdict(**{**given, "capture": capture + ninth}), (7, "", "refused 403 message 10\n"))

    def of_ninth_salt(self):
        owner, rdata = self.rrset(8)
        return owner, "NSEC3", rdata

    def test_a_label_more_is_refused(self):
        for owner, told in ((self.NAME + "a.", 104), ("a" * 64 + ".", 103), (self.NAME[:-1], 105)):
            self.assertEqual(self.verdict(owner=owner), (7, "", f"refused {told}\n"))


if __name__ == "__main__":
    unittest.main()
