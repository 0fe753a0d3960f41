"""How a test gives the program its files and questions, and the signed messages that it makes for them."""
import pathlib
import tempfile
import unittest

from dnssec_check_tools.capturing.frames import framed
from dnssec_check_tools.wire import record, with_tsig
from messages import DNSKEY, TYPES, counted, key_message, message, name, rrsig, signed
from tool import PROGRAM, run_program

MOMENT = 1500
ANCHOR = b"KEY example. 256 3 13 AQID\n"
ADDRESS = bytes.fromhex("c0000201")
KEYS = key_message("example.")
HOST = message(signed("host.example.", "A", ADDRESS))


def said(word, owner, rtype, rdata, signer="example."):
    """A line of statements on the signature that `signed` makes: what it signs, and how (RFC 4034 3.1.8.1)."""
    front = rrsig(rtype, counted(owner), signer, "")
    data = front + record(name(owner), TYPES[rtype], rdata)
    return f"{word} 13 {DNSKEY[4:].hex()} {data.hex()} cc\n".encode()


GOOD_KEYS = said("good", "example.", "DNSKEY", DNSKEY)
GOOD_HOST = said("good", "host.example.", "A", ADDRESS)


def other_statements(count, size=100):
    """Lines on signatures that no capture has, each with so many octets of data."""
    return b"".join(b"good 13 01 %s cc\n" % number.to_bytes(size, "big").hex().encode() for number in range(count))


def keyed(octets, key, key_name, moment=MOMENT):
    """The message with its length in front, signed by the shared key for no request."""
    return framed([with_tsig(octets, name(key_name), key, moment)])


@unittest.skipUnless(PROGRAM.exists(), "needs the built program")
class Desk(unittest.TestCase):
    """A folder in which the files of a question are, and what the program says of it."""

    def setUp(self):
        room = tempfile.TemporaryDirectory()
        self.addCleanup(room.cleanup)
        self.room = pathlib.Path(room.name)

    def told(self, subcommand, *words, **files):
        """The status, the output and the errors, as text, where each option has these octets in its file."""
        for option, octets in files.items():
            (self.room / option).write_bytes(octets)
            words += (f"--{option}", self.room / option)
        status, output, errors = run_program(PROGRAM, subcommand, *words)
        return status, output.decode(), errors

    def verdict(self, owner="host.example.", rtype=1, subcommand="check", **files):
        """The same of `check`, with the zone's key as the anchor where no other is given."""
        given = {"capture": KEYS + HOST, "anchors": ANCHOR, "statements": GOOD_KEYS + GOOD_HOST, **files}
        return self.told(subcommand, "--moment", MOMENT, "--name", owner, "--type", rtype, **given)

    def assert_explained(self, word, **given):
        """`explain` tells this verdict, what `check` tells, and more behind it."""
        status, output, errors = self.verdict(**given)
        self.assertEqual((output.split()[0], errors), (word, ""))
        told, explained, errors = self.verdict(subcommand="explain", **given)
        self.assertEqual((told, explained[:len(output)], errors), (status, output, ""))
        self.assertGreater(len(explained), len(output))

    def assert_answer(self, rrset, **files):
        self.assertEqual(self.verdict(**files), (0, f"SecureAnswer host.example. 1\nrrset {rrset} signature 1\n", ""))

    def assert_refused(self, told, **files):
        self.assertEqual(self.verdict(**files), (7, "", f"refused {told}\n"))
