"""Tests of the octets that the tests, the rows and the bench are made of: as the standards write them, and as dnspython reads
them."""
import base64
import unittest
from unittest import mock

import dns.message
import dns.name
import dns.tsig

from tool import TOOLS  # noqa: F401 (which says where the package is)
from dnssec_check_tools import wire
from dnssec_check_tools.capturing.messages import key_tag

# The key of RFC 4034 5.4, whose tag is 60485.
KEY = ("AQOeiiR0GOMYkDshWoSKz9XzfwJr1AYtsmx3TGkJaNXVbfi/2pHm822aJ5iI9BMzNXxeYCmZDRD99WYwYqUSdjMmmAphXdvxegXd/M5+X7OrzKBaMbCVdFLUU"
       "h6DhweJBjEVv5f2wwjM9XzcnOf+EPbtG9DMBmADjFDc2w/rljwvFw==")
RSASHA1 = 5
# The RDATA of the NSEC record of RFC 4034 4.3, which has no type above 255 here.
NSEC = "04686f7374076578616d706c6503636f6d00" "0006400100000003"


class Wire(unittest.TestCase):
    def test_the_key_tag_of_the_standard(self):
        self.assertEqual(key_tag(wire.dnskey(256, base64.b64decode(KEY), RSASHA1)), 60485)

    def test_the_denial_of_the_standard(self):
        self.assertEqual(wire.nsec("host.example.com.", "A MX RRSIG NSEC").hex(), NSEC)

    def test_a_name_is_spelled_without_escapes(self):
        self.assertEqual(wire.name_octets("*.a\\ b."), b"\x01*\x04a\\ b\x00")

    def test_a_message_that_is_signed_is_verified(self):
        plain = wire.header(7, (1, 0, 0, 0)) + wire.question(wire.name_octets("www.example."))
        request, secret = b"\x01" * 32, b"secret"
        signed = wire.with_tsig(plain, wire.name_octets("key."), secret, 0, request)
        ring = {dns.name.from_text("key."): dns.tsig.Key("key.", secret, dns.tsig.HMAC_SHA256)}
        with mock.patch("time.time", lambda: 0):
            self.assertTrue(dns.message.from_wire(signed, keyring=ring, request_mac=request).had_tsig)
            with self.assertRaises(dns.tsig.BadSignature):
                dns.message.from_wire(signed, keyring=ring, request_mac=bytes(32))


if __name__ == "__main__":
    unittest.main()
