"""Tests of `judge --records`: each record with its numbers, as dnspython writes it."""
from dnssec_check_tools.capturing.frames import framed

from .helper import Judging, capture_of, needs_dns


@needs_dns
class Records(Judging):
    def test_records_have_their_numbers(self):
        status, lines, errors = self.judge("--records", capture_of("bind-www-a"))
        self.assertEqual((status, errors), (0, ""))
        self.assertIn("message 6: identifier 000c, flags QR AA, NOERROR, question www.bind.test. A, 5 answer, 0 authority, 1 additional", lines)
        self.assertIn("message 6 record 1 (answer) RRset 6: www.bind.test. 3600 IN A 192.0.2.80", lines)
        self.assertIn("message 6 record 6 (additional): . OPT, UDP 1232, flags DO", lines)
        signed = "message 6 record 4 (answer) RRset 6 signature 1: www.bind.test. 3600 IN RRSIG A 8 3 3600 20270301000000 20261101000000 11133 bind.test. "
        self.assertEqual(len([line for line in lines if line.startswith(signed)]), 1)
        keys = [line for line in lines if " DNSKEY 257 3 8 " in line and line.endswith(" ; key 28346, flags ZONE SEP")]
        self.assertEqual(len(keys), 1)

    def test_a_message_without_a_question_has_none(self):
        """As those of a transfer behind the first (RFC 5936 2.2): the owner of its first record isn't what was asked."""
        record = b"\x01a\x04test\x00" + bytes.fromhex("0001 0001 0000003c 0004 c0000201")
        path = self.room / "x.cap"
        path.write_bytes(framed([bytes.fromhex("0001 8400 0000 0001 0000 0000") + record]))
        self.assertEqual(self.judge("--records", path), (0, [
            "message 1: identifier 0001, flags QR AA, NOERROR, question -, 1 answer, 0 authority, 0 additional",
            "message 1 record 1 (answer) RRset 1: a.test. 60 IN A 192.0.2.1"], ""))

    def test_a_response_code_has_the_bits_of_the_opt_record(self):
        path, rows = self.room / "x.cap", ((0, "01", "BADVERS"), (7, "01", "BADCOOKIE"), (3, "00", "NXDOMAIN"), (15, "ff", "4095"))
        for low, high, word in rows:
            opt = bytes.fromhex(f"00 0029 04d0 {high}000000 0000")
            path.write_bytes(framed([bytes.fromhex(f"0001 840{low:x} 0000 0000 0000 0001") + opt]))
            told = f"message 1: identifier 0001, flags QR AA, {word}, question -, 0 answer, 0 authority, 1 additional"
            self.assertEqual(self.judge("--records", path)[1][0], told)

    def test_it_takes_captures_alone(self):
        self.assertEqual(self.judge("--records", capture_of("bind-www-a"), "a.test/A")[0], 2)
        self.assertEqual(self.judge("--records")[0], 2)

    def test_what_cannot_be_read_is_shown_as_far_as_it_can(self):
        octets = capture_of("bind-nosuch").read_bytes()
        path = self.room / "x.cap"
        for place in range(3, 400, 7):
            path.write_bytes(octets[:place] + b"\xff" + octets[place + 1:])
            if place % 196 == 3:
                self.assertEqual(self.judge("--records", path)[0], 0)
