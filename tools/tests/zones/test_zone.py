"""Tests of judge --zone over zones that a real signer signed: all of one is proved, and whatever is taken out is found."""
import pathlib
import tempfile
import unittest
from unittest import mock

import dns.rdata

from dnssec_check_tools.capturing.frames import framed
from dnssec_check_tools.zones import cutting
from tool import PROGRAM, run

from . import signed

# What the zone doesn't speak for, and what another signature stands beside.
NOT_ITS_OWN = {("ns.signed.example.", "A"), ("ns.plain.example.", "A"), ("example.", "RRSIG DNSKEY")}


@unittest.skipUnless(signed.SIGNER, "needs ldnsutils")
@unittest.skipUnless(PROGRAM.exists(), "needs the program")
class Zone(unittest.TestCase):
    def setUp(self):
        room = tempfile.TemporaryDirectory()
        self.addCleanup(room.cleanup)
        self.room = pathlib.Path(room.name)

    def judged(self, records, anchor, *words, most=4096):
        """The status, the lines and the errors."""
        (self.room / "transfer.cap").write_bytes(framed(signed.transfer(records)))
        (self.room / "anchors").write_text(anchor)
        given = ("--program", PROGRAM, "--at", signed.NOON, "--anchors", self.room / "anchors", "--zone", *words)
        with mock.patch.object(cutting, "RECORDS_MOST", most):
            status, output, errors = run("judge", *given, self.room / "transfer.cap")
        return status, output.decode().splitlines(), errors

    def test_all_of_a_zone_is_proved(self):
        for options, count in ((signed.NSEC, (13, 11, 11)), (signed.NSEC3, (14, 11, 13))):
            records, anchor = signed.signed(signed.SMALL, options)
            for most in (4096, 40):
                with self.subTest(options=options, most=most):
                    status, lines, errors = self.judged(records, anchor, most=most)
                    self.assertEqual((status, errors), (0, ""))
                    self.assertRegex(lines[0], r"^zone example\.: 11 names, \d+ questions to \d+ captures?$")
                    told = [f"zone example.: {number} {what}: {number} proved" for number, what in
                            zip(count, ("RRsets", "absent types", "gaps"))]
                    self.assertEqual(lines[1:4], told)
                    self.assertRegex(lines[4], r"^zone example\.: (1[0-9]) records of the chain: \1 in a proof$")

    def test_gaps_with_opt_out_are_open(self):
        records, anchor = signed.signed(signed.SMALL, signed.OPT_OUT)
        status, lines, errors = self.judged(records, anchor)
        self.assertEqual((status, errors), (3, ""))
        self.assertIn("zone example.: 13 gaps: 0 proved", lines)
        self.assertIn("zone example.: not proved: 13 Insecure", lines)

    def test_a_record_that_is_taken_out_is_found(self):
        """Each record, by itself, of the zone as it is and cut into captures."""
        for options in (signed.NSEC, signed.NSEC3):
            records, anchor = signed.signed(signed.SMALL, options)
            for number, record in enumerate(records):
                what = record[0].to_text(), signed.kind_of(record)
                if what in NOT_ITS_OWN or what[1] == "SOA":
                    continue
                with self.subTest(options=options, what=what):
                    left = records[:number] + records[number + 1:]
                    status, lines, _ = self.judged(left, anchor, most=(4096, 40)[number % 2])
                    self.assertEqual(status, 5, lines)

    def test_what_is_taken_out_is_named(self):
        """Where its signature is left, or its record of the chain by which it has a type."""
        for options in (signed.NSEC, signed.NSEC3):
            records, anchor = signed.signed(signed.SMALL, options)
            left = [each for each in records if (each[0].to_text(), signed.kind_of(each)) != ("mail.example.", "MX")]
            status, lines, _ = self.judged(left, anchor)
            self.assertEqual((status, lines[0]), (5, "mail.example. MX: Bogus"))

    def test_a_name_that_is_taken_out_is_found(self):
        """With all its records, those of the chain too."""
        for options in (signed.NSEC, signed.NSEC3):
            records, anchor = signed.signed(signed.SMALL, options)
            for name in ("mail.example.", "a.b.c.example.", "wild.example.", "plain.example."):
                with self.subTest(options=options, name=name):
                    self.assertEqual(self.judged([each for each in records if each[0].to_text() != name], anchor)[0], 5)

    def test_a_record_that_is_changed_is_found(self):
        records, anchor = signed.signed(signed.SMALL, signed.NSEC)
        changed = [(owner, ttl, dns.rdata.from_text("IN", "A", "192.0.2.99") if rdata.rdtype == 1 and "wild" in owner.to_text() else rdata)
                   for owner, ttl, rdata in records]
        status, lines, _ = self.judged(changed, anchor)
        self.assertEqual((status, lines[0]), (5, "wild.example. A: Bogus"))

    def test_an_end_that_is_missing_is_told(self):
        records, anchor = signed.signed(signed.SMALL, signed.NSEC)
        messages = signed.transfer(records)
        with mock.patch.object(signed, "transfer", lambda _: [signed.message(records, messages[0][12:25])]):
            status, lines, _ = self.judged(records, anchor)
        self.assertEqual(status, 5)
        self.assertIn("zone example.: the transfer doesn't end with the zone's SOA record", lines)

    def test_a_table_has_all_rows(self):
        records, anchor = signed.signed(signed.SMALL, signed.NSEC)
        status, lines, _ = self.judged(records, anchor, "--tsv")
        self.assertEqual((status, len(lines)), (0, 1 + 13 + 11 + 11))
        self.assertEqual({line.split("\t")[0] for line in lines[1:]}, {"example. part 1"})

    def test_what_it_goes_without(self):
        records, anchor = signed.signed(signed.SMALL, signed.NSEC)
        for words in (("--every",), ("--html", self.room / "page"), ("--keys", self.room / "anchors"), ("www.example/A",)):
            with self.subTest(words):
                self.assertEqual(self.judged(records, anchor, *words)[0:2], (2, []))
        (self.room / "empty").write_bytes(b"")
        status, _, errors = run("judge", "--anchors", self.room / "anchors", "--zone", self.room / "empty")
        self.assertEqual((status, errors), (7, "judge: refused: no transfer of a zone (AXFR) is among the messages\n"))


if __name__ == "__main__":
    unittest.main()
