"""Tests of tools/judging: names, types, moments, anchors, and the RRsets of captures."""
import pathlib
import tempfile
import unittest
from unittest import mock

from dnssec_check_tools.asking import anchors, faults, kinds, moments, questions
from dnssec_check_tools.judging import evidence

from .helper import EXAMPLES, examples, needs_dns


class Names(unittest.TestCase):
    def test_a_missing_dot_is_added(self):
        rows = (("a.test", "a.test."), ("a.test.", "a.test."), (".", "."), ("a\\.", "a\\.."), ("a\\\\.", "a\\\\."), ("a\\\\\\.", "a\\\\\\.."),
                ("a\0b.", "a\\000b."), ("a\udcff.", "a\\255."), ("a\\", "a\\"), ("a\\\\\\", "a\\\\\\"), ("", "."))
        for text, name in rows:
            self.assertEqual(questions.name_of(text), name)

    def test_what_cannot_be_shown_is_escaped(self):
        self.assertEqual(faults.escaped("a\n\x1b\udcff b\u2028ü"), "a\\x0a\\x1b\\xff b\\u2028ü")


class Moments(unittest.TestCase):
    def test_dates_and_seconds(self):
        for text in ("2026-11-22T12:00:00Z", "2026-11-22T13:00:00+01:00", "2026-11-22T06:30:00-0530", "1795348800", "2026-11-22 12:00Z",
                     "2026-11-22T12:00:00.900Z"):
            self.assertEqual(moments.seconds_of(text), 1795348800, text)
        self.assertEqual(moments.seconds_of("2026-11-22"), 1795348800 - 12 * 3600)
        self.assertEqual(moments.seconds_of("2028-02-29"), moments.seconds_of("2028-02-29T00:00:00Z"))
        with mock.patch("time.time", lambda: 17.9):
            self.assertEqual(moments.seconds_of("now"), 17)
        self.assertEqual(moments.seconds_of("281474976710655"), 281474976710655)

    def test_others_are_refused(self):
        for text in ("", "2026-11-22T12:00:00", "2026-11-22Z", "2026-11-31", "2027-02-29", "2026-11-22 ", "2026-11-22\n", "20261122T", "2026-W47-7",
                     "1969-12-31", "0000-01-01", "2026-13-22T12:00:00Z", "-5", "281474976710656", "1969-12-31T23:59:59Z",
                     "١", "yesterday", "9" * 30, "2026-11-22T12:00:00Z\n", "2026-11-22T12:00:00+01:00\n", "2026-11-22T12:00:00\nZ"):
            with self.subTest(text), self.assertRaises(faults.WrongLine):
                moments.seconds_of(text)

    def test_text(self):
        self.assertEqual(moments.moment_text(1795348800), "2026-11-22T12:00:00Z")
        self.assertEqual(moments.moment_text(281474976710655), "281474976710655")


class Rrsets(unittest.TestCase):
    def test_they_have_the_numbers_of_the_program(self):
        """The lines `data R S HEX` were made by an independent program: HEX begins with the type covered, and has the tag at 16."""
        told = [each for each in examples("list-all") if each.status == 0]
        self.assertGreater(len(told), 15)
        for example in told:
            with self.subTest(example.name):
                found = evidence.Evidence(example.options["capture"].read_bytes())
                numbered = {(rrset.number, place): (rrset.kind, each.tag) for rrset in found.rrsets
                            for place, each in enumerate(rrset.signatures, 1)}
                lines = [line.split(" ") for line in example.output.splitlines()]
                self.assertEqual(set(numbered), {(int(rrset), int(place)) for _, rrset, place, _ in lines})
                for _, rrset, place, data in lines:
                    if data != "-":
                        wanted = int(data[:4], 16), int(data[32:36], 16)
                        self.assertEqual(numbered[int(rrset), int(place)], wanted)

    def test_torn_octets_do_no_harm(self):
        octets = (EXAMPLES / "bind-www-a" / "capture").read_bytes()
        for size in range(0, 700):
            message = octets[2:size + 2]
            evidence.Evidence(len(message).to_bytes(2, "big") + message)
        for place in range(2, 700):
            for value in (0, 0xC0, 0xFF):
                evidence.Evidence(octets[:place] + bytes([value]) + octets[place + 1:])


@needs_dns
class Types(unittest.TestCase):
    def test_mnemonics_and_numbers(self):
        for text, number in (("A", 1), ("aaaa", 28), ("DS", 43), ("28", 28), ("TYPE65280", 65280), ("https", 65), ("NSAP-PTR", 23), ("ANY", 255), ("0", 0)):
            self.assertEqual(kinds.type_of(text), number)
        for text in ("", "AX", "65536", "TYPE65536", "-1", "none", "A A", "A\n", "१"):
            self.assertIsNone(kinds.type_of(text), text)
        self.assertEqual([kinds.mnemonic_of(number) for number in (1, 65280, 23)], ["A", "TYPE65280", "NSAP-PTR"])


@needs_dns
class Anchors(unittest.TestCase):
    DS = "DS example. 10520 13 2 1ca1593db1dd5784d0fb6c3998b920daec3e4315dd30fce0313fb3a497b54c68\n"

    def of(self, text, moment=0):
        with tempfile.TemporaryDirectory() as room:
            path = pathlib.Path(room) / "anchors"
            path.write_bytes(text.encode())
            return anchors.anchors_of(str(path), [moment])[moment].decode()

    def test_records_of_a_zone_file(self):
        digest = self.DS.split(" ")[-1].upper()
        for front in ("example. 3600 IN DS", "example. IN 3600 DS", "example. in 1h30m type43", "example. IN DS", "example. DS",
                      "example 1H CLASS1 DS", "; note\n# note\nExample 3600 DS", "$TTL 1h ; note\n$ORIGIN example.\n@ DS",
                      "$ORIGIN x.example.\n$origin example. ; note\n@ IN 5 DS", "$TTL 3600\n \n\t\nexample DS"):
            for text in (f"{front} 10520 13 2 {digest}", f"{front} 10520 13 2 {digest}".replace("\n", "\r\n")):
                self.assertEqual(self.of(text).lower().lstrip("\n"), self.DS.lower())
        for key in ("( AQ\n ID ) ; key", "AQID", "A Q ( I\n\n D )"):
            self.assertEqual(self.of(f"a\\.b. IN DNSKEY 257 3 13 {key}"), "KEY a\\.b. 257 3 13 AQID\n")
        self.assertEqual(self.of("a\\.b. IN DNSKEY \\# 7 ( 010103\n0d010203 ) ; key"), "KEY a\\.b. 257 3 13 AQID\n")
        self.assertEqual(self.of("a. DNSKEY 257 3 13 AQ=="), "KEY a. 257 3 13 AQ==\n")

    def test_each_stands_on_its_line_in_its_order(self):
        """So the program says of which anchor and line of the file it speaks, also where those of an owner aren't together."""
        rows = "; note", "$TTL 5", "b. DS 1 8 1 ( " + "00" * 10, "  " + "00" * 10 + " )", "", "a. 5 IN DNSKEY 257 3 8 AQID", " IN DNSKEY 256 3 8 AQIE", \
            "  ; note", "b. IN 5 DS 2 8 1 " + "11" * 20, "b. IN 5 DS 2 8 1 " + "11" * 20
        told = ["", "", "DS b. 1 8 1 " + "00" * 20, "", "", "KEY a. 257 3 8 AQID", "KEY a. 256 3 8 AQIE", "", *["DS b. 2 8 1 " + "11" * 20] * 2]
        self.assertEqual(self.of("\n".join(rows) + "\n").split("\n"), [*told, ""])

    def test_a_refusal_names_the_line(self):
        for line in ("b. CH DS 1 13 2 00", "b. A 192.0.2.1", "b. 5 5 DS 1 13 2 00", "b. IN IN DS", "b. 5 IN 5 DS", "b. DS 1 13", "b.", "$TTL x",
                     "$TTL 5 6", "$ORIGIN", "$INCLUDE x", "$GENERATE 1-9 a DS 1 13 2 00", "b. DS 1 8 1 (\n00 )", "1 DS 1 13 2 0", "b. DS 1 8 1 \"00",
                     "b. DNSKEY 257 3 13 AQ*ID", "b. DNSKEY 257 3 13 ( AQ\nI-D )", "b. DNSKEY 257 3 13 AQID\u00e9", "b. DNSKEY 257 3 13 AQI=D",
                     "b. DNSKEY 257 3 13 \"AQID\"", "\\999. DS 1 8 1 " + "00" * 20, "b. DNSKEY \\# 4 01010308",
                     "b. DS \u0661 8 1 " + "00" * 20):
            with self.subTest(line), self.assertRaisesRegex(faults.Refusal, "^the anchors .*: neither .* records: line 4: "):
                self.of(f"\na. DS 1 8 1 ( {'00' * 20}\n)\n{line}\n")

    def test_a_digest_without_octets_is_the_programs_sign_for_none(self):
        """The program takes a DS record of a type that it doesn't know, whatever digest it has."""
        self.assertEqual(self.of("b. DS \\# 4 00010809\n"), "DS b. 1 8 9 -\n")

    def test_a_refusal_is_one_line_that_can_be_shown(self):
        """What it quotes of the file is escaped, as a path is."""
        for text, told in (("a. \x1b[2J\n", r"line 1: \\x1b\[2J is none of DS and DNSKEY"), ("a. 1\x00s DS\n", r"\\x00"), \
                           (self.XML.replace("TrustAnchor", "T\u2028"), r"no XML: "), (self.XML.replace(">.<", ">. \u200bX<"), r"KeyDigest 1: \\u200bX is none of DS")):
            with self.subTest(text), self.assertRaisesRegex(faults.Refusal, told) as refused:
                self.of(text)
            self.assertTrue(str(refused.exception).isprintable())

    XML = """<?xml version="1.0" encoding="UTF-8"?>
<TrustAnchor id="380DC50D-484E-40D0-A3AE-68F2B18F61C7" source="http://data.iana.org/root-anchors/root-anchors.xml">
<Zone>.</Zone>
<KeyDigest id="a" validFrom="1970-01-01T00:16:40+00:00" validUntil="1970-01-01T00:33:20+00:00">
<KeyTag>1</KeyTag><Algorithm>8</Algorithm><DigestType>1</DigestType><Digest>0000000000000000000000000000000000000000</Digest>
</KeyDigest>
<KeyDigest id="b" validFrom="1970-01-01T00:25:00+00:00"><!-- of two lines -->
<KeyTag> 2 </KeyTag><Algorithm>8</Algorithm><DigestType>1</DigestType>
<Digest>00000000000000000000
ABABABABABABABABABAB</Digest><PublicKey>AQID</PublicKey><Flags>257</Flags>
</KeyDigest>
</TrustAnchor>
"""

    def test_xml_of_iana_has_what_is_valid_at_the_moment(self):
        one, two = "DS . 1 8 1 " + "0" * 40 + "\n", "DS . 2 8 1 " + "0" * 20 + "ab" * 10 + "\n"
        for moment, told in ((0, "\n"), (999, "\n"), (1000, one), (1499, one), (1500, one + two), (2000, one + two), (2001, two), (1 << 47, two)):
            for front in ("", "\ufeff", "\n"):
                text = front + (self.XML if front != "\n" else self.XML.split("\n", 1)[1])
                with mock.patch.object(anchors, "tell"):
                    self.assertEqual(self.of(text, moment), told)

    def test_xml_that_is_out_of_time_has_a_note(self):
        """At each moment at which none may be used; the program then says Indeterminate, and not why."""
        with tempfile.TemporaryDirectory() as room, mock.patch.object(anchors, "tell") as told:
            path = pathlib.Path(room) / "root-anchors.xml"
            path.write_text(self.XML)
            anchors.anchors_of(str(path), [999, 1000, 0])
            notes = [f"note: of the anchors {path} none may be used at 1970-01-01T00:{time}Z" for time in ("16:39", "00:00")]
            self.assertEqual(told.mock_calls, [mock.call(note) for note in notes])

    def test_other_xml_is_refused(self):
        changes = ("<TrustAnchor ", "<!DOCTYPE x [<!ENTITY e 'e'>]>\n<TrustAnchor ", "DOCTYPE"), ("</TrustAnchor>", "", "no XML: "), \
            (">.<", ">.&e;<", "no XML: "), ("TrustAnchor", "TrustAnchors", "'TrustAnchors'"), ("<Zone>.</Zone>", "", "KeyDigest 1: "), \
            ("<Zone>.<", "<Zone>;<", "KeyDigest 1: "), (" validFrom=", " from=", "KeyDigest 1: '' is no moment"), \
            ("1970-01-01T00:25:00+00:00", "1970-01-01", "KeyDigest 2: '1970-01-01' is no moment"), ("> 2 <", "> x <", "KeyDigest 2: "), \
            ("ABAB", "", "KeyDigest 2: digest length"), ("ABAB", "\\ABAB", "KeyDigest 2: its Digest is '0"), \
            ("ABAB<", "AB;AB<", "KeyDigest 2: its Digest is '0"), ("<KeyTag>1<", "<KeyTag>\\1<", r"KeyDigest 1: its KeyTag is '"), \
            ("<Algorithm>8<", "<Algorithm>RSASHA256<", "KeyDigest 1: its Algorithm is 'RSASHA256'"), \
            ("<DigestType>1<", "<DigestType>(1)<", r"KeyDigest 1: its DigestType is '\(1\)'"), ("<Digest>", "<Hash>", "no XML: "), (".", "\ufffe", "no XML: ")
        for old, new, told in changes:
            with self.subTest(new), self.assertRaisesRegex(faults.Refusal, f"^the anchors .*: .*{told}"):
                self.of(self.XML.replace(old, new))

    def test_the_form_of_the_program_stays(self):
        for text in (self.DS, f"# note\n\n{self.DS}KEY . 257 3 8 AQID", "", "DS bad\n"):
            self.assertEqual(self.of(text), text)

    def test_others_are_refused(self):
        for text in ("example. IN A 192.0.2.1\n", "example. CH DS 1 13 2 00\n", "no anchor at all\n", "$INCLUDE /etc/passwd\n", "\xff\n", '"" DS 1 13 2 00\n'):
            with self.subTest(text), self.assertRaises(faults.Refusal):
                self.of(text)
