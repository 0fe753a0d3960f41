"""Faults that are planted in the readers are found: for each property of a target one that breaks it."""
import re
import unittest
from unittest import mock

from dnssec_check_tools.asking import anchors, captures, questions, root_anchors, zone_file
from dnssec_check_tools.capturing import answers, dnsviz, packets, sources, splitting
from dnssec_check_tools.judging import evidence
from dnssec_check_tools.verifying import entries, rsa
from fuzzing import loop
from fuzzing.target import Desk, Said, desk_of
from fuzzing.targets import TARGETS

from fuzzing.targets import capture as of_capture
from fuzzing.targets import verify as of_verify

SECONDS = 20  # at most: most are found in the corpus as it is


def anchor_in_upper_case(owner, record, is_ds, made=anchors.anchor_line):
    return made(owner, record, is_ds).upper()


def anchor_of_the_next_tag(owner, record, is_ds, made=anchors.anchor_line):
    return re.sub(r"^(DS \S+) (\d+)", lambda match: f"{match[1]} {int(match[2]) ^ 1}", made(owner, record, is_ds))


def rrset_of_the_next_number(number, owner, kind, made=evidence.Rrset):
    return made(number + 1, owner, kind)


def words_without_the_last(self, made=zone_file.ZoneFile.words):
    return made(self)[:-1] + ["00" * 20]


def reason_without_repeats(octets, mac, _, made=answers.reason_against):
    return made(octets, mac, {})


# By target: what is patched, what stands in its place, and what the fault says.
PLANTED = {
    "a name of a file that is a path": ("capture", splitting, "quote", lambda label, safe: label.decode("latin-1"), "the name of a file"),
    "queries that are kept": ("capture", answers, "is_query", lambda _: False, "it answers no question"),
    "repeats that are kept": ("capture", answers, "reason_against", reason_without_repeats, "one is there twice"),
    "a MAC of any length": ("capture", answers, "refuse_excess", lambda *_: None, "a MAC of another length"),
    "a server's name as it is": ("capture", dnsviz, "shown", str, "can't be shown"),
    "hex that isn't looked at": ("capture", sources, "octets_of_line", lambda line, _: bytes.fromhex(line), "ValueError"),
    "packets whose end isn't looked at": ("capture", packets, "number_at", lambda octets, place, _: octets[place], "IndexError"),
    "a capture of judge's own": ("capture", captures, "framed", lambda _: b"", "judge makes another capture of it"),
    "numbers that begin elsewhere": ("records", evidence, "Rrset", rrset_of_the_next_number, "numbers that don't rise"),
    "RDATA that isn't looked at": ("records", evidence, "readable_records", lambda octets: [(each, ()) for each in evidence.records_of(octets)], "Incomplete"),
    "digits that are odd": ("verify", entries, "any", lambda _: False, "is taken"),
    "an RSA signature that isn't looked at": ("verify", entries, "is_signed_by_rsa", lambda *_: True, "a library says otherwise"),
    "a modulus that isn't looked at": ("verify", rsa, "rsa_key", lambda key, _: (key[0], 3), None),
    "an anchor in another form": ("anchors", anchors, "anchor_line", anchor_in_upper_case, "a line that is no anchor"),
    "faults of the library": ("zone", zone_file, "FAULTS", (), "Error"),
    "another record": ("zone", zone_file.ZoneFile, "words", words_without_the_last, "the library reads other records"),
    "elements that aren't looked at": ("xml", root_anchors, "FIELDS", dict.fromkeys(root_anchors.FIELDS, re.compile("(?s:.*)")), "none of the elements"),
    "another tag": ("xml", anchors, "anchor_line", anchor_of_the_next_tag, "none of the elements"),
    "a dot that is always added": ("questions", questions, "name_of", lambda text: text + ".", "is read as another"),
}


class Planted(unittest.TestCase):
    def faults(self, name, seconds=SECONDS):
        """The kinds of fault of a target, up to the first."""
        with desk_of(None) as desk, mock.patch.multiple(loop, KINDS_MOST=1, shrunk=lambda target, octets, *_: octets):
            return list(loop.Loop(TARGETS[name], "1", desk).run(seconds).faults)

    def test_each_is_found(self):
        for what, (name, module, attribute, other, told) in PLANTED.items():
            with self.subTest(what), mock.patch.object(module, attribute, other, create=True):
                kinds = self.faults(name)
                self.assertTrue(kinds)
                self.assertIn(told or "", kinds[0])

    def test_what_the_program_says_is_looked_at(self):
        """It refuses what capture wrote as no file of messages, and statements."""
        desk = mock.Mock(spec=Desk)
        for number in of_capture.WRONG_FRAMES:
            desk.ask.return_value = Said(7, "", number)
            with self.assertRaisesRegex(Exception, f"refuses it: {number}"):
                of_capture.check_by_program([bytes(12)], desk)
        desk.ask.return_value = Said(7, "", 501)
        with self.assertRaisesRegex(Exception, "refuses it: 501"):
            of_verify.check_by_program(["good 8 - - -\n"], desk)


if __name__ == "__main__":
    unittest.main()
