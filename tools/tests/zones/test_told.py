"""Tests of how what is found of a zone is told: what isn't as it's to be, and the sums, by rows that are made up."""
import unittest
from unittest import mock

from dnssec_check_tools.judging.work import Row
from dnssec_check_tools.odd.kinds import Odd
from dnssec_check_tools.zones import told
from dnssec_check_tools.zones.audit import Audit
from dnssec_check_tools.zones.names import Hashing
from dnssec_check_tools.zones.questions import RRSET, TYPE
from dnssec_check_tools.zones.told import ZoneText
from dnssec_check_tools.zones.transfer import transfer_of

from . import signed

NSEC3 = 50
STATUS = {"SecureAnswer": 0, "SecureNoData": 0, "SecureNoName": 0, "Insecure": 3, "Bogus": 5, "fault": 1}


@unittest.skipUnless(signed.SIGNER, "needs ldnsutils")
class Told(unittest.TestCase):
    def setUp(self):
        records, _ = signed.signed(signed.SMALL, signed.NSEC)
        self.audit = Audit(transfer_of(signed.transfer(records)))

    def row(self, item, word=None, moment=7, owners=()):
        """A verdict, which is the one that is wanted where none is told, by the records of these owners."""
        evidence = {"said": "lost"} if word == "fault" else {"records": [[owner, "NSEC"] for owner in owners]} if owners else {}
        return Row(moment, item.question, STATUS[word or item.wanted], word or item.wanted, evidence, None)

    def said(self, rows, has_moments=False):
        text = ZoneText(self.audit, has_moments, {})
        with mock.patch.object(ZoneText, "said", lambda _, __, row: row.word):
            return text.text("example. part 1", rows).splitlines(), text.sums().splitlines(), text.worst

    def test_what_is_as_it_is_to_be_has_no_line(self):
        lines, sums, worst = self.said([self.row(item) for item in self.audit.items])
        self.assertEqual((lines, worst), ([], 0))
        self.assertEqual(sums[:5], ["zone example.: 11 names, 35 questions to 1 capture", "zone example.: 13 RRsets: 13 proved",
                                    "zone example.: 11 absent types: 11 proved", "zone example.: 11 gaps: 11 proved",
                                    "zone example.: 11 records of the chain: 0 in a proof"])
        self.assertEqual(len(sums), 5 + 11)

    def test_what_is_not_has_one(self):
        """Also where it's secure, and denies what the transfer has, or the other way round."""
        rows = [self.row(item) for item in self.audit.items]
        first = {about: next(number for number, item in enumerate(self.audit.items) if item.about == about) for about in (RRSET, TYPE)}
        for about, word in ((RRSET, "SecureNoData"), (TYPE, "SecureAnswer")):
            number = first[about]
            item = self.audit.items[number]
            lines, sums, worst = self.said([*rows[:number], self.row(item, word), *rows[number + 1:]])
            self.assertEqual((len(lines), worst), (2, 5))
            self.assertEqual(lines[1], f"  FAIL {item.question.name}: by the transfer it's to be {item.wanted}")
            self.assertIn(f"zone example.: not proved: 1 {word}", sums)
        for word in ("Bogus", "Insecure", "fault"):
            lines, sums, worst = self.said([self.row(self.audit.items[0], word), *rows[1:]])
            self.assertEqual((len(lines), worst), (1, 0))
            self.assertTrue(lines[0].endswith(f": {word}"))
            self.assertIn("zone example.: 13 RRsets: 12 proved", sums)

    def test_gaps_of_the_chain_are_odd(self):
        """Which a status tells where that is asked for."""
        rows, gap = [self.row(item) for item in self.audit.items], Odd("chain-gap", "a. NSEC", "it names b.")
        with mock.patch.object(told, "gaps_of", lambda _: [gap]):
            self.assertEqual([self.said(rows)[1][-1] == f"zone example.: {gap}", self.said(rows)[2]], [False, 0])
            with mock.patch.multiple(ZoneText, is_odd_told=True, failing={"chain-gap"}):
                self.assertEqual([self.said(rows)[1][-1], self.said(rows)[2]], [f"zone example.: {gap}", 8])
            with mock.patch.multiple(ZoneText, is_odd_told=True, failing={"rsa-short"}):
                self.assertEqual(self.said(rows)[2], 0)

    def test_moments_are_summed_up_by_themselves(self):
        rows = [self.row(item, moment=moment) for moment in (0, 7) for item in self.audit.items]
        rows[-1] = self.row(self.audit.items[-1], "Bogus", 7)
        lines, sums, _ = self.said(rows, True)
        self.assertEqual(len(lines), 1)
        self.assertEqual([line for line in sums if " gaps: " in line],
                         ["zone example. at 1970-01-01T00:00:00Z: 11 gaps: 11 proved", "zone example. at 1970-01-01T00:00:07Z: 11 gaps: 10 proved"])

    def test_records_that_no_proof_has_are_named(self):
        """So many, and then counted."""
        rows = [self.row(item) for item in self.audit.items]
        item = self.audit.items[-1]
        rows[-1] = self.row(item, owners=("example.", "www.example.", "mail.example."))
        with mock.patch.object(told, "SHOWN_MOST", 7):
            _, sums, _ = self.said(rows)
        self.assertIn("zone example.: 11 records of the chain: 3 in a proof", sums)
        named = [line.rpartition(" ")[2] for line in sums if "in no proof: the record" in line]
        self.assertEqual((len(named), {"example.", "www.example.", "mail.example."} & set(named)), (7, set()))
        self.assertEqual(sums[-1], "zone example.: in no proof: 1 more")

    def test_a_verdict_that_is_not_secure_proves_no_record(self):
        rows = [self.row(item, "Bogus", owners=("example.",)) for item in self.audit.items]
        self.assertIn("zone example.: 11 records of the chain: 0 in a proof", self.said(rows)[1])


@unittest.skipUnless(signed.SIGNER, "needs ldnsutils")
class Iterations(unittest.TestCase):
    """Whoever makes a zone says how often each of its names is hashed."""

    def audit(self, iterations):
        records = [(owner, ttl, rdata.replace(iterations=iterations) if rdata.rdtype == NSEC3 else rdata)
                   for owner, ttl, rdata in signed.signed(signed.SMALL, signed.NSEC3)[0]]
        return Audit(transfer_of(signed.transfer(records)))

    def test_what_the_program_does_not_use_is_not_hashed(self):
        with mock.patch.object(Hashing, "of_wire", side_effect=AssertionError("a name is hashed")):
            for iterations in (501, 65535):
                audit = self.audit(iterations)
                self.assertEqual(audit.lacking(), ["the zone's NSEC3 records have more than 500 iterations, so none of them is used: "
                                                   "nothing that it denies is asked"])
                self.assertEqual({item.about for item in audit.items}, {RRSET})

    def test_what_it_uses_is(self):
        audit = self.audit(500)
        self.assertEqual(len(audit.chain.owners), len(audit.chain.digests))
        self.assertIn(TYPE, {item.about for item in audit.items})


if __name__ == "__main__":
    unittest.main()
