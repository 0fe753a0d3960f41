"""Tests of what messages say to what was asked, and of the sentences that use it."""
import itertools
import unittest

from dnssec_check_tools import wire
from dnssec_check_tools.explaining import sentences
from dnssec_check_tools.explaining.missing import UNASKED
from dnssec_check_tools.judging.replies import replies_of
from judge.helper import needs_dns

from .helper import told_by

A, NS, CNAME, SOA, DS, NSEC, DNSKEY = 1, 2, 5, 6, 43, 47, 48
NOERROR, SERVFAIL, NXDOMAIN, REFUSED = 0, 2, 3, 5
RA, CD = 0x80, 0x10


def message(name, kind, rcode=NOERROR, answer=(), authority=(), flags=wire.RESPONSE):
    """A message that answers the question with records, each an owner, a type and RDATA."""
    counts = (1, len(answer), len(authority), 0)
    records = (wire.record(wire.name_octets(owner), kind, rdata) for owner, kind, rdata in (*answer, *authority))
    return wire.header(1, counts, flags | rcode) + wire.question(wire.name_octets(name), kind) + b"".join(records)


def soa(zone):
    return zone, SOA, wire.name_octets(zone) * 2 + bytes(20)


def alias(owner, target):
    return owner, CNAME, wire.name_octets(target)


def reason(word, ede=12, **members):
    return {"line": "reason", "word": word, "ede": ede, **members}


@needs_dns
class Replies(unittest.TestCase):
    """What a message says of a question."""

    def said(self, *messages, name="www.example.", kind=A):
        reply = told_by(replies=replies_of(messages)).reply(name, kind)
        return reply and reply.text()

    def test_what_is_not_there(self):
        rows = (
            (message("www.example.", A, authority=[soa("example.")]), "answers that there is none"),
            (message("WWW.example.", A, NXDOMAIN), "answers NXDOMAIN"),
            (message("www.example.", DS, NXDOMAIN), "answers NXDOMAIN"),
            (message("www.example.", A, REFUSED), "answers REFUSED"),
            (message("www.example.", A, SERVFAIL), "answers SERVFAIL"),
            (message("www.example.", A, SERVFAIL, flags=wire.RESPONSE | RA), "answers SERVFAIL: ask with CD (delv +cd)"),
            (message("www.example.", A, SERVFAIL, flags=wire.RESPONSE | RA | CD),
             "answers SERVFAIL: ask the servers of the zone"),
            (message("www.example.", A, authority=[("example.", NS, wire.name_octets("ns."))]),
             "refers to example., whose servers are to be asked"),
            (message("www.example.", A, authority=[("example.", NS, wire.name_octets("ns.")), soa("example.")]),
             "answers that there is none"),
            (message("www.example.", DNSKEY, answer=[alias("www.example.", "a.example.")]), None),
            (message("www.example.", A, answer=[alias("www.example.", "a.example.")]), "answers with an alias (CNAME)"),
        )
        for octets, text in rows:
            with self.subTest(text):
                self.assertEqual(self.said(octets), text and f"message 1 {text}")

    def test_what_is_there_is_not_said_not_to_be(self):
        self.assertIsNone(self.said(message("www.example.", A, answer=[("www.example.", A, bytes(4))])))

    def test_what_no_message_answers(self):
        query = message("www.example.", A, flags=0)
        for octets in (query, query[:20], b"", message("example.", A, NXDOMAIN), message("www.example.", DS)):
            self.assertIsNone(self.said(octets))

    def test_an_answer_goes_before_a_failure(self):
        failing, whole = message("www.example.", A, SERVFAIL), message("www.example.", A)
        self.assertEqual(self.said(failing, whole), "message 2 answers that there is none")
        self.assertEqual(self.said(whole, failing), "message 1 answers that there is none")

    def test_the_response_code_is_that_of_the_last_name_of_a_way(self):
        way = [alias("www.example.", "b.example."), alias("b.example.", "c.example.")]
        octets = message("www.example.", A, NXDOMAIN, answer=way)
        for name, text in (("www.example.", "answers with an alias (CNAME)"), ("b.example.", "answers with an alias (CNAME)"),
                           ("c.example.", "answers NXDOMAIN")):
            self.assertEqual(self.said(octets, name=name), f"message 1 {text}")

    def test_a_way_is_gone_as_far_as_the_program_goes(self):
        way = [alias(f"n{place}.example.", f"n{place + 1}.example.") for place in range(20)]
        names = [each.name for each in replies_of([message("n0.example.", A, answer=way)])]
        self.assertEqual(names, [f"n{place}.example." for place in range(9)])

    def test_a_circle_of_aliases_ends(self):
        way = [alias("www.example.", "b.example."), alias("b.example.", "www.example.")]
        self.assertEqual(self.said(message("www.example.", A, answer=way)), "message 1 answers with an alias (CNAME)")


@needs_dns
class Sentences(unittest.TestCase):
    """What is said of what isn't there."""

    ANSWER = reason("answer-missing", name="www.example.", type=A, zone="example.")
    DENIAL = reason("denial-unproved", name="www.example.", type=A, zone="example.")
    KEYS = reason("dnskey-missing", 9, zone="example.")
    SIGNED_DS = {"line": "signed", "owner": "example.", "type": DS, "rrset": 2, "signature": 1, "tag": 9, "algorithm": 13,
                 "signer": "test.", "keys": 1}

    def said(self, line, *messages, others=()):
        told = told_by(line, *others, replies=replies_of(messages))
        return next(str(each) for each in sentences.why(told))

    def test_a_zone_that_says_that_it_has_no_keys(self):
        octets = message("example.", DNSKEY, authority=[soa("example.")])
        text = "FAIL example. DNSKEY: message 1 answers that there are none"
        self.assertEqual(self.said(self.KEYS, octets), f"{text} [EDE 9]")
        self.assertEqual(self.said(self.KEYS, octets, others=[self.SIGNED_DS]),
                         f"{text}: take the DS out of test., or sign the zone [EDE 9]")
        refused = message("example.", DNSKEY, REFUSED)
        self.assertEqual(self.said(self.KEYS, refused, others=[self.SIGNED_DS]),
                         "FAIL example. DNSKEY: message 1 answers REFUSED [EDE 9]")

    def test_what_nobody_asked_for(self):
        ds, cut = reason("ds-missing", zone="example."), reason("ds-unproved", name="b.example.", zone="example.")
        rows = (
            (self.KEYS, f"example. DNSKEY: {UNASKED} [EDE 9]"),
            (ds, f"example. DS: {UNASKED}, and there is no anchor for it [EDE 12]"),
            (self.ANSWER, f"www.example. A: {UNASKED} [EDE 12]"),
            (self.DENIAL, f"www.example. A: {UNASKED}; what example. says doesn't prove that there is none [EDE 12]"),
            (cut, f"b.example. DS: {UNASKED}; nothing that example. says proves that there is none, "
                  "which a zone without DS needs [EDE 12]"),
        )
        for line, text in rows:
            with self.subTest(line["word"]):
                self.assertEqual(self.said(line), f"FAIL {text}")

    def test_an_answer_without_a_denial(self):
        nsec = ("a.example.", NSEC, wire.nsec("z.example.", "A"))
        front, whole = "FAIL www.example. A: message 1 answers", "with no NSEC or NSEC3 record"
        rows = (
            (NXDOMAIN, (), "example.", f"NXDOMAIN {whole}"),
            (NOERROR, (), "example.", f"that there is none {whole}"),
            (NXDOMAIN, [nsec], "example.", f"NXDOMAIN {whole} of example."),
            (NXDOMAIN, (), None, f"NXDOMAIN {whole}"),
            (NXDOMAIN, [nsec], None, f"NXDOMAIN {whole} of a zone above it"),
            (REFUSED, (), "example.", "REFUSED"),
        )
        for rcode, records, zone, text in rows:
            line = {key: value for key, value in {**self.ANSWER, "zone": zone}.items() if value}
            with self.subTest(text):
                octets = message("www.example.", A, rcode, authority=[soa("example."), *records])
                self.assertEqual(self.said(line, octets), f"{front} {text} [EDE 12]")

    def test_a_denial_that_proves_nothing(self):
        octets = message("www.example.", A, NXDOMAIN, authority=[soa("example.")])
        self.assertEqual(self.said(self.DENIAL, octets),
                         "FAIL www.example. A: message 1 answers NXDOMAIN; what example. says doesn't prove that there is none "
                         "[EDE 12]")

    def test_no_record_at_a_name_of_which_there_is_none_is_not_lacking(self):
        gap = reason("cover-missing", kind="nsec", zone="example.", role="next-closer", name="www.example.")
        at_it = reason("match-missing", kind="nsec", zone="example.", name="www.example.")
        for rcode, count in ((NXDOMAIN, 2), (NOERROR, 3)):
            replies = replies_of([message("www.example.", A, rcode, authority=[soa("example.")])])
            self.assertEqual(len(sentences.reasons(told_by(gap, at_it, self.DENIAL, replies=replies))), count)
        self.assertEqual(len(sentences.reasons(told_by(gap, at_it, self.DENIAL))), 3)

    def test_where_nothing_is_known_of_the_messages(self):
        told = told_by(self.KEYS, self.ANSWER, self.DENIAL)
        self.assertEqual([each.text for each in sentences.reasons(told)], [
            "the capture has no keys of the zone", "the capture has no such record, and no proof by example. that there is none",
            "what example. says doesn't prove that there is none"])


@needs_dns
class Order(unittest.TestCase):
    """What nobody asked for stands behind what the evidence shows to be wrong."""

    ROOT = reason("dnskey-missing", 9, zone=".")
    EXPIRED = reason("expired", 7, owner="www.example.", type=A, rrset=1, signature=1, tag=9, algorithm=13, signer="example.",
                     inception=1, expiration=2, by=4536000)
    GAP = reason("cover-missing", kind="nsec", zone="example.", role="next-closer", name="www.example.")
    DENIAL = reason("denial-unproved", name="www.example.", type=A, zone="example.")
    CUT = reason("ds-unproved", name="www.example.", zone="example.")

    def words(self, lines, *messages):
        told = told_by(*lines, replies=replies_of(messages))
        said = {str(sentences.sentence(told, line)): line["word"] for line in lines}
        return [said[str(each)] for each in sentences.reasons(told)]

    def test_what_was_asked_for_goes_first(self):
        asked = message(".", DNSKEY, SERVFAIL)
        self.assertEqual(self.words([self.ROOT, self.EXPIRED]), ["expired", "dnskey-missing"])
        self.assertEqual(self.words([self.ROOT, self.EXPIRED], asked), ["dnskey-missing", "expired"])

    def test_what_a_denial_lacks_that_nobody_asked_for(self):
        lines = [self.GAP, self.DENIAL, self.EXPIRED]
        asked = message("www.example.", A, NXDOMAIN)
        self.assertEqual(self.words(lines), ["expired", "cover-missing", "denial-unproved"])
        self.assertEqual(self.words(lines, asked), ["cover-missing", "denial-unproved", "expired"])

    def test_what_a_delegation_lacks_is_asked_for_by_its_ds(self):
        lines = [self.GAP, self.CUT, self.EXPIRED]
        for kind, first in ((A, "expired"), (DS, "cover-missing")):
            self.assertEqual(self.words(lines, message("www.example.", kind))[0], first)

    def test_all_else_stays_in_its_order(self):
        """Of what nobody knows, and of what nobody asked for."""
        for replies, order in itertools.product((None, ()), ([self.ROOT, self.GAP, self.DENIAL], [self.EXPIRED])):
            told = told_by(*order, replies=replies)
            self.assertEqual([each.ede for each in sentences.reasons(told)], [line["ede"] for line in order])


@needs_dns
class Unsigned(unittest.TestCase):
    """What has no signature, of a zone that has a DS and of whose keys nobody asked."""

    UNSIGNED = reason("unsigned", 10, owner="www.unsig.test.", type=A, rrset=4)
    HELD = {"line": "signed", "owner": "unsig.test.", "type": DS, "rrset": 2, "signature": 1, "tag": 1, "algorithm": 13, "signer": "test.", "keys": 1}
    LACKS = reason("dnskey-missing", 9, zone="unsig.test.")
    ASKS = "; nobody asked whether unsig.test., which has a DS, has keys: ask for unsig.test. DNSKEY"

    def text(self, *lines, replies=()):
        return sentences.reasons(told_by(self.UNSIGNED, *lines, replies=replies))[0].text

    def test_it_says_what_to_ask_for(self):
        self.assertEqual(self.text(self.LACKS, self.HELD), "it has no signature beside it" + self.ASKS)

    def test_it_does_not_where_all_was_asked_or_no_ds_is_there(self):
        none = replies_of([message("unsig.test.", DNSKEY, authority=[soa("unsig.test.")])])
        for lines, replies in (((self.LACKS, self.HELD), none), ((self.LACKS, self.HELD), None), ((self.LACKS,), ()), ((self.HELD,), ()),
                               ((dict(self.LACKS, zone="sig.test."), dict(self.HELD, owner="sig.test.")), ())):
            self.assertEqual(self.text(*lines, replies=replies), "it has no signature beside it", lines)


if __name__ == "__main__":
    unittest.main()
