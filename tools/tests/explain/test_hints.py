"""Tests of what many reasons together point to, and of copies that are told apart."""
import time
import unittest

from dnssec_check_tools.explaining import copies, sentences
from judge.helper import needs_dns
from .helper import NOON, told_by

TIMES = {"ede": 0, "tag": 9, "algorithm": 13, "signer": "b.", "signature": 1, "inception": 1, "expiration": 2, "by": 9}


def reason(word, rrset, kind=1, **others):
    """A reason of a signature of an RRset."""
    return {"line": "reason", "word": word, "owner": "b.", "type": kind, "rrset": rrset, **TIMES, **others}


def unsigned(rrset, kind):
    return {"line": "reason", "word": "unsigned", "ede": 10, "owner": f"n{rrset}.", "type": kind, "rrset": rrset}


FOLLOWS = {**reason("untrusted", 3), "line": "follows"}
KEY = {"line": "key", "zone": "b.", "rrset": 3, "record": 1, "tag": 9, "algorithm": 13, "flags": 257}
TRUSTED = {"line": "trusted", "zone": "a.", "rrset": 4, "signature": 1, "tag": 5, "algorithm": 8, "anchor": 1, "digest_type": 2}
LATER = "2026-11-22T12:00:00Z: all signatures on the way begin later: is the clock right?"
ENDED = "2026-11-22T12:00:00Z: all signatures on the way ended before: is the clock right, and is the capture of that time?"
STRIPPED = "DNSKEY: from here on nothing has a signature: was it asked with DO, and does all that lies between pass that on?"


@needs_dns
class Hints(unittest.TestCase):
    def said(self, lines):
        return [str(each) for each in sentences.why(told_by(*lines, moment=NOON)) if each.mark == "WHY"]

    def test_the_clock(self):
        early, over = [reason("not-yet", 1), reason("not-yet", 2)], [reason("expired", 1), reason("expired", 2)]
        rows = (
            (early, [LATER]), (over, [ENDED]), (early[:1], [LATER]), ([early[0], over[1]], []), ([], []),
            # Of one signature more may fail than its time.
            ([*early, reason("key-missing", 1)], [LATER]), ([*early, reason("bad", 3)], []),
            # Another one of the same RRset, and others that are in time.
            ([*over, reason("bad", 2, signature=2)], []), ([*over, FOLLOWS], []), ([*early, TRUSTED], []),
            ([*over, KEY], [ENDED]), ([*over, {**KEY, "signature": 1}], []),
        )
        for lines, wanted in rows:
            self.assertEqual(self.said(lines), [f"WHY {each}" for each in wanted], lines)

    def test_signatures_that_nobody_asked_for(self):
        keys, answer, missing = unsigned(1, 48), unsigned(2, 1), {"line": "reason", "word": "dnskey-missing", "ede": 9, "zone": "c."}
        rows = (
            ([keys, answer], True), ([keys, unsigned(2, 48), unsigned(3, 43)], True), ([keys], False), ([answer, unsigned(3, 43)], False),
            ([keys, answer, FOLLOWS], False), ([keys, answer, reason("bad", 3)], False), ([keys, answer, TRUSTED], True),
            ([missing, keys, answer], False), ([keys, answer, missing], True),
        )
        for lines, is_said in rows:
            self.assertEqual(self.said(lines), [f"WHY n1. {STRIPPED}"] * is_said, lines)


def placed(*messages):
    """The RRsets of the keys of b. from 1 on, in these messages."""
    return [{"line": "rrset", "rrset": number, "message": message, "section": 1, "owner": "b.", "type": 48}
            for number, message in enumerate(messages, 1)]


@needs_dns
class Copies(unittest.TestCase):
    def about(self, *lines):
        """What the sentences of what fails and of the keys are about."""
        return [each.about for each in sentences.why(told_by(*lines)) if each.mark in ("FAIL", "HAS")]

    def test_copies_that_stand_alike_are_one(self):
        lines = [reason("bad", number, 48) for number in (1, 2)] + [{**KEY, "rrset": number} for number in (1, 2)]
        self.assertEqual(self.about(*lines, *placed(4, 7)), ["b. DNSKEY", "b. DNSKEY"])

    def test_others_have_their_messages(self):
        one = [reason("bad", 1, 48), {**KEY, "rrset": 1}]
        for lines, wanted in (([{**KEY, "rrset": 2}], ["4", "4", "7"]), ([{**KEY, "rrset": 2, "signature": 1}], ["4", "4", "7"]),
                              ([reason("expired", 2, 48), {**KEY, "rrset": 2}], ["4", "7", "4", "7"]), ([], ["4", "4"])):
            self.assertEqual(self.about(*one, *lines, *placed(4, 7)), [f"b. DNSKEY of message {each}" for each in wanted])

    def test_no_message_is_said_where_it_tells_nothing(self):
        lines = [reason("bad", 1, 48), {**KEY, "rrset": 2}]
        for places in (placed(), placed(4), placed(4, 4)):
            self.assertEqual(self.about(*lines, *places), ["b. DNSKEY", "b. DNSKEY"], places)
        self.assertEqual(self.about(reason("bad", 1, 1), {**KEY, "rrset": 2}, *placed(4, 7)), ["b. A", "b. DNSKEY of message 7"])

    def test_many_copies_take_little_time(self):
        """A fifth of a second of a processor on the machine where it was measured; compared pair by pair, a minute."""
        lines = [line for number in range(1, 5001) for line in (reason("expired", number, 48, by=number % 7), {**KEY, "rrset": number})]
        begun = time.process_time()
        self.assertEqual(len(self.about(*lines, *placed(*range(1, 5001)))), 14)
        self.assertLess(time.process_time() - begun, 5)

    def test_of_many_messages_the_first_are_said(self):
        rows = (({7}, "message 7"), ({7, 4}, "messages 4 and 7"), ({3, 2, 1}, "messages 1, 2 and 3"), ({4, 3, 2, 1}, "messages 1, 2, 3 and 1 more"))
        for numbers, text in rows:
            self.assertEqual(copies.messages_text(numbers), text)


if __name__ == "__main__":
    unittest.main()
