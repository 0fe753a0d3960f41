"""Tests of who signed what by the lines of an explanation: the same as by the capture, which isn't read again for it."""
import json
import unittest
from unittest import mock

from dnssec_check_tools.asking.questions import Question
from dnssec_check_tools.judging import work
from dnssec_check_tools.judging.evidence import Evidence
from dnssec_check_tools.program import Program

from .helper import ANCHORS, NOON, Judging, capture_of, examples, needs_dns

WWW, ALIAS = capture_of("bind-www-a"), capture_of("bind-alias-a")


class Signers(unittest.TestCase):
    def test_they_are_those_of_the_capture(self):
        told = 0
        for example in examples("explain.json"):
            evidence, value = Evidence(example.options["capture"].read_bytes()), json.loads(example.output)
            for place, signer in work.signers_of(value).items():
                self.assertEqual(evidence.signature(*place), signer, (example.name, place))
                told += 1
        self.assertGreater(told, 20)


@needs_dns
class Reads(Judging):
    def evidence_of(self, capture, name):
        common = work.Common({int(NOON): ANCHORS.read_bytes()}, None, None, [int(NOON)])
        rows = work.judged(capture.read_bytes(), [Question(name, 1)], common, Program(str(self.program))).rows
        return rows[0].evidence

    def test_an_answer_does_not_need_the_capture_again(self):
        with mock.patch.object(work, "Evidence", side_effect=AssertionError):
            found = self.evidence_of(WWW, "www.bind.test.")
        self.assertEqual((found["signer"], found["key"]), Evidence(WWW.read_bytes()).signature(found["rrset"], found["signature"]))

    def test_the_target_of_an_alias_does(self):
        found = self.evidence_of(ALIAS, "alias.bind.test.")
        self.assertEqual([each["target"] for each in found["aliases"]], ["www.bind.test."])


if __name__ == "__main__":
    unittest.main()
