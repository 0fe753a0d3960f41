"""Tests of tools/judging where aliases are followed, by a program that says what it is given to say."""
import json
import pathlib
import tempfile
import unittest

from dnssec_check_tools.asking.questions import Question
from dnssec_check_tools.judging.text import Lines, evidence_words
from dnssec_check_tools.judging.work import Common, judged
from dnssec_check_tools.program import Program

from tool import load
from .helper import ANCHORS, EXAMPLES, examples
from .test_examples import lines_of

CAPTURE = EXAMPLES / "bind-alias-a" / "capture"
NOON = 1795348800
SAYS = """#!/usr/bin/env python3
import sys
status, output, errors = TOLD
if sys.argv[1] == "explain":
    sys.stdout.write(output)
    sys.stderr.write(errors)
    sys.exit(status)
"""
QUESTION = Question("alias.bind.test.", 1)
LINK = {"name": "alias.bind.test.", "rrset": 6, "signature": 1, "signer": "bind.test.", "key": 11133,
        "target": "www.bind.test."}
ALIAS = "alias alias.bind.test. rrset 6 signature 1"


class Aliases(unittest.TestCase):
    def setUp(self):
        room = tempfile.TemporaryDirectory()
        self.addCleanup(room.cleanup)
        self.program = pathlib.Path(room.name) / "program"

    def row(self, status, *lines, errors="", capture=CAPTURE, question=QUESTION):
        """The verdict that the tool makes of what the program says."""
        words, text = ["explain", "--moment", str(NOON)], "".join(line + "\n" for line in lines)
        output = load("as-json").as_json(words, text) if lines else ""
        self.program.write_text(SAYS.replace("TOLD", repr((status, output, errors))))
        self.program.chmod(0o755)
        common = Common({NOON: ANCHORS.read_bytes()}, None, None, [NOON])
        row, = judged(capture.read_bytes(), [question], common, Program(str(self.program))).rows
        return row

    def said(self, row):
        return Lines(False, False, {}).said("x.cap", row)

    def test_an_answer_behind_an_alias(self):
        row = self.row(0, "SecureAnswer alias.bind.test. 1", ALIAS, "rrset 7 signature 1")
        carried = {"aliases": [LINK], "rrset": 7, "signature": 1, "signer": "bind.test.", "key": 11133}
        self.assertEqual((row.status, row.word, row.evidence), (0, "SecureAnswer", carried))
        self.assertEqual(self.said(row), "SecureAnswer; by way of the alias to www.bind.test. (RRset 6)")
        self.assertEqual(evidence_words(row.evidence),
                         f"{ALIAS}; rrset 7 signature 1 signer bind.test. key 11133")
        json.dumps(row.evidence)

    def test_denials_and_cuts_behind_an_alias(self):
        row = self.row(0, "SecureNoData alias.bind.test. 1", ALIAS, "record www.bind.test. 47")
        self.assertEqual(row.evidence, {"aliases": [LINK], "records": [["www.bind.test.", "NSEC"]]})
        self.assertEqual(self.said(row), "SecureNoData; by way of the alias to www.bind.test. (RRset 6)")
        row = self.row(3, "Insecure alias.bind.test. 1", ALIAS, "cut www.bind.test.")
        self.assertEqual(row.evidence, {"aliases": [LINK], "cut": "www.bind.test."})
        self.assertEqual(evidence_words(row.evidence), f"{ALIAS}; cut www.bind.test.")

    def test_only_what_is_to_check_is_counted(self):
        row = self.row(4, "Pending alias.bind.test. 1", ALIAS, "todo 13 01 02 03")
        self.assertEqual(row.evidence, {"aliases": [LINK], "todo": 1})
        self.assertEqual(self.said(row), "Pending on 1 signature that could not be verified here; "
                                         "by way of the alias to www.bind.test. (RRset 6)")

    def test_what_is_bogus_has_its_aliases(self):
        row = self.row(5, "Bogus alias.bind.test. 1", ALIAS)
        self.assertEqual(row.evidence, {"aliases": [LINK]})
        self.assertEqual(self.said(row), "Bogus; by way of the alias to www.bind.test. (RRset 6)")
        self.assertEqual(evidence_words(row.evidence), ALIAS)

    def test_several_are_told_in_their_order(self):
        row = self.row(0, "SecureAnswer alias.bind.test. 1", ALIAS, "alias b.test. rrset 99 signature 1", "rrset 7 signature 1")
        self.assertEqual(row.evidence["aliases"][1], {"name": "b.test.", "rrset": 99, "signature": 1})
        self.assertIn("; by way of the aliases to www.bind.test. (RRset 6), ? (RRset 99)", self.said(row))

    def test_in_each_example_an_alias_leads_to_the_next(self):
        followed = [each for each in examples("check") if "\nalias " in each.output]
        self.assertGreater(len(followed), 9)
        for example in followed:
            with self.subTest(example.name):
                question = Question(example.options["name"], int(example.options["type"]))
                verdict, *lines = example.output.splitlines()
                row = self.row(example.status, verdict, *lines, capture=example.options["capture"], question=question)
                self.assertEqual(lines_of({"verdict": row.word, "evidence": row.evidence}), lines)
                targets = [each["target"] for each in row.evidence["aliases"]]
                self.assertEqual([each["name"] for each in row.evidence["aliases"]], [question.name, *targets[:-1]])

    def test_links_that_lead_nowhere_are_refused(self):
        for number, told in ((702, "circle"), (703, "eight"), (704, "target")):
            row = self.row(7, errors=f"refused {number}\n")
            self.assertEqual((row.status, row.word, row.evidence), (7, "refused", {"number": number}))
            self.assertRegex(self.said(row), rf"^refused {number}: the name is .*{told}.*; ")


if __name__ == "__main__":
    unittest.main()
