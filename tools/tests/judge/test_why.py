"""Tests of tools/judge where a verdict isn't secure and the program says why, by a program that says what it is given to say."""
import json
import pathlib
import tempfile
import unittest

from dnssec_check_tools.asking.questions import Question
from dnssec_check_tools.judging.text import Lines, json_line, tsv_head, tsv_line
from dnssec_check_tools.judging.work import Common, judged
from dnssec_check_tools.program import Program
from tool import DATA

from .helper import needs_dns

SAYS = """#!/usr/bin/env python3
import sys
value, status = TOLD
if sys.argv[1] == "explain":
    print(value)
    sys.exit(status)
"""


@needs_dns
class Why(unittest.TestCase):
    def row(self, name):
        """The verdict that the tool makes of the explanation with this name."""
        value = json.loads((DATA / "explain" / f"{name}.json").read_text())
        with tempfile.TemporaryDirectory() as room:
            program = pathlib.Path(room) / "program"
            program.write_text(SAYS.replace("TOLD", repr((json.dumps(value), value["status"]))))
            program.chmod(0o755)
            common = Common({value["moment"]: b""}, None, None, [value["moment"]])
            row, = judged(b"", [Question(value["name"], value["type"])], common, Program(str(program))).rows
        return row

    def test_what_fails_stands_below_the_verdict(self):
        lines = Lines(False, False, {}).line("x.cap", self.row("expired-www-a")).split("\n")
        self.assertEqual(lines[:3], [
            "www.expired.test. A: Bogus",
            "  FAIL expired.test. DNSKEY: the signature by key 53641 expired on 2026-10-01 (52 days ago) [EDE 7]",
            "  FAIL www.expired.test. A: the signature by key 53641 of expired.test. expired on 2026-10-01 (52 days ago) [EDE 7]"])

    def test_without_an_anchor(self):
        lines = Lines(False, False, {}).line("x.cap", self.row("anchor-empty")).split("\n")
        self.assertEqual(lines, ["www.bind.test. A: Indeterminate",
                                 "  FAIL www.bind.test.: no trust anchor is at or above it [EDE 5]"])

    def test_tables_have_the_first_reason_and_all(self):
        row, by = self.row("expired-www-a"), "the signature by key 53641"
        end = "expired on 2026-10-01 (52 days ago)"
        said = [f"expired.test. DNSKEY: {by} {end}", f"www.expired.test. A: {by} of expired.test. {end}"]
        value = json.loads(json_line("x.cap", row))
        self.assertEqual([value[name] for name in ("until", "reason", "ede")], [None, said[0], 7])
        self.assertEqual(value["reasons"], [{"reason": text, "ede": 7} for text in said])
        self.assertEqual(tsv_line("x.cap", row).split("\t")[7:], ["", said[0], "7", f"{said[0]} [EDE 7] | {said[1]} [EDE 7]", ""])
        self.assertEqual(len(tsv_head().split("\t")), len(tsv_line("x.cap", row).split("\t")))


if __name__ == "__main__":
    unittest.main()
