"""Tests of how judge tells what is odd: lines, tables, a page and a status; and that all else stays as it was."""
import json
import shutil
import unittest

from judge.helper import EXAMPLES, Judging, capture_of, needs, needs_dns

WWW, SHORT = capture_of("bind-www-a"), "key 11133 (RSASHA256) has 1024 bits, fewer than 2048 [RFC 6781 3.4.2]"
ODD = f"  ODD bind.test. DNSKEY: {SHORT}"


@needs_dns
class Odd(Judging):
    def test_lines_behind_the_verdict(self):
        status, lines, errors = self.noon("--warn", WWW, "www.bind.test/A")
        self.assertEqual((status, lines[1:], errors), (0, [ODD], ""))
        self.assertEqual(self.noon(WWW, "www.bind.test/A"), (0, lines[:1], ""))

    def test_how_near_an_end_is_odd(self):
        for days, count in (("99", 2), ("98", 1), ("0", 0)):
            _, lines, _ = self.noon("--warn", "--soon", days, WWW, "www.bind.test/A")
            self.assertEqual(sum("[RFC 6781 4.4.2]" in line for line in lines) > 0, count > 1, days)

    def test_tables(self):
        _, (head, row), _ = self.noon("--tsv", WWW, "www.bind.test/A")
        self.assertEqual((head.split("\t")[-1], row.split("\t")[-1]), ("odd", "rsa-short"))
        _, (row,), _ = self.noon("--jsonl", WWW, "www.bind.test/A")
        self.assertEqual(json.loads(row)["odd"], ["rsa-short"])

    def test_what_has_no_verdict(self):
        _, (row,), _ = self.noon("--jsonl", EXAMPLES / "refuses-a-query" / "capture", "a.test/A")
        self.assertIsNone(json.loads(row)["odd"])

    def test_what_is_not_proved(self):
        """Of what is Bogus all is told that fails, and nothing that is odd."""
        status, (row,), _ = self.noon("--jsonl", WWW, "nosuch.bind.test/A")
        self.assertEqual((status, json.loads(row)["odd"]), (5, []))

    def test_a_status_of_its_own(self):
        for words, wanted in (("rsa-short", 8), ("gost-ds,rsa-short", 8), ("gost-ds", 0)):
            status, (row,), errors = self.noon("--fail-on", words, "--jsonl", WWW, "www.bind.test/A")
            value = json.loads(row)
            self.assertEqual((status, value["status"], value["verdict"], errors), (wanted, wanted, "SecureAnswer", ""))
            status, lines, _ = self.noon("--fail-on", words, WWW, "www.bind.test/A")
            self.assertEqual((status, lines[1:]), (wanted, [ODD] if wanted else []))

    def test_what_is_worse_stays(self):
        cut = capture_of("bind-cut-www")
        self.assertEqual(self.noon("--fail-on", "rsa-short", cut, "www.ins.bind.test/A")[0], 3)
        self.assertEqual(self.noon("--fail-on", "rsa-short", WWW, "www.bind.test/A", "nosuch.bind.test/A")[0], 5)

    def test_a_word_that_is_none(self):
        for words in ("rsa-hort", "", "rsa-short,", "rsa-short,ODD"):
            status, lines, errors = self.noon("--fail-on", words, WWW, "www.bind.test/A")
            self.assertEqual((status, lines), (2, []))
            self.assertIn("is no kind of what is odd", errors)

    def test_days_that_are_none(self):
        for word in ("-1", "x", "7.5", "10000", "٧"):
            self.assertEqual(self.noon("--warn", f"--soon={word}", WWW, "www.bind.test/A")[0], 2, word)

    @unittest.skipUnless(shutil.which("dot"), "needs dot of Graphviz")
    @needs("jinja2", "jinja2")
    def test_a_page_has_it_folded(self):
        path = self.room / "page.html"
        _, lines, _ = self.noon("--html", path, WWW, "www.bind.test/A")
        text = path.read_text()
        folded = text.split("<summary>What is odd, 1: an opinion, and no part of the proof</summary>")[1].split("</details>")[0]
        self.assertIn(SHORT, folded)
        self.assertEqual((len(lines), text.count("ODD")), (1, 1))


@needs_dns
class Many(Judging):
    def setUp(self):
        super().setUp()
        if self.room in self.program.parents:
            self.skipTest("the double knows no such questions")

    def test_each_once_of_all_that_a_capture_has(self):
        _, lines, _ = self.noon("--every", "--warn", WWW)
        self.assertEqual(lines[1:], [ODD])
        self.assertEqual(self.noon("--every", WWW)[1], lines[:1])


if __name__ == "__main__":
    unittest.main()
