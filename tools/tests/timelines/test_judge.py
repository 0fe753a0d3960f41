"""Tests of tools/judge --from --to and --timeline: lines, tables and statuses, over the examples."""
import json
import re
import unittest

from dnssec_check_tools.timelines.pieces import Timeline
from judge.helper import capture_of, needs_dns

from .helper import Timelines, option, timelines

SPAN = re.compile(r"^\S+ \S+ from (\S+) to (\S+?)(, now)?: (\S+)")
FROM_BEST = (0, 3, 4, 5, 6, 7, 1)
OTHERS = ("timeline-pending-some",)  # whose statements lack some that can be verified


def spans(lines):
    """The moments and the verdict of each line of an interval."""
    return [match.groups() for match in map(SPAN.match, lines) if match]


def of_kinds(example):
    """The verdicts of the same example where kinds are told, joined as lines are but for aliases and cuts."""
    return [each.word for each in Timeline(json.loads(example.output)).shown(False, lambda rrset: None)]


@needs_dns
class Lines(Timelines):
    def test_a_line_an_interval(self):
        status, lines, errors = self.example("two-captures", "--at", "2026-11-28")
        self.assertEqual((status, errors), (5, ""))
        self.assertEqual(spans(lines), [
            ("2026-11-25T00:00:00Z", "2026-11-26T22:59:59Z", None, "Bogus"),
            ("2026-11-26T23:00:00Z", "2026-12-09T00:00:00Z", ", now", "SecureAnswer"),
            ("2026-12-09T00:00:01Z", "2027-01-16T00:00:00Z", None, "Bogus")])
        between = [line for line in lines if line.startswith(("  ENDS", "  BEGINS", "  NEXT"))]
        self.assertEqual(between[0], "  BEGINS . DNSKEY: the signature by key 53228 begins here; it ends on 2026-12-26")
        self.assertEqual(between[6:], [
            "  NEXT test. DNSKEY and shop.test. DS: their signatures end on 2026-12-04 (in 6 days), and others take over",
            "  ENDS test. DNSKEY: the signature by key 19149 ends here; it began on 2026-12-01",
            "  ENDS shop.test. DS: the signature by key 5505 of test. ends here; it began on 2026-12-01"])

    def test_verbose_tells_where_other_signatures_take_over(self):
        _, lines, _ = self.example("two-captures", "--at", "2026-11-28", "--verbose")
        self.assertEqual([each[3] for each in spans(lines)], ["Bogus", "SecureAnswer", "SecureAnswer", "Bogus"])
        place = lines.index("  ENDS test. DNSKEY: the signature by key 19149 ends here; it began at 2026-11-26T23:00:00Z")
        self.assertTrue(lines[place - 2].startswith("www.shop.test. A from 2026-11-26T23:00:00Z to 2026-12-04T00:00:00Z, now"))

    def test_what_ends_next_and_what_is_said_then(self):
        rows = (("bogus-holds-so-far", "2026-11-30", "w.c.p. A: its signature ends on 2026-12-02 (in 2 days), and then it is Bogus"),
                ("bind-cut-www", "2026-11-28", "bind.test. DNSKEY and ins.bind.test. NSEC: their signatures end on 2027-03-01 "
                 "(in 93 days), and then it is Bogus"))
        for name, now, text in rows:
            _, lines, _ = self.example(name, "--at", now)
            self.assertEqual([line for line in lines if line.startswith("  NEXT")], [f"  NEXT {text}"])
        for name, now in (("bogus-holds-so-far", "2026-11-26"), ("bind-cut-www", "2028-01-01")):
            _, lines, _ = self.example(name, "--at", now)
            self.assertEqual([line for line in lines if line.startswith("  NEXT")], [], now)

    def test_a_refused_interval_says_what_to_do(self):
        status, lines, _ = self.example("loop-for-a-day", "--at", "2026-11-30")
        self.assertEqual(status, 7)
        self.assertIn("a.p. A from 2026-11-30T00:00:00Z to 2026-12-01T00:00:00Z, now: refused 702: the name is an alias, and its aliases "
                      "lead in a circle; the zones are at fault: ask for the type CNAME to see each link", lines)

    def test_refused_throughout(self):
        status, lines, _ = self.example("refused-throughout")
        self.assertEqual((status, len(lines), lines[0][:23]), (7, 1, "a.p. A: refused 702: th"))

    def test_all_examples(self):
        """Each is told whole, from its first moment to its last, and the status is the worst."""
        count = 0
        for example in timelines():
            if example.errors:
                continue
            with self.subTest(example.name):
                status, lines, errors = self.told(example, "--at", option(example, "--from"), "--jsonl")
                rows = [json.loads(line) for line in lines]
                self.assertEqual((rows[0]["from"], rows[-1]["to"]), (int(option(example, "--from")), int(option(example, "--to"))))
                self.assertTrue(all(row["to"] + 1 == other["from"] for row, other in zip(rows, rows[1:])))
                self.assertEqual(status, max((row["status"] for row in rows), key=FROM_BEST.index))
                if example.folder.name not in OTHERS:
                    self.assertEqual([row["verdict"] for row in rows], of_kinds(example))
                count += 1
        self.assertGreater(count, 38)

    def test_several_captures_have_their_names(self):
        found, = (each for each in timelines() if each.folder.name == "timeline-one-moment")
        _, lines, _ = self.told(found, capture_of("bind-www-a"))
        self.assertEqual({line.split(": ")[0] for line in lines if not line.startswith("  ")},
                         {str(found.files["capture"]), str(capture_of("bind-www-a"))})


@needs_dns
class Tables(Timelines):
    def test_rows_have_moments(self):
        _, lines, _ = self.example("two-captures", "--at", "2026-11-28", "--tsv")
        head, *rows = [line.split("\t") for line in lines]
        self.assertEqual(head, "capture from to name type status verdict evidence edges next reason ede reasons".split())
        told = [dict(zip(head, row)) for row in rows]
        self.assertEqual([(row["from"], row["to"], row["status"], row["verdict"], row["next"]) for row in told], [
            ("1795564800", "1795733999", "5", "Bogus", ""), ("1795734000", "1796774400", "0", "SecureAnswer", "1796342400"),
            ("1796774401", "1800057600", "5", "Bogus", "")])
        self.assertEqual(told[2]["edges"].split(" | ")[0], "ends 1796774400 test. 48 rrset 11 signature 1 key 19149 13 zone test. "
                         "from 1796166000 to 1796774400")

    def test_objects_have_the_edges_of_the_program(self):
        found, = (each for each in timelines() if each.folder.name == "timeline-key-roll")
        _, lines, _ = self.told(found, "--jsonl", "--verbose")
        rows = [json.loads(line) for line in lines]
        value = json.loads(found.output)
        self.assertEqual([edge for row in rows for edge in row["edges"]], value["edges"])
        self.assertEqual([(row["from"], row["to"]) for row in rows], [(each["from"], each["to"]) for each in value["intervals"]])


class Words(Timelines):
    def wrong(self, words, why):
        status, lines, errors = self.judge(*words, capture_of("bind-www-a"), "a.test/TYPE1")
        self.assertEqual((status, lines), (2, []), words)
        self.assertIn(why, errors)

    @needs_dns
    def test_what_goes_together(self):
        span = ("--from", "7", "--to", "8")
        for words, why in (
                (("--from", "7"), "--from and --to go together"), (("--to", "7"), "--from and --to go together"),
                ((*span, "--timeline"), "--timeline goes without --from and --to"), (("--from", "8", "--to", "7"), "--from is later than --to"),
                (("--from", "0", "--to", "4294967296"), "from --from to --to are 2^32 seconds or more"),
                ((*span, "--from", "6"), "--from is given twice"), ((*span, "--at", "6", "--at", "7"), "--at is given twice"),
                (("--verbose",), "--verbose goes with --from and --to, or with --timeline"),
                (("--from", "tomorrow", "--to", "8"), "--from: 'tomorrow' is no moment"), (("--from", "7", "--to", "x"), "--to: 'x' is no moment"),
                ((*span, "--skew", "5"), "--skew goes without --from, --to and --timeline"), ((*span, "--warn"), "--warn goes without"),
                ((*span, "--fail-on", "rsa-short"), "--fail-on goes without"), ((*span, "--zone"), "--zone goes without"),
                ((*span, "--keys", "k"), "--keys goes without"), (("--timeline", "--tsv", "--resume", "t"), "--resume goes without")):
            with self.subTest(words):
                self.wrong(words, why)

    @needs_dns
    def test_the_longest_range_is_asked(self):
        self.assertEqual(self.example("longest-range")[0], 5)


if __name__ == "__main__":
    unittest.main()
