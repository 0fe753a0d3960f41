"""Tests of --every: what a capture is asked, how it's summed up, and what becomes of a capture that can't be judged."""
import json
import shutil
import struct
from unittest import mock

from dnssec_check_tools.capturing.frames import framed
from dnssec_check_tools.judging import work
from dnssec_check_tools.judging.every import can_be_asked, every_question, has_too_many
from dnssec_check_tools.judging.evidence import Evidence
from dnssec_check_tools.judging.text import Sums
from dnssec_check_tools.judging.work import Row
from dnssec_check_tools.asking.questions import Question

from .helper import ANCHORS, EXAMPLES, Judging, capture_of, needs_dns

WWW, NOSUCH, CUT = map(capture_of, ("bind-www-a", "bind-nosuch", "bind-cut-www"))
CHAIN = [(".", 48), ("test.", 43), ("test.", 48), ("bind.test.", 43), ("bind.test.", 48)]


@needs_dns
class Every(Judging):
    def setUp(self):
        super().setUp()
        if self.room in self.program.parents:
            self.skipTest("the double knows no such questions")

    def test_each_owner_and_type_is_asked_once(self):
        self.assertEqual(every_question(Evidence(WWW.read_bytes())), [*CHAIN, ("www.bind.test.", 1)])
        self.assertEqual(every_question(Evidence(WWW.read_bytes() * 2)), [*CHAIN, ("www.bind.test.", 1)])
        self.assertEqual(every_question(Evidence(NOSUCH.read_bytes())), [*CHAIN, ("bind.test.", 6)])

    def test_only_what_can_be_asked(self):
        """As the program refuses it by 701."""
        owner, refused = (b"a",), []
        for kind in (0, 1, 2, 5, 12, 17, 35, 39, 41, 43, 46, 47, 48, 50, 52, 65, 127, 128, 250, 255, 256, 65535):
            _, lines, _ = self.noon("--jsonl", WWW, f"a./TYPE{kind}")
            is_refused = json.loads(lines[0])["evidence"] == {"number": 701}
            self.assertEqual(can_be_asked(owner, kind), not is_refused, kind)
            refused.append(is_refused)
        self.assertEqual(len(set(refused)), 2)
        self.assertEqual((can_be_asked((), 43), can_be_asked((), 48)), (False, True))

    def test_what_is_secure_is_counted(self):
        self.assertEqual(self.noon("--every", WWW), (0, [f"{WWW}: 6 questions: 6 secure"], ""))

    def test_what_is_not_secure_has_its_sentences(self):
        status, lines, errors = self.noon("--every", CUT, WWW)
        told = [f"{CUT}: 7 questions: 6 secure, 1 Insecure",
                f"{CUT}: www.ins.bind.test. A: Insecure from ins.bind.test. on, until 2027-03-01 (98 days)",
                "  WHY ins.bind.test.: it is delegated without DS, says bind.test.", f"{WWW}: 6 questions: 6 secure"]
        self.assertEqual((status, lines, errors), (3, told, ""))

    def test_moments_are_summed_up_by_themselves(self):
        _, lines, _ = self.noon("--every", "--at", "0", WWW)
        sums = [line for line in lines if " questions" in line]
        self.assertEqual(sums, [f"{WWW}: 6 questions at 2026-11-22T12:00:00Z: 6 secure", f"{WWW}: 6 questions at 1970-01-01T00:00:00Z: 6 Bogus"])

    def test_tables_have_all(self):
        status, lines, _ = self.noon("--every", "--tsv", WWW)
        self.assertEqual((status, len(lines), {line.split("\t")[5] for line in lines[1:]}), (0, 7, {"SecureAnswer"}))

    def test_what_is_refused_as_a_whole_is_told_once(self):
        query = EXAMPLES / "refuses-a-query" / "capture"
        status, lines, errors = self.noon("--every", query)
        self.assertEqual((status, len(lines), errors), (7, 1, ""))
        self.assertTrue(lines[0].startswith(f"{query}: refused 401 message 2 of the capture {query}: "))
        _, lines, _ = self.noon("--every", "--jsonl", query)
        row = json.loads(lines[0])
        self.assertEqual((len(lines), row["name"], row["type"], row["status"]), (1, None, None, 7))

    def test_a_capture_without_records_is_heard_too(self):
        torn, empty = self.room / "torn.cap", self.room / "empty.cap"
        torn.write_bytes(b"\x00")
        empty.write_bytes(b"")
        status, lines, _ = self.noon("--every", torn)
        self.assertEqual(status, 7)
        self.assertTrue(lines[0].startswith(f"{torn}: refused 209 "), lines)
        self.assertEqual(self.noon("--every", empty), (0, [f"{empty}: nothing to ask for"], ""))

    def test_a_capture_that_cannot_be_read_has_its_row(self):
        shutil.copy(WWW, self.room / "1.cap")
        (self.room / "0.cap").symlink_to(self.room / "nowhere")
        status, lines, _ = self.noon("--every", self.room)
        self.assertEqual((status, len(lines)), (1, 2))
        self.assertIn("0.cap: fault 811 the capture", lines[0])
        self.assertIn("1.cap: 6 questions: 6 secure", lines[1])

    def test_it_goes_without_questions(self):
        for words in (("www.bind.test/A", WWW), ("--questions", ANCHORS, WWW), ()):
            self.assertEqual(self.noon("--every", *words)[:2], (2, []))


def message(count, more=(0, 0), is_torn=False):
    """One with records of which the last of its counts tell."""
    record = b"\1a\0" + struct.pack(">HHIH", 65280, 1, 5, 0)
    return struct.pack(">6H", 1, 0x8400, 0, count, *more) + record * (count + sum(more) - is_torn)


class Excess(Judging):
    """Captures of more records than the program takes, of which as many names as a stranger likes would be read."""

    def test_what_the_program_refuses_is_not_read(self):
        for messages in ([message(4097)], [message(2000), message(2096, (0, 1))], [message(1, (0, 4096))], [message(60000, is_torn=True)]):
            self.assertTrue(has_too_many(framed(each[:65535] for each in messages)))
        script = "echo refused 403 message 1 >&2; exit 7"
        common = work.Common({7: b""}, None, None, [7])
        with mock.patch.object(work, "Evidence", side_effect=AssertionError("it is read")):
            found = work.judged(framed([message(4097)]), None, common, work.Program(str(self.stand_in(script))))
        self.assertEqual(found.rows, [Row(7, None, 7, "refused", {"number": 403, "message": 1}, None)])

    def test_what_it_takes_is_read(self):
        for messages in ([], [b"octets"], [message(4096)], [message(2000), message(2094, (1, 1))]):
            self.assertFalse(has_too_many(framed(messages)), messages)

    def test_the_limit_is_the_programs(self):
        if self.room in self.program.parents:
            self.skipTest("the double reads no records")
        path = self.room / "many.cap"
        for messages, told in (([message(4096)], "Indeterminate"), ([message(2000), message(2097)], "refused 403 message 2 ")):
            path.write_bytes(framed(messages))
            _, lines, _ = self.judge("--every", "--at", "7", "--anchors", "/dev/null", path)
            self.assertIn(told, lines[0])


class Counts(Judging):
    def test_from_the_best_to_the_worst(self):
        rows = [Row(7, Question("a.", 1), status, word, {}, None) for status, word in (
            (1, "fault"), (5, "Bogus"), (0, "SecureAnswer"), (7, "refused"), (0, "SecureNoName"), (5, "Bogus"), (6, "Indeterminate"),
            (4, "Pending"), (3, "Insecure"))]
        head, *_ = Sums(False, False, {}).text("x.cap", rows).splitlines()
        self.assertEqual(head, "x.cap: 9 questions: 2 secure, 1 Insecure, 1 Pending, 2 Bogus, 1 Indeterminate, 1 refused, 1 fault")
