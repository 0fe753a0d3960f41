"""Tests of how judge asks for timelines: each signature is verified once, however many moments differ, and within what it may
take."""
import json
import pathlib
import tempfile
import unittest
from unittest import mock

from dnssec_check_tools.asked import Time
from dnssec_check_tools.asking.questions import Question
from dnssec_check_tools.judging import answers
from dnssec_check_tools.judging.work import Common
from dnssec_check_tools.program import OtherAnswer, Program
from dnssec_check_tools.started import nameless
from dnssec_check_tools.timelines import judged
from dnssec_check_tools.timelines.asked import Asking
from dnssec_check_tools.timelines.spans import Range, Wish
from dnssec_check_tools.verifying import compact
from dnssec_check_tools.verifying.compact import entries_of
from dnssec_check_tools.verifying.verifier import Budget, Kept
from tool import PROGRAM, run_program

from .helper import option, timelines

A = Question("a.", 1)
WHOLE = {"command": "timeline", "name": "a.", "type": 1, "from": 5, "to": 9, "edges": [], "intervals": [
    {"from": 5, "to": 9, "verdict": "Bogus", "status": 5, "aliases": [], "by": []}]}


class Made(unittest.TestCase):
    """A program that does what is wanted for a timeline."""

    def setUp(self):
        room = tempfile.TemporaryDirectory()
        self.addCleanup(room.cleanup)
        self.path = pathlib.Path(room.name) / "program"

    def told(self, script, question=A, seconds=60):
        self.path.write_text(f"#!/bin/sh\n{script}\n")
        self.path.chmod(0o755)
        with nameless(b"") as capture:
            files = {"capture": capture.fileno()}
            return Asking(Program(str(self.path)), files, Range(5, 9), Time(seconds), 1000).told(question)


class Asked(Made):
    def test_its_object_is_taken(self):
        told = self.told(f"echo '{json.dumps(WHOLE)}'")
        self.assertEqual((told.word, told.value), ("timeline", WHOLE))

    def test_its_words(self):
        text = json.dumps(WHOLE).replace("Bogus", "$(echo $* | tr -d '/')")
        told = self.told(f'cat <<END\n{text}\nEND')
        self.assertRegex(told.value["intervals"][0]["verdict"],
                         r"^timeline --capture=procselffd\d+ --from=5 --to=9 --name=a. --type=1 --json$")

    def test_another_answer_is_none(self):
        for name in ("b.", "A."):
            with self.assertRaises(OtherAnswer):
                self.told(f"echo '{json.dumps({**WHOLE, 'name': name})}'")
        for script in ("true", "echo '{}'; echo '{}'"):
            with self.assertRaises(OtherAnswer):
                self.told(script)

    def test_what_is_refused_or_fails_is_said(self):
        rows = (("echo refused 702 >&2; exit 7", (7, "refused", "702")), ("echo fault 90 >&2; exit 1", (1, "fault", "90")),
                ("kill -KILL $$", (1, "fault", "- dnssec_check timeline was ended by SIGKILL")))
        for script, wanted in rows:
            told = self.told(script)
            self.assertEqual((told.status, told.word, told.said), wanted)

    def test_the_time_is_that_of_the_questions(self):
        self.assertIn("not asked: the 0 seconds for the questions of a capture are over", self.told("true", seconds=0).said)
        self.assertIn("not asked: the 1 seconds", self.told("while :; do :; done", seconds=1).said)


@unittest.skipUnless(PROGRAM.exists(), "needs the built program")
class Once(unittest.TestCase):
    """What has to be verified is verified once for all moments, those too at which reasons are asked for."""

    def test_each_distinct_entry_is_verified_once(self):
        for name in ("key-roll-botched", "three-captures", "worse-by-a-beginning"):
            with self.subTest(name):
                self.assert_once(next(each for each in timelines() if each.folder.name == f"timeline-{name}"))

    def assert_once(self, example):
        span = Range(int(option(example, "--from")), int(option(example, "--to")))
        status, output, _ = run_program(PROGRAM, "list", "--capture", example.files["capture"], *span.words(), "--compact")
        digests = [each.digest for each in entries_of(output.decode().splitlines(), str)]
        self.assertEqual((status, len(set(digests))), (0, len(digests)))
        verified, is_good = [], compact.Entry.is_good

        def counted(entry):
            verified.append(entry.digest)
            return is_good(entry)

        moment = span.first
        common = Common({moment: example.files["anchors"].read_bytes()}, None, None, [moment], Budget(), span=Wish(span, True))
        question = Question(option(example, "--name"), int(option(example, "--type")))
        with mock.patch.object(compact.Entry, "is_good", counted), mock.patch.object(judged, "KEPT", Kept()):
            found = judged.judged(example.files["capture"].read_bytes(), [question], common, Program(str(PROGRAM)))
        self.assertGreater(len(found.rows), 4)
        self.assertEqual(sorted(verified), sorted(digests))
        self.assertTrue(all(row.explained for row in found.rows if row.status and row.word != "refused"))
        self.assertEqual(found.notes, [])


class Notes(unittest.TestCase):
    def test_what_is_left_open_counts_once(self):
        """In the list of the range, and in those of its moments."""
        told = answers.Answers(Budget(seconds=0), Kept())
        entry = mock.Mock(digest=b"1")
        self.assertEqual(list(told.to([entry])) + list(told.to([entry])), ["-", "-"])
        self.assertEqual([note.split(" ")[0] for note in told.notes()], ["1"])


if __name__ == "__main__":
    unittest.main()
