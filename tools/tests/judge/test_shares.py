"""Tests of --jobs where one capture has many questions: processes share them, and the same comes of it."""
import functools
import unittest
from unittest import mock

from dnssec_check_tools.asking.questions import Question
from dnssec_check_tools.judging import processes
from dnssec_check_tools.judging.spread import Task
from dnssec_check_tools.judging.work import Common
from dnssec_check_tools.program import Program
from dnssec_check_tools.verifying.verifier import Budget

from .helper import ANCHORS, NOON, Judging, capture_of, needs_dns

WWW = capture_of("bind-www-a")
MOMENTS = [int(NOON), int(NOON) + 1]
ASKED = [Question(f"{name}.bind.test.", kind) for name in ("a", "www", "b", "c", "d") for kind in (1, 16)]


@needs_dns
class Shares(Judging):
    def setUp(self):
        super().setUp()
        if self.room in self.program.parents:
            self.skipTest("the double lists nothing at other moments")
        for patch in (mock.patch.object(processes, "SHARE_LEAST", 2),):
            patch.start()
            self.addCleanup(patch.stop)
        self.common = Common({moment: ANCHORS.read_bytes() for moment in MOMENTS}, None, None, MOMENTS)

    def judged(self, jobs, count=1, questions=ASKED, script=":", octets=WWW.read_bytes()):
        """The verdicts, and how many questions each run of `explain` had at the first moment."""
        log = self.room / f"log-{jobs}-{count}"
        asked = 'for word; do case $word in --questions=*) cat "${word#--questions=}" | wc -l >> ' + str(log) + ";; esac; done"
        program = Program(str(self.stand_in(f'[ "$1" = explain ] && {{ {asked}; }}\n{script}')))
        tasks = [Task(number, "-", octets, None, questions) for number in range(count)]
        found = dict(processes.in_processes(tasks, self.common, program, jobs, count))
        return [found[number] for number in range(count)], sorted(map(int, log.read_text().split()))

    def test_questions_are_shared_and_the_same_comes_of_them(self):
        alone, sizes = self.judged(1)
        self.assertEqual(sizes, [10, 10])
        self.assertEqual([row.moment for row in alone[0].rows], [MOMENTS[0]] * 10 + [MOMENTS[1]] * 10)
        for jobs, wanted in ((2, [5] * 4), (4, [1, 1] + [3] * 6), (9, [2] * 10)):
            with self.subTest(jobs):
                self.assertEqual(self.judged(jobs), (alone, wanted))

    def test_few_questions_and_many_captures_are_not_shared(self):
        with mock.patch.object(processes, "prepared", side_effect=AssertionError):
            found, sizes = self.judged(4, questions=ASKED[:3])
        self.assertEqual((sizes, {row.word for row in found[0].rows} & {"fault"}), ([3, 3], set()))
        self.assertEqual(self.judged(4, count=3)[1], [10] * 6)
        self.assertEqual(self.judged(4, count=2)[1], [5] * 8)

    def test_a_skew_is_folded_over_all_shares(self):
        self.common = self.common._replace(moments=MOMENTS[:1], skew=1, anchors={each: ANCHORS.read_bytes() for each in range(MOMENTS[0] - 1, MOMENTS[0] + 2)})
        self.assertEqual(self.judged(4)[0], self.judged(1)[0])
        self.assertEqual(len(self.judged(4)[0][0].rows), 10)

    def test_all_that_a_capture_has_is_shared_too(self):
        alone, sizes = self.judged(1, questions=None)
        self.assertEqual(sizes, [6, 6])
        self.assertEqual(self.judged(3, questions=None), (alone, [2] * 6))
        self.common = self.common._replace(anchors={moment: b"no anchors" for moment in MOMENTS})
        refused = self.judged(2, questions=None)[0]
        self.assertEqual(([row.question for row in refused[0].rows], {row.word for row in refused[0].rows}), ([None] * 2, {"refused"}))

    def test_a_capture_with_nothing_to_ask_for_has_no_rows(self):
        self.assertEqual(self.judged(4, questions=None, octets=b"")[0], [([], [])])

    def test_a_share_by_which_two_processes_are_lost_has_rows_that_say_so(self):
        kills = '[ "$1" = explain ] && for word; do case $word in --questions=*) grep -q "^c\\." "${word#--questions=}" && kill -KILL $PPID;; esac; done'
        found, _ = self.judged(5, script=kills)
        words = [(row.question.name, row.word == "fault") for row in found[0].rows]
        self.assertEqual(words, [(each.name, each.name == "c.bind.test.") for each in ASKED] * 2)
        said = {row.evidence["said"] for row in found[0].rows if row.word == "fault"}
        self.assertEqual(said, {"the process that judged it was ended by SIGKILL, the second that was lost by it"})

    def test_a_share_by_which_one_process_is_lost_is_asked_by_another(self):
        kills = f'[ "$1" = explain ] && mkdir {self.room}/once 2> {self.room}/null && kill -KILL $PPID'
        self.assertEqual(self.judged(2, script=kills)[0], self.judged(1)[0])

    def test_a_list_that_fails_is_told_of_each_question(self):
        for questions, count in ((ASKED, 10), (None, 1)):
            found, _ = self.failing(questions)
            self.assertEqual([(row.moment, row.word, row.evidence) for row in found[0].rows],
                             [(moment, "fault", {"number": 91}) for moment in MOMENTS for _ in range(count)])

    def failing(self, questions):
        (self.room / "log-2-1").touch()
        return self.judged(2, questions=questions, script='[ "$1" = list ] && { echo fault 91 >&2; exit 1; }')

    def test_each_process_has_the_time_for_questions(self):
        self.common = self.common._replace(budget=Budget(10, 64_000_000, 60))
        with mock.patch.object(processes, "share_rows", functools.partial(self.spied, processes.share_rows)):
            found, _ = self.judged(2)
        self.assertEqual({row.word for row in found[0].rows} & {"fault"}, set())
        self.assertEqual((self.room / "seconds").read_text(), "60 60 ")

    def spied(self, share_rows, capture, common, program):
        with open(self.room / "seconds", "a", encoding="ascii") as file:
            file.write(f"{common.budget.questions} ")
        return share_rows(capture, common, program)


if __name__ == "__main__":
    unittest.main()
