"""Tests of how judge asks the program: all questions of a capture at a moment in one run, within a time."""
import json
import os
import tempfile
import tracemalloc
import unittest
from unittest import mock

from dnssec_check_tools import asked, program
from dnssec_check_tools.asked import Time
from dnssec_check_tools.asking.faults import Failure
from dnssec_check_tools.asking.names import labels_of
from dnssec_check_tools.asking.questions import Question
from dnssec_check_tools.program import EXPLAIN, OtherAnswer, Program
from dnssec_check_tools.started import nameless
from tool import run_program

from .helper import ANCHORS, EXAMPLES, Judging, capture_of, needs_dns, verdicts

WWW = capture_of("bind-www-a")
LATE = "not asked: the {} seconds for the questions of a capture are over; --budget-questions SECONDS gives more"
# Answers the questions of its file, or the one of its words, and counts its runs; `stop` is done before each answer.
DOUBLE = """#!/bin/sh
echo >> {room}/runs
for word; do
  case $word in
    --questions=*) file=${{word#*=}};;
    --name=*) name=${{word#*=}};;
    --type=*) kind=${{word#*=}};;
  esac
done
count=0
while read -r name kind; do
  count=$((count + 1))
  {stop}
  printf '{{"name":"%s","type":%s,"moment":7,"verdict":"Bogus","status":5,"aliases":[],"why":[]}}\\n' "$name" "$kind"
done << QUESTIONS
$(if [ "$file" ]; then cat "$file"; else echo "$name" "$kind"; fi)
QUESTIONS
exit 5
"""
ABC = [Question(name, 1) for name in ("a.", "b.", "c.", "d.", "e.")]
BOGUS, KILLED = "Bogus", "- dnssec_check explain was ended by SIGKILL"


class Runs(unittest.TestCase):
    """A program that does what is wanted, and what is told of its runs."""

    def setUp(self):
        room = tempfile.TemporaryDirectory()
        self.addCleanup(room.cleanup)
        self.room = room.name

    def told(self, stop=":", questions=tuple(ABC), left=None, text=DOUBLE):
        """For each question the verdict, or what is said in its place; and how many runs there were."""
        path, runs = os.path.join(self.room, "program"), os.path.join(self.room, "runs")
        with open(path, "w", encoding="ascii") as file:
            file.write(text.format(room=self.room, stop=stop))
        os.chmod(path, 0o755)
        with open(runs, "w", encoding="ascii"):
            pass
        found = list(Program(path).told(EXPLAIN, {}, 7, list(questions), left or Time(60)))
        return [each.said or each.word for each in found], os.path.getsize(runs)


class Asking(Runs):
    def test_one_run_answers_all(self):
        self.assertEqual(self.told(), ([BOGUS] * 5, 1))
        self.assertEqual(self.told(questions=()), ([], 0))
        with mock.patch.object(program, "QUESTIONS_MOST", 2):
            self.assertEqual(self.told(), ([BOGUS] * 5, 3))

    def test_a_name_that_no_file_has_is_asked_alone(self):
        """In its place among the others; the letters of names may be of either case."""
        questions = [Question("A.", 1), Question("x y.", 1), Question("B.", 1), Question("x", 1)]
        stop = '[ "$file" ] || { echo "refused 101" >&2; exit 7; }'
        self.assertEqual(self.told(stop, questions), ([BOGUS, "101", BOGUS, "101"], 3))

    def test_a_name_that_would_be_a_comment_is_asked_too(self):
        stop = 'case $name in "\\\\#"*) name="#x.";; esac'
        self.assertEqual(self.told(stop, [Question("#x.", 1), ABC[0]]), ([BOGUS, BOGUS], 1))

    def test_where_a_run_ends_early_what_was_answered_is_kept(self):
        """How it ended is told of the next question, and what is behind that is asked by another run."""
        rows = ("echo fault 90 >&2; exit 1", "90"), ("kill -KILL $$", KILLED), ("printf '{'; kill -KILL $$", KILLED), \
            ("exit 0", "- dnssec_check explain ended with status 0")
        for stop, said in rows:
            with self.subTest(stop):
                told = self.told(f'[ $name = c. ] && {{ {stop}; }}')
                self.assertEqual(told, ([BOGUS, BOGUS, said, BOGUS, BOGUS], 2))
        self.assertEqual(self.told("kill -KILL $$"), ([KILLED] * 5, 5))

    def test_what_is_refused_is_refused_to_all_at_once(self):
        self.assertEqual(self.told("echo refused 403 message 65 >&2; exit 7"), (["403 message 65"] * 5, 1))

    def test_a_refused_question_is_an_answer(self):
        text = DOUBLE.replace('"verdict":"Bogus","status":5', '"refused":702,"status":7')
        self.assertEqual(self.told(text=text), (["702"] * 5, 1))

    def test_an_answer_to_another_question_is_none(self):
        for stop in ("[ $name = c. ] && name=x.", "[ $name = c. ] && kind=2", "[ $name = c. ] && continue"):
            with self.subTest(stop), self.assertRaises(OtherAnswer):
                self.told(stop)

    def test_a_program_that_cannot_be_run_is_a_failure(self):
        with self.assertRaisesRegex(Failure, "^/nowhere/program: "):
            list(Program("/nowhere/program").told(EXPLAIN, {}, 7, ABC, Time(60)))

    def test_the_file_of_questions_is_on_no_disk(self):
        self.told(f'readlink "$file" > {self.room}/link')
        with open(os.path.join(self.room, "link"), encoding="ascii") as file:
            self.assertTrue(file.read().startswith("/memfd:"))


class Within(Runs):
    """The time of a processor that the questions have."""

    def test_behind_it_nothing_is_asked(self):
        questions = [*ABC, Question("x y.", 1)]
        self.assertEqual(self.told(questions=questions, left=Time(0)), ([f"- {LATE.format(0)}"] * 6, 0))

    def test_a_program_that_needs_more_is_ended_and_its_answers_are_kept(self):
        told = self.told("[ $name = c. ] && while :; do :; done", left=Time(1))
        self.assertEqual(told, ([BOGUS, BOGUS] + [f"- {LATE.format(1)}"] * 3, 1))

    def test_a_lower_limit_stays(self):
        """It could not be raised by who has no right to."""
        process, set_to = mock.Mock(pid=7), []
        for most, given in (((30, 30), []), ((60, 60), []), ((61, 61), [(60, 60)]), ((-1, -1), [(60, 60)])):
            with mock.patch("resource.prlimit", lambda pid, _, to=None, most=most: set_to.append(to) if to else most):
                self.assertEqual(asked.limited(process, 59.5), 60)
            self.assertEqual(set_to, given)
            set_to.clear()

    def test_what_takes_its_answers_counts_too(self):
        times = iter([0.0, 1.0, 1.5, 2.0] + [9.0] * 99)  # when it's made, and whenever it's asked for
        told = self.told(left=Time(8, lambda: next(times)))
        self.assertEqual(told, ([BOGUS, BOGUS] + [f"- {LATE.format(8)}"] * 3, 1))

    def test_what_programs_had_is_spent(self):
        left = Time(8, lambda: 0.0)
        self.told("[ $name = c. ] && { while [ $count -lt 200000 ]; do count=$((count + 1)); done; }", left=left)
        self.assertTrue(0 < left.left < 8, left.left)
        left = Time(8, lambda: 0.0)
        self.told(questions=[Question("é.", 1)], left=left)
        self.assertTrue(0 < left.left < 8, left.left)


class Memory(Runs):
    """What the answers take: one that is Pending has all again where not all is listed, of 715 kB two GB."""

    def files(self, size, answers=b""):
        """The capture, of so many octets, and the answers to its list, by the numbers of open files."""
        opened = {"capture": nameless(bytes(size)), "answers": nameless(answers)}
        for file in opened.values():
            self.addCleanup(file.close)
        return {name: file.fileno() for name, file in opened.items()}

    def said(self, files, stop, octets=1_000_000):
        path = os.path.join(self.room, "program")
        with open(path, "w", encoding="ascii") as file:
            file.write(DOUBLE.format(room=self.room, stop=stop))
        os.chmod(path, 0o755)
        return [each.said for each in Program(path).told(EXPLAIN, files, 7, ABC[:2], Time(60), octets)]

    def test_the_program_has_what_files_and_an_answer_take(self):
        """Told in KiB; the two questions have ten octets. A capture of which little can be listed has no limit, and a lower one stays."""
        wait = 'sleep 0.5; [ $name = a. ] && { echo "$(ulimit -v) is the limit" >&2; exit 3; }; true'
        for size, answers, most in ((4097, b"", 101_000_080), (4097, bytes(5000), 101_040_080), (4096, b"", None)):
            first, _ = self.said(self.files(size, answers), wait)
            self.assertEqual(first, f"- {most // 1024 if most else 'unlimited'} is the limit")

    def test_all_files_count_but_the_capture(self):
        files = self.files(5000, bytes(300))
        self.assertEqual(program.memory_for(files, 7), asked.Memory(7 + 100_000_000 + 8 * 300, 7))
        with nameless(bytes(50)) as anchors, nameless(bytes(7)) as questions:
            more = {**files, "anchors": anchors.fileno(), "questions": questions.fileno()}
            self.assertEqual(program.memory_for(more, 7).most, 7 + 100_000_000 + 8 * 357)

    def test_an_answer_for_which_it_has_too_little_is_a_fault_that_says_so(self):
        text = "- its answer takes more memory than the 101,000,0{}0 octets that it may; --budget-octets OCTETS gives more"
        for peak, told in ((1_000_001, [text.format(number) for number in (8, 4)]), (1_000_000, ["90", "90"])):
            with mock.patch.object(asked, "peak_of", lambda process, peak=peak: process.wait() * 0 + peak):
                self.assertEqual(self.said(self.files(4097), "echo fault 90 >&2; exit 1"), told)
        self.assertEqual(self.said(self.files(4097), "echo fault 91 >&2; exit 1"), ["91"] * 2)

    def test_what_is_to_be_verified_is_counted_and_not_kept(self):
        entry = b'{"algorithm":13,"key":"%s","data":"%s","signature":"-"}' % (b"ab" * 500, b"01" * 500)
        front, behind = b'{"name":"a.","type":1,"verdict":"Pending","status":4,"aliases":[],"todo":[', b'],"why":[{"line":"hope","todo":3}]}\n'
        for count in (0, 1, 2, 3):
            line = front + b",".join([entry] * count) + behind
            value = json.loads(line)
            self.assertEqual(json.loads(program.without_todo(line)), {**value, "todo": [None] * count})
        bogus = b'{"name":"\\"todo\\":[{.","type":1,"verdict":"Bogus","status":5,"aliases":[],"why":[]}\n'
        self.assertEqual(program.without_todo(bogus), bogus)
        line = front + b",".join([entry] * 5000) + behind
        tracemalloc.start()
        told = program.told_of(ABC[0], json.loads(program.without_todo(line)))
        peak = tracemalloc.get_traced_memory()[1]
        tracemalloc.stop()
        self.assertEqual((told.status, told.value["todo"]), (4, [None] * 5000))
        self.assertLess(peak, len(line) / 10)

    def test_it_is_in_answers_of_the_program_too(self):
        """And each other answer stays as it is."""
        counts = []
        for path in sorted(EXAMPLES.glob("*/explain.json")) + sorted(EXAMPLES.glob("*/check.json")):
            for line in path.read_bytes().splitlines(keepends=True):
                value = json.loads(line)
                counts.append(len(value.get("todo", ())))
                wanted = {**value, "todo": [None] * counts[-1]} if "todo" in value else value
                self.assertEqual(json.loads(program.without_todo(line)), wanted)
        self.assertGreater(sum(counts), 2)
        self.assertGreater(counts.count(0), 20)

    def test_no_answer_is_parsed_with_what_is_to_be_verified(self):
        with mock.patch.object(program, "without_todo", lambda _: b'{"name":"a.","type":1,"verdict":"Insecure","status":3}'):
            self.assertEqual(self.told(questions=ABC[:1]), (["Insecure"], 1))


class Names(unittest.TestCase):
    """Which names the program reads, by its manual page."""

    def test_names(self):
        label, long = "a" * 63, ".".join(["b" * 63] * 3)
        rows = (
            (".", ()), ("WWW.Example.", (b"www", b"example")), (f"{label}.", (label.encode(),)), ("*.a.", (b"*", b"a")),
            ("\\065b\\.c\\\\.", (b"ab.c\\",)), ("\\255\\000.", (b"\xff\x00",)), ("#.", (b"#",)), ("~!.", (b"~!",)),
            (f"{long}.{'c' * 61}.", tuple(each.encode() for each in [*long.split("."), "c" * 61])),
            *((name, None) for name in (
                "", "a", "a..", "..", ".a.", f"{label}a.", f"{long}.{'c' * 62}.", "a b.", "a\n.", "\\256.", "\\25.", "\\", "a\\.",
                "é.", "\x7f.", "a.\n", "a" * 100000 + ".", "a." * 100000, "a" * 100000)),
        )
        for name, labels in rows:
            with self.subTest(name[:80]):
                self.assertEqual(labels_of(name), labels)


@needs_dns
class Together(Judging):
    """The same by the tool: a run lists at each moment, and one asks there."""

    def test_one_run_asks_at_each_moment(self):
        if self.room in self.program.parents:
            self.skipTest("the double knows one moment")
        self.program = self.stand_in(f'echo "$1" >> {self.room}/runs')
        path = self.room / "questions"
        path.write_text("".join(f"n{number}.bind.test A\n" for number in range(9)) + "www.bind.test A\n")
        status, lines, _ = self.noon("--at", "0", WWW, "--questions", path)
        self.assertEqual((status, len(verdicts(lines))), (5, 20))
        self.assertEqual(sorted((self.room / "runs").read_text().split()), ["explain"] * 2 + ["list"] * 2)

    def test_an_end_of_the_time_is_told_in_the_rows(self):
        status, lines, errors = self.noon("--budget-questions", "0", WWW, "www.bind.test/A", "bind.test/DNSKEY")
        told = [f"{question}: fault {LATE.format(0)}" for question in ("www.bind.test. A", "bind.test. DNSKEY")]
        self.assertEqual((status, lines, errors), (1, told, ""))

    def test_names_are_those_that_the_program_reads(self):
        """Each is asked by itself: what is refused is what no file of questions can have."""
        if self.room in self.program.parents:
            self.skipTest("the double knows no names")
        for name in ("a.", "\\065.", "\\256.", "\\.", "\\a.", "a\\", "a..", "a", ".", "~.", "\x7f.", "é.", "#.", "a b.", "a" * 64 + ".",
                     "a" * 63 + ".", ("a" * 63 + ".") * 3 + "c" * 61 + ".", ("a" * 63 + ".") * 3 + "c" * 62 + "."):
            with self.subTest(name):
                words = ("--capture", WWW, "--anchors", ANCHORS, "--moment", "0", f"--name={name}", "--type=1")
                status, _, errors = run_program(self.program, "check", *words)
                self.assertEqual(status == 7 and errors.startswith("refused 10"), labels_of(name) is None, errors)


if __name__ == "__main__":
    unittest.main()
