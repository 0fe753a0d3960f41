"""Random timelines of the captures of the examples: at any moment `check` and `explain` say what the timeline does, each
border has a line, nothing changes while nothing begins and what derives the verdict stays valid, and a name comes to
something worse only where something ends, and to something better only where something begins."""
import collections
import functools
import pathlib
import random
import tempfile
import unittest

from cases import examples
from dnssec_check_tools.judging.evidence import Evidence
from dnssec_check_tools.timelines.spans import range_of, times_of
from dnssec_check_tools.verifying.compact import digest_of_capture, entries_of, heading
from dnssec_check_tools.verifying.verifier import Kept, Verifier
from tool import PROGRAM, run_program

from .test_answers import text_of
from .timelines import EDGES, as_object, by_of, is_valid, told_of, turn_of, words_of

SEED, TIMELINES, PAIRS = 20261129, 200, 20
KEPT = Kept()
DAY = 86400


@functools.lru_cache(None)
def asked():
    """Captures with a question and anchors, each once, of which a timeline can be asked."""
    found = {}
    for example in examples():
        if example.words[0] in ("check", "timeline") and "--name" in example.words and not {"keys", "macs"} & set(example.files):
            pairs = dict(zip(example.words, example.words[1:]))
            if example.status != 1 and {"capture", "anchors"} <= set(example.files) and not example.errors:
                key = example.files["capture"], example.files["anchors"], pairs["--name"], pairs["--type"]
                found.setdefault(key, int(pairs.get("--moment") or pairs["--from"]))
    return list(found.items())


class Random(unittest.TestCase):
    """A timeline of a random range around the times of the signatures of a random capture."""

    def setUp(self):
        room = tempfile.TemporaryDirectory()
        self.addCleanup(room.cleanup)
        self.room = pathlib.Path(room.name)

    def verified(self, capture, span):
        """The answers to the list of the range, and the statements that say the same."""
        status, output, errors = run_program(PROGRAM, "list", "--capture", capture, *span, "--compact")
        self.assertEqual((status, errors), (0, ""))
        entries = list(entries_of(output.decode().splitlines(), str))
        within = Verifier(600, KEPT)
        words = [within.answer_to(entry) for entry in entries]
        head = heading(digest_of_capture(capture.read_bytes()), span[1], span[3])
        (self.room / "answers").write_text(head + "".join(f"{word}\n" for word in words))
        (self.room / "statements").write_text("".join(f"{word} {text_of(entry)}\n" for word, entry in zip(words, entries)))

    def told(self, subcommand, *words):
        status, output, errors = run_program(PROGRAM, subcommand, *words)
        return status, output.decode(), errors

    def timeline(self, capture, anchors, question, span):
        """None where all its moments are refused by the same number, which is then that of `check` at each."""
        words = ("--capture", capture, "--anchors", anchors, *question, "--answers", self.room / "answers", *span)
        status, text, errors = self.told("timeline", *words)
        if status == 7:
            return errors.rstrip("\n")
        self.assertEqual((status, errors), (0, ""))
        status, line, errors = self.told("timeline", *words, "--json")
        self.assertEqual((status, errors), (0, ""))
        return told_of(text, as_object(line))

    def assert_said_at(self, moment, timeline, case):
        """`check` says the interval's words, and `explain` what derives them."""
        capture, anchors, question = case
        words = ("--capture", capture, "--anchors", anchors, *question, "--statements", self.room / "statements", "--moment", moment)
        said = words_of(*self.told("check", *words))
        if isinstance(timeline, str):
            self.assertEqual(said, timeline)
            return
        stay = timeline.at(moment)
        self.assertEqual(said, stay.words)
        if stay.words.startswith("refused"):
            return
        by = by_of(self.told("explain", *words)[1])
        if stay.words.split(" ")[0] in ("Bogus", "Indeterminate"):  # how far it holds is said besides
            self.assertLessEqual(set(stay.by), set(by))
            self.assertTrue(stay.by or "alias" not in stay.words)
        else:
            self.assertEqual(stay.by, by)


@unittest.skipUnless(PROGRAM.exists(), "needs the built program")
class Timelines(Random):
    def cases(self):
        draw = random.Random(SEED)
        for _ in range(TIMELINES):
            (capture, anchors, name, kind), moment = draw.choice(asked())
            octets = capture.read_bytes()
            whole = range_of(octets, moment)
            first = max(0, whole.first + draw.randrange(-30 * DAY, 30 * DAY))
            last = max(first, whole.last + draw.randrange(-30 * DAY, 30 * DAY))
            span = ("--from", first, "--to", last)
            self.verified(capture, span)
            case = capture, anchors, ("--name", name, "--type", kind)
            yield draw, case, (first, last), self.timeline(*case, span)

    def test_random_timelines(self):
        borders, turns = 0, collections.Counter()
        for draw, case, (first, last), timeline in self.cases():
            with self.subTest(capture=case[0].parent.name, question=case[2], first=first, last=last):
                self.assert_said_at(draw.randint(first, last), timeline, case)
                if isinstance(timeline, str):
                    continue
                self.assertEqual((timeline.stays[0].first, timeline.stays[-1].last), (first, last))
                for stay, other in zip(timeline.stays, timeline.stays[1:]):
                    self.assertEqual(stay.last + 1, other.first)
                    self.assertNotEqual((stay.words, stay.by), (other.words, other.by))
                    borders += 1
                self.assertTrue(all(timeline.edges), "a border without a line")
                turns.update(self.turns(timeline))
                for stay in timeline.stays[1:]:
                    if draw.random() < 0.1:
                        self.assert_said_at(stay.first, timeline, case)
                        self.assert_said_at(stay.first - 1, timeline, case)
                self.assert_quiet(draw, case[0].read_bytes(), timeline)
        self.assertGreater(borders, 100)
        self.assertGreater(min(turns[edge] for edge in EDGES), 10, turns)

    def turns(self, timeline):
        """At each border where the name at which the ways part comes to something worse, what ends is told, and where to
        something better, what begins; returns which of them it is at each of these."""
        found = []
        for stay, other, edges in zip(timeline.stays, timeline.stays[1:], timeline.edges):
            turn = turn_of(stay.words, other.words)
            if turn:
                self.assertIn(turn, {fields[0] for fields in edges}, (stay, other))
                found.append(turn)
        return found

    def assert_quiet(self, draw, octets, timeline):
        """Pairs of moments, those right beside a border among them: where no signature begins behind the first, and all
        that derive it there stay valid, the same is said."""
        evidence, all_times = Evidence(octets), times_of(octets)
        first, last = timeline.stays[0].first, timeline.stays[-1].last
        pairs = [(stay.first - 1, stay.first) for stay in timeline.stays[1:]]
        pairs += [tuple(sorted((draw.randint(first, last), draw.randint(first, last)))) for _ in range(PAIRS)]
        for before, behind in pairs:
            stay, other = timeline.at(before), timeline.at(behind)
            changes = {each for times in all_times for each in changes_of(times, before, behind)}
            begins = any(is_valid(times, each) and not is_valid(times, each - 1) for times in all_times for each in changes)
            points = [before, *changes, behind]
            stays = all(is_valid(evidence.times(*pair), each) for pair in stay.by for each in points)
            if not begins and stays:
                self.assertEqual((stay.words, stay.by), (other.words, other.by), (before, behind))


def changes_of(times, before, behind):
    """The moments behind the first, up to the last, at which a signature may begin or cease to be valid."""
    points = times[0], times[1] + 1, times[0] + (1 << 31), times[1] - (1 << 31) + 1
    for point in points:
        moment = before + 1 + (point - before - 1) % (1 << 32)
        while moment <= behind:
            yield moment
            moment += 1 << 32


if __name__ == "__main__":
    unittest.main()
