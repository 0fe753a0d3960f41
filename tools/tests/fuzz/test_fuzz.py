"""What tools/fuzz takes for a fault, what it makes of an input, and that a seed makes the same inputs again."""
import pathlib
import random
import sys
import tempfile
import unittest
from unittest import mock

from fuzzing import faults, limits, loop
from fuzzing.changes import SIZE_MOST, Source, changed, lines_of
from fuzzing.target import Ended, Target, desk_of, given, must
from fuzzing.targets import TARGETS
from tool import TOOLS, load, run_program

NUMBERS = b"".join(b"%d\n" % number for number in range(40))


def target_of(run, inputs=(NUMBERS,)):
    return Target("none", run, lambda: list(inputs), (b"word",))


def looped(run, seconds=0.5, seed="1"):
    with desk_of(None) as desk:
        return loop.Loop(target_of(run), seed, desk).run(seconds)


def refuses_all(_octets, _desk):
    return Ended(False, "no")


class Faults(unittest.TestCase):
    def tried(self, run, octets=b""):
        with desk_of(None) as desk:
            return faults.tried(target_of(run), octets, desk)

    def test_an_end_of_the_readers_own_is_none(self):
        self.assertEqual(self.tried(refuses_all), (Ended(False, "no"), None))

    def test_any_other_end_is_one(self):
        for fault in (ValueError("x"), MemoryError(), RecursionError(), SystemExit(3), AssertionError()):
            def run(_octets, _desk, fault=fault):
                raise fault
            self.assertIn(type(fault).__name__, self.tried(run)[1].kind)

    def test_what_must_hold_and_does_not_is_one(self):
        fault = self.tried(lambda octets, _: must(False, f"it has 3 octets: {octets}"), b"a b")[1]
        self.assertTrue(fault.kind.endswith(" it has N octets"), fault.kind)
        self.assertIn("it has 3 octets: b'a b'", fault.text)

    def test_too_much_time_is_one_whoever_catches_faults(self):
        def run(_octets, _desk):
            try:
                while True:
                    pass
            except Exception:
                return refuses_all(None, None)
        with mock.patch.object(limits, "SECONDS", 0.2):
            self.assertTrue(self.tried(run)[1].kind.startswith("TooLong"))

    def test_too_much_memory_is_one(self):
        script = ("import sys; sys.path.insert(0, {0!r}); from fuzzing import limits; limits.limit_memory()\n"
                  "with limits.unlimited_memory(): bytes(400_000_000)\n"
                  "bytes(100_000_000); print('so far')\nbytes(400_000_000); print('too much')").format(str(TOOLS))
        status, output, errors = run_program(sys.executable, "-c", script)
        self.assertEqual((status, output), (1, b"so far\n"))
        self.assertIn("MemoryError", errors)

    def test_what_is_told_has_to_be_shown_on_a_terminal(self):
        tell = load("capture").tell
        with given(b"") as told:
            tell("all right")
        self.assertEqual(told, ["all right"])
        for text in ("a\x1b[2J", "two\nlines", "\u2028"):
            with self.subTest(text), self.assertRaises(Exception), given(b""):
                tell(text)

    def test_an_input_is_made_smaller_while_it_fails_alike(self):
        def run(octets, _desk):
            must(b"17\n" not in octets or b"3\n" not in octets, "both are there")
            must(len(octets) > 20, "it is short")
            return refuses_all(octets, None)
        with desk_of(None) as desk:
            kind = faults.tried(target_of(run), NUMBERS, desk)[1].kind
            smaller = faults.shrunk(target_of(run), NUMBERS, kind, desk)
        self.assertEqual(faults.tried(target_of(run), smaller, desk)[1].kind, kind)
        self.assertLess(len(smaller), 10)


class Inputs(unittest.TestCase):
    def made(self, seed, count=300):
        source, draw = Source([NUMBERS, b"\0\1\2" * 50], [b"word"], lines_of), random.Random(seed)
        return [changed(source.inputs[number % 2], source, draw) for number in range(count)]

    def test_a_seed_makes_the_same_again(self):
        self.assertEqual(self.made(1), self.made(1))
        self.assertNotEqual(self.made(1), self.made(2))

    def test_they_differ_and_are_no_longer_than_the_most(self):
        made = self.made(3, 3000)
        self.assertGreater(len(set(made)), 2400)
        self.assertLessEqual(max(map(len, made)), SIZE_MOST)

    def test_the_corpus_is_tried_first_and_a_new_way_to_end_is_changed_in_its_turn(self):
        seen = []

        def run(octets, _desk):
            seen.append(octets)
            return Ended(True, str(b"word" in octets))
        with desk_of(None) as desk:
            made = loop.Loop(target_of(run), "1", desk)
            tally = made.run(0.3)
        self.assertEqual((seen[0], tally.ways), (NUMBERS, {"True", "False"}))
        self.assertEqual(made.inputs, [NUMBERS, NUMBERS, next(each for each in seen if b"word" in each)])

    def test_each_kind_of_fault_is_kept_once(self):
        def run(octets, _desk):
            must(b"word" not in octets, "a word is there: %r" % octets[:10])
            must(len(octets) > 2, "it is short")
            return refuses_all(octets, None)
        kinds = [fault.kind.split(" must ")[1] for fault, _ in looped(run, 2).faults.values()]
        self.assertEqual(sorted(kinds), ["a word is there", "it is short"])

    def test_each_target_has_a_corpus_that_passes(self):
        for name, target in TARGETS.items():
            inputs = target.inputs()
            self.assertGreater(len(inputs), 3, name)
            with desk_of(None) as desk:
                for octets in inputs[:60]:
                    self.assertIsNone(faults.tried(target, octets, desk)[1], name)


class Command(unittest.TestCase):
    def fuzz(self, *words):
        status, output, errors = run_program(sys.executable, TOOLS / "fuzz", *words)
        return status, output.decode().splitlines(), errors

    def test_a_target_that_passes(self):
        with tempfile.TemporaryDirectory() as room:
            status, lines, _ = self.fuzz("xml", "--seconds", "2", "--seed", "5", "--keep", room)
            self.assertEqual((status, lines[-1], list(pathlib.Path(room).iterdir())), (0, "1 passed, 0 failed", []))
        self.assertRegex(lines[-2], r"^xml: \d+ inputs, \d+ taken, \d+ ways to end, \d+ asked of the program, seed 5$")

    def test_a_run_that_took_too_few_fails(self):
        status, lines, _ = self.fuzz("xml", "--seconds", "0", "--seed", "5")
        self.assertEqual((status, lines[-2:]), (1, ["fewer than 100 were taken, or refused", "0 passed, 1 failed"]))

    def test_files_are_tried_alone(self):
        folder = TOOLS / "tests" / "data" / "fuzz" / "zone"
        status, lines, _ = self.fuzz("zone", folder / "few", folder / "faulty")
        self.assertEqual((status, lines[-1], len(lines)), (0, "1 passed, 0 failed", 3))
        self.assertIn("is_taken=True", lines[0])
        self.assertIn("is_taken=False", lines[1])

    def test_words_that_are_wrong(self):
        for words in (("none",), (), ("xml", "--seconds", "x"), ("xml", "--seconds", "-1")):
            self.assertEqual(self.fuzz(*words)[0], 2)


if __name__ == "__main__":
    unittest.main()
