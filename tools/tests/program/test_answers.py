"""The examples once more with answers by number: to the compact list that the program prints, what the case's statements
say of its entries. Verdicts and texts have to be the same, but for what is listed again and for the numbers of entries."""
import functools
import pathlib
import re
import tempfile
import unittest

from tool import PROGRAM, load, run_program
from cases import examples
from dnssec_check_tools.verifying.compact import digest_of_capture, entries_of, heading

TODO = re.compile(r" todo (\d+)$", re.MULTILINE)
OPEN = "-"
OF_STATEMENTS = ("refused 501", "refused 502", "fault 210 statements", "fault 211 statements", "fault 811 statements")


def text_of(entry):
    """The fields of an entry as `list` has them."""
    octets = entry.key.octets, entry.data(), entry.signature.octets
    return " ".join([str(entry.key.algorithm), *(each.hex() or "-" for each in octets)])


def moment_of(example):
    return example.words[example.words.index("--moment") + 1]


@functools.lru_cache(None)
def listed(capture, moment):
    """What `list --compact` prints, and its entries' texts."""
    status, output, errors = run_program(PROGRAM, "list", "--capture", capture, "--moment", moment, "--compact")
    return status, [text_of(each) for each in entries_of(output.decode().splitlines(), str)], errors


@functools.lru_cache(None)
def statements(path):
    """What a file of statements says, by the fields that it speaks of."""
    lines = (line.split(" ", 1) for line in path.read_text().splitlines() if line and not line.startswith("#"))
    return {rest.lower(): word for word, rest in lines}


def said_of(example):
    path = example.files.get("statements")
    return statements(path) if path else {}


def answers(example):
    """The file of answers to the list of the example's capture, by the statements."""
    said = said_of(example)
    capture, moment = example.files["capture"], moment_of(example)
    lines = [said.get(text, OPEN) for text in listed(capture, moment)[1]]
    return heading(digest_of_capture(capture.read_bytes()), int(moment)) + "".join(f"{line}\n" for line in lines)


def by_answers(example, path):
    """The words with answers in place of statements."""
    words = list(example.words)
    if "--statements" in words:
        place = words.index("--statements")
        del words[place:place + 2]
    return [*words, "--answers", str(path)]


def expected(example):
    """What the example prints, without the entries that are listed again, and with their numbers in the whole list."""
    entries = listed(example.files["capture"], moment_of(example))[1]
    lines, found, left = [], [], None
    for line in example.output.decode().splitlines(keepends=True):
        if line.startswith("todo "):
            found = found if left else []
            left = True
            found.append(entries.index(line.removeprefix("todo ").rstrip("\n")) + 1)
            continue
        left = False
        lines.append(TODO.sub(lambda number, found=found: f" todo {found[int(number[1]) - 1]}", line))
    return "".join(lines)


def asked():
    """The examples of verdicts in lines, but for those whose statements are refused, or that have answers already."""
    return [each for each in examples() if each.words[0] in ("check", "explain") and not each.is_json
            and "answers" not in each.files and not each.errors.decode().startswith(OF_STATEMENTS)
            and each.files["capture"].is_file()]


@unittest.skipUnless(PROGRAM.exists(), "needs the built program")
class Verdicts(unittest.TestCase):
    def setUp(self):
        room = tempfile.TemporaryDirectory()
        self.addCleanup(room.cleanup)
        self.path = pathlib.Path(room.name) / "answers"

    def told(self, example, *more):
        self.path.write_text(answers(example))
        return run_program(PROGRAM, *by_answers(example, self.path), *more, folder=example.folder)

    def test_each_has_the_text_that_it_has_by_statements(self):
        counts = {"check": 0, "explain": 0}
        for example in asked():
            with self.subTest(example.name):
                status, output, errors = self.told(example)
                wanted = example.status, expected(example), example.errors.decode()
                self.assertEqual((status, output.decode(), errors), wanted)
                counts[example.words[0]] += 1
        self.assertGreater(counts["check"], 60)
        self.assertGreater(counts["explain"], 60)

    def test_so_it_has_in_json(self):
        as_json, count = load("as-json").as_json, 0
        for example in asked():
            if example.output:
                with self.subTest(example.name):
                    status, output, errors = self.told(example, "--json")
                    wanted = as_json([*example.words, "--answers", "answers"], expected(example))
                    self.assertEqual((status, output.decode(), errors), (example.status, wanted, ""))
                    count += 1
        self.assertGreater(count, 120)

    def test_entries_are_open_in_some(self):
        """So what is left out, and the other numbers, are met."""
        pending = [each for each in asked() if expected(each) != each.output.decode()]
        numbered = [each for each in pending if TODO.search(expected(each))]
        self.assertGreater(len(pending), 2)
        self.assertGreater(len(numbered), 0)


@unittest.skipUnless(PROGRAM.exists(), "needs the built program")
class Lists(unittest.TestCase):
    def test_each_has_the_entries_of_the_compact_one(self):
        count = 0
        for example in examples():
            if example.stem != "list" or example.is_json:
                continue
            with self.subTest(example.name):
                status, output, errors = run_program(PROGRAM, *example.words, "--compact", folder=example.folder)
                texts = "".join(f"todo {text_of(each)}\n" for each in entries_of(output.decode().splitlines(), str))
                self.assertEqual((status, texts, errors), (example.status, example.output.decode(), example.errors.decode()))
                count += 1
        self.assertGreater(count, 60)


if __name__ == "__main__":
    unittest.main()
