"""Tests of the cases of examples/, and of tools/examples, which runs their command lines."""
import hashlib
import pathlib
import tempfile
import unittest
from collections import Counter
from unittest import mock

from tool import load, run
import cases

# What it says to `show`, and to everything else.
SAYS = """#!/bin/sh
[ "$1" = show ] && echo one && echo two && exit
echo refused >&2
exit 7
"""


def folders():
    return [path for path in cases.EXAMPLES.iterdir() if path.is_dir()]


class Files(unittest.TestCase):
    def test_each_is_named_by_a_command_line_or_has_what_is_printed(self):
        there = {path for folder in folders() for path in folder.iterdir()}
        used = {folder / "commands" for folder in folders()}
        for example in cases.examples():
            used |= {*example.files.values(), example.output_file, example.errors_file}
        self.assertEqual(there - used, set())

    def test_what_cases_have_in_common_stands_once(self):
        paths = {path for example in cases.examples() for path in example.files.values() if path.is_file()}
        counts = Counter((path.name, hashlib.sha256(path.read_bytes()).digest()) for path in paths)
        self.assertGreater(len(counts), 100)
        self.assertEqual([name for (name, _), count in counts.items() if count > 1], [])

    def test_no_two_command_lines_have_one_name(self):
        counts = Counter(example.name for example in cases.examples())
        self.assertEqual([name for name, count in counts.items() if count > 1], [])


class Running(unittest.TestCase):
    """A case, and a program that says what it should to it."""

    def setUp(self):
        room = tempfile.TemporaryDirectory()
        self.addCleanup(room.cleanup)
        self.room = pathlib.Path(room.name)
        self.write("program", SAYS)
        (self.room / "program").chmod(0o755)
        self.write("examples/small/commands", "0 show --capture capture\n7 list --capture capture --all\n")
        self.write("examples/small/show.stdout", "one\ntwo\n")
        self.write("examples/small/list-all.stderr", "refused\n")
        for module, name, path in ((cases, "EXAMPLES", "examples"), (load("examples"), "PROGRAM", "program")):
            patch = mock.patch.object(module, name, self.room / path)
            patch.start()
            self.addCleanup(patch.stop)

    def write(self, name, text):
        path = self.room / name
        path.parent.mkdir(parents=True, exist_ok=True)
        path.write_text(text)

    def told(self, *names):
        status, output, errors = run("examples", *names)
        self.assertEqual(errors, "")
        return status, output.decode().splitlines()

    def test_what_comes_as_it_should(self):
        self.assertEqual(self.told(), (0, ["2 passed, 0 failed"]))
        self.assertEqual(self.told("small"), (0, ["2 passed, 0 failed"]))
        self.assertEqual(self.told("small/list-all"), (0, ["1 passed, 0 failed"]))

    def test_what_does_not(self):
        rows = (
            ("show.stdout", "one\nthree\n", "show: stdout from line 2 on"),
            ("show.stdout", "one\n", "show: stdout from line 2 on"),
            ("show.stdout", "one\ntwo", "show: stdout from line 2 on"),
            ("show.stdout", "", "show: stdout from line 1 on"),
            ("show.stdout", "one\ntwo\n\n", "show: stdout from line 3 on"),
            ("show.stderr", "refused\n", "show: stderr from line 1 on"),
            ("list-all.stdout", "one\n", "list-all: stdout from line 1 on"),
        )
        for name, text, wanted in rows:
            with self.subTest(name=name, text=text):
                path = self.room / "examples/small" / name
                before = path.read_text() if path.exists() else ""
                path.write_text(text)
                self.assertEqual(self.told(), (1, [f"small/{wanted}", "1 passed, 1 failed"]))
                path.write_text(before)

    def test_another_status(self):
        self.write("examples/small/commands", "3 show --capture capture\n1 list --capture capture --json\n")
        self.assertEqual(
            self.told(),
            (
                1,
                [
                    "small/show: status 0 for 3",
                    "small/list.json: status 7 for 1, stderr from line 1 on",
                    "0 passed, 2 failed",
                ],
            ),
        )

    def test_a_name_that_none_has(self):
        for name in ("smal", "small/list", "small/"):
            status, output, errors = run("examples", "small", name)
            self.assertEqual((status, output), (2, b""))
            self.assertIn(f"there is no case {name}, ", errors)

    def test_a_line_that_is_none(self):
        for line in ("", "show", "x show", "0", "0 ", "0  show", "0 show ", "0 show  --all", "-1 show"):
            self.write("examples/small/commands", f"0 show --capture capture\n{line}\n")
            status, output, errors = run("examples")
            self.assertEqual((status, output), (1, b""), line)
            self.assertRegex(errors, r"^examples: \S+/small/commands: line 2 isn't an exit status and words, ")


if __name__ == "__main__":
    unittest.main()
