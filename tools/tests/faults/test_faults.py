"""The command line of tools/faults, and that it passes on the built program, as far as that is soon done."""
import os
import unittest
from unittest import mock

from tool import PROGRAM, load, run
from cases import examples
from .programs import Programs


class CommandLine(unittest.TestCase):
    def test_a_part_that_is_not_there(self):
        status, output, errors = run("faults", "reads")
        self.assertEqual((status, output), (2, b""))
        self.assertIn("there is no part reads", errors)

    def test_without_a_compiler(self):
        with mock.patch.dict(os.environ, PATH="/nowhere"):
            status, output, errors = run("faults", "memory")
        said = "faults: there is no C compiler `cc`, which the package gcc has\n"
        self.assertEqual((status, output, errors), (1, b"", said))

    def test_the_help_names_each_part(self):
        tool = load("faults")
        for part in tool.PARTS:
            self.assertIn(f"\n{part}", tool.__doc__)

    def test_what_has_to_come_is_there(self):
        there = {example.name for example in examples()}
        self.assertLessEqual({*load("faults").REAL, *load("faults").ADDED}, there)


@unittest.skipUnless(PROGRAM.exists(), "needs the built program")
class Passing(Programs):
    def test_two_parts(self):
        with mock.patch.dict(os.environ, LANES="1"):
            status, output, errors = run("faults", "cut", "write")
        lines = output.decode().splitlines()
        self.assertEqual((status, errors), (0, ""), output.decode())
        self.assertIn("cut: keys-and-host/check, capture: 189 refused 209, 2 Bogus, 1 SecureAnswer", lines)
        self.assertRegex(lines[-1], r"^\d{3,} passed, 0 failed$")

    def test_a_share_tells_its_seed_and_has_of_each_part(self):
        with mock.patch.dict(os.environ, LANES="1"):
            status, output, errors = run("faults", "--share", "1/1000", "--seed", "7", "cut", "octets")
            again = run("faults", "--share", "1/1000", "--seed", "7", "cut", "octets")
        first, *rows, last = output.decode().splitlines()
        self.assertEqual((status, errors, first), (0, "", "1/1000 of the jobs of each kind, as --seed 7 chooses them"))
        self.assertEqual([row.split(":")[0] for row in rows], ["cut", "octets"])
        self.assertRegex(last, r"^\d{3,} passed, 0 failed$")
        self.assertEqual(again, (status, output, errors))


if __name__ == "__main__":
    unittest.main()
