"""One version: of the tools, the program, the Debian package and the change log."""
import re
import unittest

from tool import PROGRAM, TOOLS, run_program
from dnssec_check_tools.command import VERSION

TOP = TOOLS.parent
COMMANDS = TOP / "crates" / "dnsv_commands" / "src" / "commands.rt"


class Version(unittest.TestCase):
    def test_the_change_log_begins_with_it(self):
        heads = re.findall(r"^## \[(.*)\] - (unreleased|\d{4}-\d\d-\d\d)$", (TOP / "CHANGELOG.md").read_text(), re.MULTILINE)
        self.assertEqual(heads[0][0], VERSION)
        self.assertNotIn("unreleased", [when for _, when in heads[1:]])

    def test_each_tool_tells_it(self):
        for name in ("capture", "verify", "judge"):
            self.assertEqual(run_program(TOOLS / name, "--version")[:2], (0, f"{name} {VERSION}\n".encode()))

    def test_the_program_is_written_with_it(self):
        self.assertEqual(re.findall(r'^const VERSION: &str = "(.*)";$', COMMANDS.read_text(), re.MULTILINE), [VERSION])

    @unittest.skipUnless(PROGRAM.exists(), "needs the built program")
    def test_the_built_program_tells_it(self):
        for word in ("--version", "-V"):
            self.assertEqual(run_program(PROGRAM, word), (0, f"dnssec_check {VERSION}\n".encode(), ""))


if __name__ == "__main__":
    unittest.main()
