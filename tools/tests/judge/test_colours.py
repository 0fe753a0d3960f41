"""Tests of the colours of sentences."""
import os
import pty
import subprocess
import unittest
from unittest import mock

from dnssec_check_tools.judging import colours

from .helper import ANCHORS, JUDGE, NOON, Judging, capture_of, needs_dns

TEXT = "a. A: Bogus\n  FAIL a. A: it HOLDS [EDE 9]\n  HAS a.: FAIL b\n  HOLDS a.: c\n  WHY a.: d\n  ODD a.: e"
RED, GREEN, BOLD, YELLOW, END = "\x1b[1;31m", "\x1b[32m", "\x1b[1m", "\x1b[33m", "\x1b[0m"


class Marks(unittest.TestCase):
    def test_the_first_words_alone(self):
        with mock.patch.object(colours, "is_coloured", lambda: True):
            self.assertEqual(colours.coloured(TEXT), TEXT.replace("  FAIL", f"  {RED}FAIL{END}").replace(
                "  HOLDS", f"  {GREEN}HOLDS{END}").replace("  WHY", f"  {BOLD}WHY{END}").replace("  ODD", f"  {YELLOW}ODD{END}"))
        with mock.patch.object(colours, "is_coloured", lambda: False):
            self.assertEqual(colours.coloured(TEXT), TEXT)

    def test_where_nothing_is_coloured(self):
        terminal = mock.Mock(isatty=lambda: True)
        rows = ((terminal, {}, True), (terminal, {"NO_COLOR": "1"}, False), (terminal, {"NO_COLOR": ""}, True),
                (terminal, {"TERM": "dumb"}, False), (mock.Mock(isatty=lambda: False), {}, False), (None, {}, False))
        for stream, environment, wanted in rows:
            with mock.patch.object(colours.sys, "stdout", stream), mock.patch.dict(os.environ, environment, clear=True):
                self.assertEqual(colours.is_coloured(), wanted, environment)


@needs_dns
class Terminal(Judging):
    def printed(self, **environment):
        """What a terminal gets."""
        ours, theirs = pty.openpty()
        words = [*JUDGE, "--program", self.program, "--at", NOON, "--anchors", ANCHORS, capture_of("bind-www-a"), "other.bind.test/A"]
        subprocess.run([str(word) for word in words], stdout=theirs, env={**os.environ, **environment}, check=False)
        os.close(theirs)
        with open(ours, "rb") as file:
            return file.read1(65536).decode()

    def test_a_terminal_gets_colours_where_they_are_wanted(self):
        self.assertIn(f"  {RED}FAIL{END} other.bind.test. A: ", self.printed(TERM="xterm", NO_COLOR=""))
        self.assertIn("  FAIL other.bind.test. A: ", self.printed(TERM="xterm", NO_COLOR="1"))


if __name__ == "__main__":
    unittest.main()
