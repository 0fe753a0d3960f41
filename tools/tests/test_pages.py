"""Tests of tools/pages: which commands of a page run, and what passes."""
import pathlib
import re
import shutil
import tempfile
import unittest

from tool import PROGRAM, TOOLS, load, run, run_program

PAGES = ("README.md", "docs/VERDICTS.md", "docs/EXPLANATION.md", "docs/CAPTURING.md", "docs/BREAKS.md", "docs/AUDITING.md",
         "examples/README.md")


class Pages(unittest.TestCase):
    def setUp(self):
        room = tempfile.TemporaryDirectory()
        self.addCleanup(room.cleanup)
        self.page = pathlib.Path(room.name) / "page.md"

    def run_page(self, text, *titles):
        self.page.write_text(text)
        status, output, errors = run("pages", self.page, *titles)
        return status, output.decode(), errors

    def passes(self, text, passed, *titles):
        self.assertEqual(self.run_page(text, *titles), (0, f"{passed} passed, 0 failed\n", ""))

    def fails(self, text, passed, *told):
        status, output, errors = self.run_page(text)
        self.assertEqual((status, errors, output.splitlines()[-1]), (1, "", f"{passed} passed, 1 failed"))
        for each in told:
            self.assertIn(each, output)

    def test_what_is_shown_has_to_be_printed(self):
        self.passes("Text:\n\n    echo one\n    # one\n", 1)
        self.passes("Text:\n\n    echo one >&2; echo two\n    # one\n    # two\n\nMore.\n\n    true\n", 2)
        for printed in ("two", "one; echo two", "one one", "' one'"):
            text = f"    echo {printed}\n    # one\n    echo two\n    # two\n"
            self.fails(text, 1, "page.md:1: shown:\none\nprinted:")
        self.fails("    true\n    # one\n", 0, "shown:\none\nprinted:\n")
        self.fails("    echo one; echo two\n    # one\n", 0, "printed:\none\ntwo")

    def test_dots_stand_for_any_text(self):
        self.passes("    printf '1\\n2\\n3 4\\n'\n    # ..\n    # 3 ..\n", 1)
        self.passes("    echo 'a.b'\n    # ..\n    # a.b\n    # ..\n", 1)
        self.fails("    echo 'a.b'\n    # a..c\n", 0)
        self.fails("    echo 'axb'\n    # a.b\n", 0)

    def test_what_is_not_shown_may_be_printed(self):
        self.passes("    echo one\n\n    echo two\n    # ..\n    # two\n", 1)
        self.passes("    echo one\n\nText.\n\n    # two\n    echo three\n", 2)

    def test_each_step_has_to_end_with_0(self):
        self.fails("Text.\n\n    true\n    false\n\nText.\n\n    true\n", 1, "page.md:3: status 1")
        self.fails("    true\n\nText.\n\n    exit 0\n", 1, "page.md:5: status unknown")

    def test_all_run_in_one_shell(self):
        here_document = "    cat <<END\n    $word\n\n      two\n    END\n    # one\n    # \n    #   two\n"
        self.passes("    word=one\n\nText.\n\n" + here_document, 2)
        self.passes("    sleep 60 &\n\nText.\n\n    kill $!\n", 2)

    def test_sections_are_run_by_their_titles(self):
        text = "# One\n\n    false\n\n## Two\n\n    echo a\n    # a\n\n### Three\n\n    false\n"
        self.passes(text, 1, "Two")
        self.assertEqual(self.run_page(text)[0], 1)
        self.assertEqual(self.run_page(text, "Four")[:2], (2, ""))

    @unittest.skipUnless(PROGRAM.exists() and shutil.which("make"), "needs the built program, and make")
    def test_the_installed_program_is_the_first_on_the_path(self):
        self.page.write_text("    command -v dnssec_check dnssec_check-judge\n    # ../installed/bin/dnssec_check\n"
                             "    # ../installed/bin/dnssec_check-judge\n\n    find $HOME\n    # ../home\n")
        self.assertEqual(run_program(TOOLS / "pages", "--installed", self.page), (0, b"2 passed, 0 failed\n", ""))

    def test_the_pages_have_commands(self):
        for name in PAGES:
            with self.subTest(name):
                text = (TOOLS.parent / name).read_text()
                self.assertTrue(any(step.shown for step in load("pages").steps_of(text, [])))

class Recipes(unittest.TestCase):
    def test_delv_asks_with_checking_disabled(self):
        """Behind a resolver that validates it else gets nothing of a zone that is broken. A recipe with a function that asks by
        it, as one of docs/BREAKS.md, hands the option over."""
        asks = re.compile(r"^(?:    |.*`)\s*(delv (?!\+cd).*)$", re.MULTILINE)
        for page in ("README.md", "docs/CAPTURING.md", "docs/BREAKS.md"):
            text = (TOOLS.parent / page).read_text()
            self.assertIn("delv +cd", text)
            asked = [line for line in asks.findall(text) if "+cd" not in line and '"${@:2}"' not in line]
            self.assertEqual(asked, [], page)



if __name__ == "__main__":
    unittest.main()
