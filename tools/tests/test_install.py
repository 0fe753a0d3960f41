"""Tests of what `make install` puts where, and that it runs from there."""
import pathlib
import re
import shutil
import subprocess
import tempfile
import unittest

from tool import DATA, PROGRAM, TOOLS, run_program
from dnssec_check_tools.command import VERSION

DOCS = TOOLS.parent / "docs"
MANUAL = DOCS / "dnssec_check.1"
COMMANDS = ("dnssec_check", "dnssec_check-capture", "dnssec_check-judge", "dnssec_check-verify")
OF_THE_MACHINE = ("outdated mandoc.db", "referenced manual not found")  # which other pages a machine has


class Install(unittest.TestCase):
    @unittest.skipUnless(PROGRAM.exists() and shutil.which("make"), "needs the built program, and make")
    def test_what_is_installed_runs_from_there(self):
        with tempfile.TemporaryDirectory() as room:
            words = ["make", "--silent", "install", "PREFIX=/opt/x", f"DESTDIR={room}"]
            subprocess.run(words, cwd=TOOLS.parent, check=True, capture_output=True)
            place = pathlib.Path(room) / "opt" / "x"
            self.has_its_pages(place / "share")
            self.has_its_schema(place)
            self.runs(place / "bin", place / "capture")

    def has_its_pages(self, share):
        """The manual page of each command as it is in docs/, and completions: bash and fish find them by the command's name,
        zsh by the first line of one file."""
        self.assertEqual((share / "zsh/site-functions/_dnssec_check").read_bytes(), (TOOLS / "completion/_dnssec_check").read_bytes())
        for name in COMMANDS:
            of_fish = share / "fish/vendor_completions.d" / f"{name}.fish"
            self.assertEqual(of_fish.read_bytes(), (TOOLS / "completion/dnssec_check.fish").read_bytes())
            page = f"{name}.1"
            self.assertEqual((share / "man/man1" / page).read_bytes(), (DOCS / page).read_bytes())
            completion = share / "bash-completion/completions" / name
            self.assertEqual(completion.read_bytes(), (TOOLS / "completion/dnssec_check").read_bytes())

    def has_its_schema(self, place):
        """The schema as it is in docs/, where the manual page says."""
        path = re.search(r"^\.Pa (\S+schema\.json)", MANUAL.read_text(), re.MULTILINE)[1]
        self.assertEqual((place / path).read_bytes(), (DOCS / "schema.json").read_bytes())

    def runs(self, tools, capture):
        self.assertEqual({path.name for path in tools.iterdir()}, set(COMMANDS))
        words = ("--pcap", DATA / "packets" / "loopback.pcap", "--port", "5300", "--output", capture)
        self.assertEqual(run_program(tools / "dnssec_check-capture", *words)[:2], (0, b""))
        shown = run_program(tools / "dnssec_check", "show", "--capture", capture)
        self.assertEqual((shown[0], shown[1].count(b"message "), shown[2]), (0, 5, ""))
        verified = run_program(tools / "dnssec_check-verify", DATA / "todo")
        self.assertEqual(verified, (0, (DATA / "statements").read_bytes(), ""))
        told = run_program(tools / "dnssec_check-judge", "--version")
        self.assertEqual(told, (0, f"dnssec_check-judge {VERSION}\n".encode(), ""))


class Manual(unittest.TestCase):
    @unittest.skipUnless(shutil.which("mandoc"), "needs mandoc")
    def test_each_manual_page_is_well_formed(self):
        for page in DOCS.glob("*.1"):
            done = subprocess.run(["mandoc", "-T", "lint", "-W", "style", page], capture_output=True, text=True)
            told = [line for line in done.stdout.splitlines() if not any(text in line for text in OF_THE_MACHINE)]
            self.assertEqual(told, [])

    def test_the_manual_page_of_each_tool_has_its_options(self):
        for name in ("capture", "verify", "judge"):
            with self.subTest(name):
                page = (DOCS / f"dnssec_check-{name}.1").read_text()
                told = set(re.findall(r"^\.It Fl -([a-z-]+)", page, re.MULTILINE))
                helped = run_program(TOOLS / name, "--help")[1].decode()
                self.assertEqual(told, set(re.findall(r"^ +(?:-\w, )?--([a-z-]+)", helped, re.MULTILINE)))

    @unittest.skipUnless(PROGRAM.exists(), "needs the built program")
    def test_the_manual_page_has_each_option_of_the_program(self):
        told = set(re.findall(r"\.(?:It|Op) Fl -([a-z]+)", MANUAL.read_text()))
        helps = [run_program(PROGRAM, *words)[1].decode() for words in (["--help"], ["show", "--help"],
                                                                       ["list", "--help"], ["check", "--help"],
                                                                       ["explain", "--help"])]
        options = {option for text in helps for option in re.findall(r"^ +(?:-\w, )?--([a-z-]+)", text, re.MULTILINE)}
        self.assertLessEqual({"capture", "moment", "all", "help"}, options)
        self.assertEqual(options - told, set())


if __name__ == "__main__":
    unittest.main()
