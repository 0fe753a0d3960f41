"""Which targets of the Makefile need the kit's command `rt`, and what `make try` hands to it."""
import os
import pathlib
import shlex
import shutil
import subprocess
import tempfile
import unittest

from tool import TOOLS, load
from cases import named

TOP = TOOLS.parent
PROGRAM, ROWS = (f"crates/{name}/out/{name}" for name in ("dnssec_check", "dnsv_rows"))
SAYS = '#!/bin/sh\nprintf "%s\\n" "$(basename "$0")" "$@"\n'
NEED_NO_RT = ("demo", "examples", "faults", "pages", "install", "deb")


@unittest.skipUnless(shutil.which("make"), "needs make")
class Targets(unittest.TestCase):
    """In a copy of the Makefile's folder with an `rt`, and where it's asked a program, that print their words."""

    def setUp(self):
        room = tempfile.TemporaryDirectory()
        self.addCleanup(room.cleanup)
        self.room = pathlib.Path(room.name)
        shutil.copy(TOP / "Makefile", self.room)
        for name in ("examples", "tools"):
            (self.room / name).symlink_to(TOP / name)
        for name in ("dnssec_check", "dnsv_rows"):
            (self.room / "crates" / name).mkdir(parents=True)
        self.command("bin/rt")

    def command(self, name):
        path = self.room / name
        path.parent.mkdir(exist_ok=True)
        path.write_text(SAYS)
        path.chmod(0o755)

    def make(self, *words):
        environment = {"PATH": f"{self.room}/bin:{os.environ['PATH']}"}
        done = subprocess.run(["make", "--silent", *words], cwd=self.room, env=environment, check=False,
                              capture_output=True, text=True)
        self.assertEqual((done.returncode, done.stderr), (0, ""))
        return done.stdout.splitlines()

    def test_the_program_that_is_built_is_run_without_rt(self):
        self.command(PROGRAM)
        self.command(ROWS)
        self.assertEqual(self.make("demo")[:2], ["dnssec_check", "list"])
        for target in NEED_NO_RT:
            with self.subTest(target):
                self.assertEqual([line for line in self.make("--dry-run", target) if "rt run" in line], [])

    def test_the_program_is_built_where_there_is_none(self):
        for target in NEED_NO_RT:
            with self.subTest(target):
                self.assertIn("cd crates/dnssec_check && rt run -- --version", self.make("--dry-run", target))

    def test_of_the_pages_what_needs_no_rt_is_run(self):
        self.command(PROGRAM)
        for page, wanted in (("README.md", []), ("docs/INSTALL.md", ["make install PREFIX=$HOME/.local"])):
            line, = [line for line in self.make("--dry-run", "pages") if f" {page} " in line]
            _, titles = line.split(f" {page} ")
            steps = load("pages").steps_of((TOP / page).read_text(), shlex.split(titles))
            commands = [command.split("#")[0].strip() for step in steps for command in step.commands]
            needing = [command for command in commands if command.split(" ")[0] in ("make", "rt")]
            with self.subTest(page):
                self.assertEqual(needing, wanted)

    def test_the_guards_build_nothing(self):
        for target, line in (
            ("check", "tools/check"),
            ("packages", "tools/packages"),
            ("lint", "/usr/bin/python3 tools/lint"),
        ):
            with self.subTest(target):
                self.assertEqual(self.make("--dry-run", target, "PYTHON=/usr/bin/python3"), [line])

    def test_the_library_is_proved_anew_where_a_crate_changed(self):
        archive, below = "crates/dnssec_check_c/out/libdnssec_check_c.a", ("crates.txt", "crates/a/src/a.rt", "crates/a/specs/A.antt")
        not_below = ("dnssec_check", "dnsv_rows", "dnsv_record_rows", "dnsv_message_rows", "dnsv_row_text")
        beside = ("crates/a/GUARANTEES.md", "crates/a/out/a.rt", *(f"crates/{crate}/src/a.rt" for crate in not_below))
        for name in (archive, *below, *beside):
            (self.room / name).parent.mkdir(parents=True, exist_ok=True)
            (self.room / name).touch()
        for newer in (archive, *below, *beside):
            for name in (archive, *below, *beside):
                os.utime(self.room / name, (0, 1000 + (name == archive) + 2 * (name == newer)))
            with self.subTest(newer):
                lines = self.make("--dry-run", archive)
                self.assertEqual("cd crates/dnssec_check_c && rt lib" in lines, newer in below)

    def test_the_library_is_made_anew_for_another_version(self):
        made = "out/library/dnssec_check.o"
        older = ("crates.txt", "crates/dnssec_check_c/out/libdnssec_check_c.a", "out/library/proved.o", "library/calls.c",
                 "library/dnssec_check.h", "library/symbols")
        for name in (made, *older):
            (self.room / name).parent.mkdir(parents=True, exist_ok=True)
            (self.room / name).touch()
            os.utime(self.room / name, (0, 0))
        told = (TOP / "tools/dnssec_check_tools/command.py").stat().st_mtime_ns
        for when in (told - 1, told):
            os.utime(self.room / made, ns=(when, when))
            lines = self.make("--dry-run", made)
            self.assertEqual(any("-DDNSSEC_CHECK_VERSION" in line for line in lines), when < told)

    def test_the_gate_comes_with_the_guards(self):
        self.assertEqual(self.make("--dry-run", "test"), ["tools/check --gate"])

    def test_what_was_built_gives_the_verdict_of_the_example(self):
        self.command(PROGRAM)
        words = self.make()
        self.assertEqual(words[:5], ["rt", "run", "--", "--version", "dnssec_check"])
        given = [(TOP / word).resolve() if before in ("--capture", "--anchors", "--statements") else word
                 for before, word in zip(words[4:], words[5:])]
        self.assertEqual(pairs_of(given), self.asked())

    def asked(self):
        """What the first example asks."""
        example, = named("bind-www-a/check")
        there = example.folder
        return pairs_of([(there / word).resolve() if (there / word).is_file() else word for word in example.words])

    def test_a_first_verdict_is_that_of_the_example(self):
        words = self.make("try")
        self.assertEqual(words[:2], ["rt", "try"])
        end = words.index("--")
        files = dict(word.split("=") for word in words[2:end] if word != "--data")
        here = TOP / "crates/dnssec_check"
        given = [(here / files[word]).resolve() if word in files and before.startswith("--") else word
                 for before, word in zip(words[end:], words[end + 1:])]
        self.assertEqual(pairs_of(given), self.asked())


def pairs_of(words):
    """The subcommand and the options with their values."""
    return words[0], dict(zip(words[1::2], words[2::2]))


if __name__ == "__main__":
    unittest.main()
