"""Tests of tools/wrong_bodies/changed.py: which crates a change concerns."""
from wrong_bodies import changed

from .trees import Room

BELOW = {"lower": ["thiserror"], "beside": [], "middle": ["lower"], "upper": ["middle"]}
FUNCTION = "/// One.\npub fn one() -> u8\n    ensures { result ≡ 1 }\n{\n    1\n}\n"
ALL_ABOVE = {"lower", "middle", "upper"}


class Changed(Room):
    def setUp(self):
        super().setUp()
        self.git("init", "-q")
        for crate in BELOW:
            self.write(f"crates/{crate}/src/lib.rt", FUNCTION)
        self.git("add", ".")
        self.git("commit", "-qm", "All")

    def since(self, commit="HEAD"):
        return changed.changed_since(self.room, commit, BELOW)

    def test_a_change_concerns_its_crate_and_a_statement_those_above(self):
        rows = (("src/lib.rt", FUNCTION.replace("    1", "    2 - 1"), {"lower"}),
                ("src/lib.rt", FUNCTION.replace("≡ 1", "≡ 2"), ALL_ABOVE),
                ("src/lib.rt", FUNCTION.replace("One", "First"), {"lower"}),
                ("src/other.rt", FUNCTION, ALL_ABOVE), ("specs/Lib.antt", "pub mod One\n", ALL_ABOVE),
                ("proofs/one/Answers.antt", "use One\n", {"lower"}), ("must-fail/one.edit", "file: src/lib.rt\n", {"lower"}),
                ("wrong-bodies/one.edit", "file: src/lib.rt\n", {"lower"}), ("wrong-bodies/refused", "one 0\n", set()),
                ("src/tests.rt", FUNCTION, set()),
                ("src/one/tests/two.rt", FUNCTION, set()), ("README.md", "Lower.\n", set()))
        self.assertEqual(self.since(), set())
        for file, text, concerned in rows:
            with self.subTest(file=file, text=text):
                self.write(f"crates/lower/{file}", text)
                self.assertEqual(self.since(), concerned)
                self.git("add", ".")
                self.git("commit", "-qm", file)
                self.assertEqual((self.since("HEAD~1"), self.since()), (concerned, set()))
                self.git("reset", "-q", "--hard", "HEAD~1")

    def test_a_file_that_is_gone_is_a_change(self):
        (self.room / "crates/middle/src/lib.rt").unlink()
        self.assertEqual(self.since(), {"middle", "upper"})

    def test_a_commit_that_is_not_there(self):
        with self.assertRaisesRegex(changed.Unknown, "^fatal: .*none"):
            self.since("none")
