"""Tests of tools/wrong_bodies/record.py: which bodies were refused as they are now, and what a run writes of them."""
from wrong_bodies.record import Record, commit_of

from .trees import Room

EDIT = "file: src/lib.rt\nold: 1\nnew: 2\n"


class Recorded(Room):
    def setUp(self):
        super().setUp()
        self.git("init", "-q")
        self.write(".gitignore", "out/\n")
        for path in ("must-fail/one", "wrong-bodies/two", "wrong-bodies/three"):
            self.write(f"crates/lower/{path}.edit", EDIT)
        self.commit("All")

    def commit(self, message):
        self.git("add", ".")
        self.git("commit", "-qm", message)

    def record(self):
        return Record(self.room, "lower", commit_of(self.room))

    def told(self):
        return (self.room / "crates/lower/wrong-bodies/refused").read_text()

    def test_those_are_told_whose_edits_stand(self):
        self.assertEqual(self.record().standing(), set())
        for name in ("two", "one"):
            self.record().note(name, True)
        self.assertEqual(self.told(), "".join(f"{name} {commit_of(self.room)}\n" for name in ("one", "two")))
        self.commit("Told")
        self.write("crates/lower/src/lib.rt", "1\n")
        self.assertEqual(self.record().standing(), {"one", "two"})
        self.write("crates/lower/must-fail/one.edit", EDIT.replace("2", "3"))
        self.assertEqual(self.record().standing(), {"two"})
        self.commit("Another body")
        self.assertEqual(self.record().standing(), {"two"})

    def test_an_edit_that_moved_stands_as_it_was(self):
        for name in ("one", "two"):
            self.record().note(name, True)
        self.commit("Told")
        self.git("mv", "crates/lower/must-fail/one.edit", "crates/lower/wrong-bodies/one.edit")
        self.git("mv", "crates/lower/wrong-bodies/two.edit", "crates/lower/must-fail/two.edit")
        self.write("crates/lower/must-fail/two.edit", EDIT.replace("2", "3"))
        self.commit("Moved")
        self.assertEqual(self.record().standing(), {"one"})

    def test_an_edit_that_moved_to_another_crate_stands_as_it_was(self):
        for name in ("one", "two"):
            self.record().note(name, True)
        self.commit("Told")
        for path in ("must-fail/one.edit", "wrong-bodies/two.edit", "wrong-bodies/refused"):
            (self.room / "crates/upper" / path).parent.mkdir(parents=True, exist_ok=True)
            self.git("mv", f"crates/lower/{path}", f"crates/upper/{path}")
        self.write("crates/upper/wrong-bodies/two.edit", EDIT.replace("2", "3"))
        self.commit("Moved")
        self.assertEqual(Record(self.room, "upper", None).standing(), {"one"})
        self.assertEqual(self.record().standing(), set())

    def test_the_commit_is_the_last_of_the_crates(self):
        commit = commit_of(self.room)
        self.write("crates/lower/out/one", "")
        self.record().note("one", True)
        self.write("README.md", "Lower.\n")
        self.commit("Told")
        self.assertEqual(commit_of(self.room), commit)
        self.assertEqual(len(commit), 10)
        self.write("crates/lower/src/lib.rt", "1\n")
        self.assertIsNone(commit_of(self.room))

    def test_what_is_not_committed_is_not_told(self):
        self.write("crates/lower/src/lib.rt", "1\n")
        self.record().note("one", True)
        self.assertFalse((self.room / "crates/lower/wrong-bodies/refused").exists())

    def test_a_body_that_is_not_refused_any_more_and_one_that_is_gone(self):
        for name in ("one", "two", "three"):
            self.record().note(name, True)
        (self.room / "crates/lower/wrong-bodies/three.edit").unlink()
        self.commit("Two bodies")
        self.record().note("one", False)
        self.assertEqual([line.split()[0] for line in self.told().splitlines()], ["two"])

    def test_of_a_commit_that_is_not_there_nothing_is_told(self):
        self.write("crates/lower/wrong-bodies/refused", "one 0123456789\n")
        self.assertEqual(self.record().standing(), set())
