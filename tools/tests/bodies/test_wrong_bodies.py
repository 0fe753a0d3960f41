"""Tests of tools/wrong-bodies: that each body is tried until it is settled, and what is counted. A program that stands in
for the kit's `rt` proves each function with the body `right`."""
import os
import shutil
import unittest
from unittest import mock

from tool import TOOLS, run_program
from .trees import Room

RT = r"""#!/usr/bin/env python3
import pathlib, re, sys
OPEN = "no proof: expected answers; `search` did not prove `returns`"
SAID = {"right": "proved", "fine": "proved", "wrong": OPEN + "; it calls `f`", "stuck": "could not tell",
        "blocked": "no proof: it calls `f`, which is not proved", "unfit": OPEN, "fails": OPEN, "trivial": "proved"}
ERRORS = {"unfit": "`c.gone` has no field `ensures`", "trivial": "this function is checked against `Unit`",
          "fails": "the two types differ only where one has `3`"}
if "--allow-holes" not in sys.argv:
    sys.exit(pathlib.Path("unproved").exists())
bodies = re.findall(r"fn (\w+)\(\) \{\n +(\w+)", pathlib.Path("src/one.rt").read_text())
if "garbled" in dict(bodies).values():
    sys.exit("error[E0001]: this is no body")
for name, body in bodies:
    answers = pathlib.Path(f"proofs/one/{name}/Answers.antt")
    said = SAID[body]
    if body in ERRORS and answers.exists():
        print(f"./{answers}:3:5: error: `returns`: {ERRORS[body]}")
        said = "not proved; it stands on `returns`, which antt refuses"
    if body == "blocked" and all(other == "right" for one, other in bodies if one != name):
        said = SAID["wrong"]
    print(f"fn {pathlib.Path.cwd().name}::one::{name}: {said}")
"""
ANSWERS = "use goals.first as goal\n\npub returns : goal.returns\nreturns c = c.gone.ensures\n"


class WrongBodies(Room):
    def setUp(self):
        super().setUp()
        (self.room / "tools").mkdir()
        shutil.copy(TOOLS / "wrong-bodies", self.room / "tools")
        for package in ("wrong_bodies", "dnssec_check_tools"):
            shutil.copytree(TOOLS / package, self.room / "tools" / package)
        (self.room / "rt").write_text(RT)
        (self.room / "rt").chmod(0o755)
        (self.room / "HANDLES").write_text("Handles allowed: none.\n")
        (self.room / "crates.txt").write_text("# Lowest first.\nlower: thiserror\nupper staticlib: lower\n")
        for crate in ("lower", "upper"):
            (self.room / "crates" / crate / "src").mkdir(parents=True)
        patch = mock.patch.dict(os.environ, PATH=f"{self.room}:{os.environ['PATH']}", LANES="2")
        patch.start()
        self.addCleanup(patch.stop)

    def add(self, crate, part, *bodies):
        """Adds a function for each body, and the edit that gives it that body."""
        folder = self.room / "crates" / crate / part
        folder.mkdir()
        with open(self.room / "crates" / crate / "src/one.rt", "a") as source:
            for number, body in enumerate(bodies):
                name = f"{part.replace('-', '_')}_{number:02}"
                source.write(f"fn {name}() {{\n    right // {name}\n}}\n")
                (folder / f"{name}.edit").write_text(f"file: src/one.rt\nold: right // {name}\nnew: {body} // {name}\n")
                if body in ("unfit", "fails", "trivial"):
                    self.write(f"crates/{crate}/proofs/one/{name}/Answers.antt", ANSWERS)

    def told(self, *names):
        status, output, errors = run_program(self.room / "tools/wrong-bodies", *names)
        return status, output.decode().splitlines(), errors

    def test_each_body_is_tried_until_it_is_settled(self):
        self.add("lower", "must-fail", *["wrong"] * 32)
        self.add("lower", "wrong-bodies", "fails", "blocked", "blocked", "wrong")
        self.add("upper", "wrong-bodies", "blocked")
        before = (self.room / "crates/lower/src/one.rt").read_text()
        status, lines, _ = self.told()
        self.assertEqual((status, lines[-2:], len(lines)), (0, ["37 refused, 0 proved, 0 unsettled, 0 no verdict", "37 passed, 0 failed"], 39))
        self.assertIn("lower/wrong_bodies_03: refused: `search` did not prove `returns`", lines)
        self.assertEqual((self.room / "crates/lower/src/one.rt").read_text(), before)

    def test_each_is_told_by_its_kind(self):
        rows = {"wrong": "refused: `search` did not prove `returns`", "fine": "proved: the crate is proved with it",
                "trivial": "proved: the crate is proved with it",
                "fails": "refused: `search` did not prove `returns`, and its answer fails: `returns`: the two types differ only where one has `3`",
                "unfit": "unsettled: `returns` is open, and an answer doesn't fit: `returns`: `c.gone` has no field `ensures`",
                "stuck": "no verdict: fn lower::one::must_fail_05: could not tell", "garbled": "no verdict: error[E0001]: this is no body"}
        self.add("lower", "must-fail", *rows)
        status, lines, _ = self.told()
        self.assertEqual((status, lines[-1]), (1, "2 passed, 5 failed"))
        self.assertEqual(sorted(lines[:-2]), [f"lower/must_fail_{number:02}: {told}" for number, told in enumerate(rows.values())])

    def test_a_text_that_is_not_there(self):
        self.add("lower", "must-fail", "wrong")
        (self.room / "crates/lower/must-fail/must_fail_00.edit").write_text("file: src/one.rt\nold: left\nnew: wrong\n")
        self.assertEqual(self.told()[1][0], "lower/must_fail_00: no verdict: its texts don't stand once each")

    def test_those_of_crates_that_changed_alone(self):
        self.add("lower", "must-fail", "wrong")
        self.add("upper", "must-fail", "wrong", "wrong")
        self.git("init", "-q")
        self.git("add", ".")
        self.git("commit", "-qm", "All")
        with mock.patch.dict(os.environ, SINCE="HEAD"):
            self.assertEqual(self.told(), (0, ["0 passed, 0 failed"], ""))
            self.write("crates/upper/proofs/one/Answers.antt", ANSWERS)
            self.assertEqual(self.told()[1][-1], "2 passed, 0 failed")
            self.assertEqual(self.told("lower")[1][-1], "0 passed, 0 failed")
        with mock.patch.dict(os.environ, SINCE="none"):
            status, lines, errors = self.told()
        self.assertEqual((status, lines, errors[:32]), (2, [], "wrong-bodies: SINCE=none: fatal:"))

    def test_those_alone_of_which_nothing_is_told(self):
        self.add("lower", "must-fail", "wrong", "fine")
        self.add("lower", "wrong-bodies", "wrong")
        self.git("init", "-q")
        self.write(".gitignore", "__pycache__/\n")
        self.git("add", ".")
        self.git("commit", "-qm", "All")
        self.assertEqual(self.told()[1][-1], "2 passed, 1 failed")
        told = (self.room / "crates/lower/wrong-bodies/refused").read_text().splitlines()
        self.assertEqual([line.split()[0] for line in told], ["must_fail_00", "wrong_bodies_00"])
        with mock.patch.dict(os.environ, UNTOLD="1"):
            self.assertEqual(self.told()[1][-1], "0 passed, 1 failed")
        self.assertEqual(self.told("--told"), (0, ["lower: 3, of which 2 were refused as they are", "upper: 0, of which 0 were refused as they are"], ""))
        self.assertEqual(self.told("--told", "lower")[1], ["lower: 3, of which 2 were refused as they are"])

    def test_those_of_named_crates_alone(self):
        self.add("lower", "must-fail", "wrong")
        self.add("upper", "must-fail", "wrong", "wrong")
        self.assertEqual(self.told("upper")[1][-1], "2 passed, 0 failed")
        self.assertEqual(self.told("lower")[1][-1], "1 passed, 0 failed")

    def test_the_crate_itself_has_to_be_proved(self):
        self.add("upper", "must-fail", "wrong")
        (self.room / "crates/upper/unproved").touch()
        self.assertEqual(self.told(), (1, [], "wrong-bodies: upper isn't proved as it is\n"))

    def test_a_crate_that_is_not_there(self):
        status, lines, errors = self.told("middle")
        self.assertEqual((status, lines), (2, []))
        self.assertTrue(errors.endswith("error: there is no crate middle\n"), errors)


if __name__ == "__main__":
    unittest.main()
