"""What tools/check makes of guards that pass, fail and lack something, and which guards there are."""
import os
import pathlib
import signal
import sys
import tempfile
import unittest
from unittest import mock

from checking import guards, packages, running
from checking.counts import BROKEN, Count, of_status
from checking.guards import TESTS, TREE, Guard
from fuzzing.targets import TARGETS
from tool import TOOLS, load, run, run_program


def shell(name, script, **others):
    return Guard(name, ("sh", "-c", script), **others)


def without_tshark(wanted=packages.PACKAGES):
    return [package.name for package in wanted if package.name == "tshark"]


GOOD = shell("good", "echo one; echo 3 passed, 0 failed")
BAD = shell("bad", "echo 3 passed, 2 failed; exit 1")


class Check(unittest.TestCase):
    def check(self, *words, known=(GOOD,), gate=GOOD):
        with mock.patch.multiple(load("check"), guards=lambda: list(known), GATE=gate):
            status, output, errors = run("check", *words)
        return status, output.decode(), errors

    def test_the_last_line_counts_all(self):
        status, output, _ = self.check(known=(GOOD, shell("other", "echo 4 passed, 0 failed")))
        self.assertEqual((status, output.splitlines()[-1]), (0, "7 passed, 0 failed"))
        status, output, _ = self.check(known=(GOOD, BAD))
        self.assertEqual((status, output.splitlines()[-1]), (1, "6 passed, 2 failed"))

    def test_what_a_guard_prints_is_shown_whole(self):
        script = "for each in 1 2 3; do echo {0}; sleep 0.1; done; echo 1 passed, 0 failed"
        _, output, _ = self.check(known=[shell(name, script.format(name)) for name in ("a", "b")])
        for name in "ab":
            self.assertRegex(output, rf"== {name}: 1 passed, 0 failed \(\d+ s\)\n(?:{name}\n){{3}}")

    def test_a_guard_can_be_interrupted_whoever_began_it(self):
        script = "import signal; print(signal.getsignal(signal.SIGINT) is signal.default_int_handler, 'passed')"
        before = signal.signal(signal.SIGINT, signal.SIG_IGN)
        self.addCleanup(signal.signal, signal.SIGINT, before)
        guard = Guard("python", ("python3", "-c", script), count=of_status)
        self.assertEqual(running.ran(guard, 1).printed, "True passed\n")

    def test_the_gate_counts_and_the_guards_run_behind_it(self):
        status, output, _ = self.check("--gate", gate=shell("gate", "echo 40 passed, 0 failed"))
        self.assertEqual((status, output.splitlines()[-1]), (0, "43 passed, 0 failed"))
        status, output, _ = self.check("--gate", gate=shell("gate", "echo 39 passed, 1 failed; exit 1"))
        self.assertEqual((status, output.splitlines()[-1]), (1, "42 passed, 1 failed"))

    def test_the_gate_alone_does_not_run_without_the_word(self):
        self.assertEqual(self.check(gate=BAD)[1].splitlines()[-1], "3 passed, 0 failed")

    def test_what_is_missing_fails_alone(self):
        lacking = (shell("a", "false", packages=("tshark",)), shell("b", "false", built=(guards.PROGRAM,)),
                   shell("c", "false", kit=("no-such-command",)))
        with mock.patch.multiple(running, lacking=without_tshark, TREE=TREE / "nowhere"):
            results = [running.ran(guard, 1) for guard in lacking]
        self.assertEqual([result.count for result in results], [BROKEN] * 3)
        self.assertEqual([result.printed for result in results], [
            "the package tshark isn't there\n"
            "this installs what is missing: apt-get install --yes --no-install-recommends tshark\n",
            "crates/dnssec_check/out/dnssec_check isn't built: make\n",
            "the kit's command no-such-command isn't on the path\n"])
        missing = shell("missing", "true", count=of_status, kit=("no-such-command",))
        status, output, _ = self.check(known=(missing, GOOD))
        self.assertEqual((status, output.splitlines()[-1]), (1, "3 passed, 1 failed"))

    def test_the_library_is_left_out_where_it_is_not_built_unless_it_is_named(self):
        room = tempfile.TemporaryDirectory()
        self.addCleanup(room.cleanup)
        library = shell("tests/library", "echo 5 passed, 0 failed", only_with=(guards.LIBRARY,))
        known = (GOOD, library, shell("tests", "echo 2 passed, 0 failed"))
        why = "out/library/libdnssec_check.so.1 isn't built: make library"
        with mock.patch.object(running, "TREE", pathlib.Path(room.name)):
            for words, count in ((), 5), (("tests",), 2):
                status, output, _ = self.check(*words, known=known)
                last = [f"tests/library: left out, {why}", f"{count} passed, 0 failed"]
                self.assertEqual((status, output.splitlines()[-2:]), (0, last))
            status, output, _ = self.check("tests/library", known=known)
            self.assertIn(f"{why}\n", output)
            self.assertEqual((status, output.splitlines()[-1]), (1, "0 passed, 1 failed"))
            self.assertEqual(self.check("--list", known=known)[1], "good\ntests/library\ntests\n")
            made = pathlib.Path(room.name) / guards.LIBRARY
            made.parent.mkdir(parents=True)
            made.touch()
            status, output, _ = self.check(known=known)
            self.assertEqual((status, output.splitlines()[-1]), (0, "10 passed, 0 failed"))
            self.assertNotIn("left out", output)

    def test_a_gate_without_the_kit_fails(self):
        gate = shell("gate", "true", kit=("no-such-command",))
        status, output, _ = self.check("--gate", gate=gate)
        self.assertEqual((status, output.splitlines()[-1]), (1, "3 passed, 1 failed"))

    def test_guards_by_name(self):
        known = (GOOD, BAD, shell("bad/a", "echo 1 passed, 0 failed"))
        self.assertEqual(self.check("good", known=known)[1].splitlines()[-1], "3 passed, 0 failed")
        self.assertEqual(self.check("bad/a", known=known)[1].splitlines()[-1], "1 passed, 0 failed")
        self.assertEqual(self.check("bad", known=known)[1].splitlines()[-1], "4 passed, 2 failed")
        status, _, errors = self.check("evil", known=known)
        self.assertEqual(status, 2)
        self.assertIn("there is no guard evil", errors)
        self.assertEqual(self.check("--list", known=known), (0, "good\nbad\nbad/a\n", ""))


class Guards(unittest.TestCase):
    def test_each_module_of_tests_is_in_one_guard(self):
        run_there = [word for guard in guards.guards() if guard.name.startswith("tests") for word in guard.words]
        for file in TESTS.rglob("test_*.py"):
            with self.subTest(file.name):
                self.assertEqual(run_there.count(guards.module_of(file)), 1)

    def test_each_crate_with_programs_that_must_not_compile_is_there(self):
        names = {guard.name for guard in guards.guards()}
        for folder in (TREE / "crates").glob("*/does-not-compile"):
            self.assertIn(f"does-not-compile/{folder.parent.name}", names)

    def test_the_library_is_the_one_thing_without_which_a_guard_is_left_out(self):
        """For the gate builds none; whatever else isn't built, its guards fail."""
        found = {guard.name: guard.only_with for guard in guards.guards() if guard.only_with}
        self.assertEqual(found, dict.fromkeys(("tests/library", "docs/LIBRARY.md", "docs/NOTEBOOK.md"), (guards.LIBRARY,)))
        self.assertNotIn(guards.LIBRARY, {path for guard in guards.guards() for path in guard.built})

    def test_each_target_of_fuzz_is_there(self):
        names = {guard.name for guard in guards.guards()}
        self.assertLessEqual({f"fuzz/{target}" for target in TARGETS}, names)
        self.assertLessEqual({"capture", "verify", "anchors", "zone", "xml"}, set(TARGETS))

    def test_what_a_stranger_sends_is_tried_for_a_minute_by_one_seed(self):
        """And for as long as is asked for, as an hour before a version."""
        for seconds in (60, 3600):
            with mock.patch.object(guards, "FUZZ_SECONDS", seconds):
                for target in ("capture", "verify", "anchors", "zone", "xml"):
                    words = ("tools/fuzz", target, "--seconds", str(seconds), "--seed", "1")
                    self.assertEqual(guards.of_fuzz(target).words, words)
        script = "from checking import guards; print(guards.FUZZ_SECONDS)"
        for environment, seconds in (({}, b"60\n"), ({"FUZZ_SECONDS": "3600"}, b"3600\n")):
            with mock.patch.dict(os.environ, environment):
                if not environment:
                    os.environ.pop("FUZZ_SECONDS", None)
                self.assertEqual(run_program(sys.executable, "-c", script, folder=TOOLS)[1], seconds)

    def test_each_has_its_command_and_its_packages(self):
        for guard in guards.guards():
            with self.subTest(guard.name):
                packages.named(guard.packages)
                if guard.words[0].startswith("tools/"):
                    self.assertTrue((TREE / guard.words[0]).is_file())

    def test_names_stand_once(self):
        names = [guard.name for guard in guards.guards()]
        self.assertEqual(len(names), len(set(names)))

    def test_the_result_is_one_line(self):
        self.assertEqual(running.Result(GOOD, "", Count(3, 1), 61.6).line(), "good: 3 passed, 1 failed (62 s)")


if __name__ == "__main__":
    unittest.main()
