"""The programs that must not compile: what the tool takes for a refusal, with a compiler that is made up."""
import pathlib
import tempfile
import unittest
from unittest import mock

import tool

REFUSED = """so far: 0 of 3 functions checked
src/message.rt:45:10: error[borrow-e0502]: cannot borrow `bump` as mutable because it is also borrowed as immutable
src/message.rt:50:10: error[borrow-e0515]: cannot return value referencing local variable `bump`
"""
COMPILES = "statements std: modules loaded=0 checked=0\nonly=0 proved=0\n"
EDIT = "error: borrow-e0502\nfile: src/lib.rt\nold: one\nnew: two\n"


def tried(answers, *words):
    """What the tool says of a crate with one edit, where the compiler answers so for the crate and for the edit."""
    loaded = tool.load("does-not-compile")
    with tempfile.TemporaryDirectory() as room:
        folder = pathlib.Path(room) / "crates" / "low"
        (folder / "does-not-compile").mkdir(parents=True)
        (folder / "src").mkdir()
        (folder / "src" / "lib.rt").write_text("one\n")
        (folder / "does-not-compile" / "after_the_reset.edit").write_text(EDIT)
        (pathlib.Path(room) / "crates.txt").write_text("low: thiserror\n")
        said = dict(zip(("one\n", "two\n"), answers))
        compiled = mock.Mock(side_effect=lambda folder, crate: said[(folder / "src" / "lib.rt").read_text()])
        with mock.patch.multiple(loaded, TREE=pathlib.Path(room), compiled=compiled):
            return tool.run("does-not-compile", *words)


class DoesNotCompile(unittest.TestCase):
    def test_the_first_error_counts(self):
        status, output, _ = tried([COMPILES, REFUSED])
        self.assertEqual(status, 0)
        self.assertTrue(output.endswith(b"2 passed, 0 failed\n"), output)

    def test_another_error_is_no_refusal(self):
        status, output, _ = tried([COMPILES, REFUSED.replace("e0502", "e0597")])
        self.assertEqual(status, 1)
        self.assertTrue(output.endswith(b"1 passed, 1 failed\n"), output)

    def test_a_program_that_compiles_is_no_refusal(self):
        self.assertEqual(tried([COMPILES, COMPILES])[0], 1)

    def test_a_crate_that_does_not_compile_shows_nothing(self):
        self.assertEqual(tried([REFUSED, REFUSED])[0], 1)

    def test_a_compiler_that_ends_early_is_no_verdict(self):
        for answers in (["", REFUSED], [COMPILES, "killed\n"]):
            status, output, _ = tried(answers)
            self.assertEqual(status, 1)
            self.assertIn(b"no verdict: ", output)

    def test_a_crate_that_is_not_there(self):
        status, output, errors = tried([], "high")
        self.assertEqual((status, output), (2, b""))
        self.assertIn("there is no crate high", errors)

    def test_the_words_name_each_library_below(self):
        words = tool.load("does-not-compile").words_for("dnsv_message")
        self.assertIn("dnsv_names:core,std,arrayvec,base64,byteorder,memchr,thiserror="
                      f"{tool.TOOLS.parent}/crates/dnsv_names/src/lib.rt", words)
        self.assertEqual(words[-2:], ["--only", ""])


if __name__ == "__main__":
    unittest.main()
