"""Tests of tools/verify by compact lists: what is no such list, and which words it takes."""
import unittest

from tool import TOOLS, run, run_program
from dnssec_check_tools.verifying import compact
from verify.lists import FRONT, LIST, OWNER, Room


class NoList(Room):
    """What isn't a compact list is refused by the line, and nothing is written."""

    def refused(self, lines, number, why):
        status, output, errors = self.verify(lines)
        self.assertEqual((status, output), (1, b""))
        self.assertEqual(errors.rstrip("\n"), f"verify: line {number} of -: {why}")

    def changed(self, number, line, why, told=None):
        with self.subTest(line):
            self.refused([*LIST[:number - 1], line, *LIST[number:]], told or number, why)

    def test_the_list_itself_is_one(self):
        self.assertEqual(self.verify(LIST)[0], 0)

    def test_lines_of_another_shape(self):
        shapes = "`key K ALG KEY`, `rrset R OWNER TYPE RDATA ..`, `signature R S FRONT SIGNATURE`, `todo N K R S`"
        for line in ("", "# note", "todo", "Todo 1 1 2 1", " key 1 13 02", "good 13 01 02 03", "keys 1 13 02", '{"command":"list"}'):
            self.changed(1, line, f"no line {'`todo N K R S`' if line == 'todo' else shapes}")
        rows = {
            1: ["key", "key 1 13", "key 1 13 02 ", "key 1  13 02", "key 01 13 02", "key 1 013 02", "key 1 13 0G", "key 1 13 0A",
                "key 1 13 02\r", "key 0 13 02", "key -1 13 02", "key 1 13 02 03", "key 1 999999 02", "key 1 13 02\xff"],
            3: ["rrset 2 00 1", f"rrset 2 {OWNER} 1 ", f"rrset 2 {OWNER} 1 01  02", f"rrset 2 {OWNER} 1 -01", f"rrset 2 {OWNER} 1 01 --",
                f"rrset 2 {OWNER} 1 0-1", f"rrset 2 {OWNER} 1 01 ", f"rrset 2 {OWNER} 1 0A", f"rrset 2 {OWNER} A 01", "rrset 2"],
            4: [f"signature 2 {FRONT} 0a", f"signature 2 1 {FRONT}", f"signature 2 1 {FRONT} 0a 0b", "signature 2 0 00 00"],
            8: ["todo 1 1 2", "todo 1 1 2 1 1", "todo 13 02 03 04", "todo 1 1 2 x", "todo 1 01 2 1"],
        }
        for number, lines in rows.items():
            for line in lines:
                self.changed(number, line, f"no line `{compact.SHAPES[line.split(' ')[0]]}`")

    def test_fields_that_are_none(self):
        pair = "a digit of hex without its pair"
        name = "a name isn't whole"
        rows = (
            (1, "key 1 13 020", pair), (3, f"rrset 2 {OWNER} 1 c000020", pair), (4, f"signature 2 1 {FRONT} 0a0", pair),
            (1, "key 1 12 02", "algorithm 12 is none of 5, 7, 8, 10, 13, 14, 15, 16"),
            (3, "rrset 2 - 1 00", name), (3, "rrset 2 0177 1 00", name), (3, "rrset 2 017700ff 1 00", name),
            (3, "rrset 2 c00c 1 00", name), (3, f"rrset 2 {'0161' * 127}016100 1 00", name), (3, "rrset 2 0061 1 00", name),
            (3, f"rrset 2 {OWNER} 65536 00", "a type that no record has"),
            (3, f"rrset 2 {OWNER} 1 {'00' * 65536}", "RDATA that no record has"),
            (4, "signature 2 1 - 0a", "too few octets before a signature"),
            (4, f"signature 2 1 {FRONT[:36]} 0a", "too few octets before a signature"),
            (4, f"signature 2 1 {FRONT.replace('0d02', '0d03')} 0a", "a signature that counts more labels than its owner has"),
        )
        for number, line, why in rows:
            self.changed(number, line, why)

    def test_numbers_out_of_order(self):
        behind = "signature {} behind RRset 2 and signature {}"
        rows = (
            (2, "key 3 15 -", "key 3 in place of 2"), (2, "key 1 15 -", "key 1 in place of 2"),
            (6, f"rrset 2 {OWNER} 1 00", "RRset 2 behind 2"), (6, f"rrset 1 {OWNER} 1 00", "RRset 1 behind 2"),
            (5, f"signature 2 1 {FRONT} -", behind.format("2 1", 1)), (4, f"signature 3 1 {FRONT} -", behind.format("3 1", 0)),
            (8, "todo 2 1 2 1", "entry 2 in place of 1"), (9, "todo 1 2 2 3", "entry 1 in place of 2"),
            (10, "todo 4 1 7 1", "entry 4 in place of 3"),
        )
        for number, line, why in rows:
            self.changed(number, line, why)

    def test_what_an_entry_names_is_there(self):
        rows = (8, "todo 1 3 2 1", "there is no key 3"), (8, "todo 1 1 3 1", "there is no signature 3 1"), \
            (8, "todo 1 1 2 2", "there is no signature 2 2")
        for number, line, why in rows:
            self.changed(number, line, why)
        self.refused(LIST[7:], 1, "there is no key 1")
        self.refused(LIST[3:], 1, "signature 2 1 behind RRset 0 and signature 0")

    def test_lines_in_another_order(self):
        why = "a line `{}` behind those that it has to come before"
        self.refused([*LIST, "key 3 13 02"], 11, why.format("key"))
        self.refused([*LIST[:3], LIST[1]], 4, why.format("key"))
        self.refused([*LIST, f"rrset 9 {OWNER} 1 00"], 11, why.format("rrset"))
        self.refused([*LIST, f"signature 7 2 {FRONT} 00"], 11, why.format("signature"))

    def test_a_list_that_is_not_compact(self):
        for given in (b"todo 13 01 02 03\n", b"data 1 1 00\n", b"\xff\n"):
            words = "--compact", "--capture", self.capture, "--moment", "7"
            status, output, errors = run("verify", *words, given=given)
            self.assertEqual((status, output, errors.count("\n")), (1, b"", 1))
            self.assertIn("line 1 of -: no line `", errors)


class Words(Room):
    def wrong(self, words, why):
        status, output, errors = run("verify", *words)
        self.assertEqual((status, output), (2, b""), words)
        self.assertIn(why, errors)

    def test_what_goes_together(self):
        capture, moment = ("--capture", self.capture), ("--moment", "7")
        together = "--compact, --capture and --moment go together"
        for words in (["--compact"], ["--compact", *capture], ["--compact", *moment], [*capture], [*moment], [*capture, *moment]):
            self.wrong(words, together)
        span = ("--from", "7", "--to", "8")
        for words in (span, ["--compact", *span], [*capture, *span]):
            self.wrong(words, together)
        for words in (span[:2], span[2:], [*span, *moment]):
            self.wrong(["--compact", *capture, *words], "--compact takes --moment, or both of --from and --to")
        whole = ["--compact", *capture, *moment]
        one = "--compact takes one FILE, and no --from-check"
        self.wrong([*whole, "--from-check"], one)
        self.wrong([*whole, self.capture, self.capture], one)
        self.wrong(["--compact", "--capture", "-", *moment], "can't both be the standard input")
        self.wrong(["--compact", "--capture", "-", *moment, "-"], "can't both be the standard input")

    def test_the_capture_may_be_the_standard_input(self):
        listed = self.capture.parent / "list"
        listed.write_text("")
        status, output, _ = run("verify", "--compact", "--capture", "-", "--moment", "7", listed, given=b"abc")
        self.assertEqual((status, output[:11]), (0, b"of ba7816bf"))

    def test_moments(self):
        for text in ("", "-1", "1.5", "now", "281474976710656", "\u0661"):
            self.wrong(["--compact", "--capture", self.capture, "--moment", text], "is no moment in seconds since 1970")
        words = "--compact", "--capture", self.capture, "--moment", "281474976710655"
        self.assertTrue(run("verify", *words)[1].endswith(b" 281474976710655\n"))
        words = "--compact", "--capture", self.capture, "--from", "0", "--to", "4294967295"
        self.assertTrue(run("verify", *words)[1].endswith(b" 0 4294967295\n"))

    def test_files_that_are_not_there(self):
        for words in (["--capture", self.capture.parent / "none"], ["--capture", self.capture, self.capture.parent / "none"]):
            status, output, errors = run("verify", "--compact", "--moment", "7", *words)
            self.assertEqual((status, output, errors.count("\n")), (1, b"", 1))
            self.assertIn("none", errors)

    def test_no_file_that_is_read_is_overwritten(self):
        self.capture.write_bytes(b"abc")
        with open(self.capture, "ab") as output:
            words = "--compact", "--capture", self.capture, "--moment", "7"
            status, errors = run_program(TOOLS / "verify", *words, output=output)[::2]
        self.assertEqual((status, self.capture.read_bytes()), (2, b"abc"))
        self.assertIn("which is read, and would be written", errors)


if __name__ == "__main__":
    unittest.main()
