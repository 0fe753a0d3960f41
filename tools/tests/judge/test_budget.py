"""Tests of what judge verifies of a capture: within a budget, which a note tells whatever the verdict, and once."""
import json
import os
import tempfile
import unittest
from unittest import mock

from dnssec_check_tools import listed
from dnssec_check_tools.judging import answers, processes, spread, work
from dnssec_check_tools.program import Program, Unlisted
from dnssec_check_tools.verifying import compact, verifier

from .helper import Judging, capture_of, needs_dns, verdicts

WWW, NOSUCH = map(capture_of, ("bind-www-a", "bind-nosuch"))
SECONDS = "signatures aren't verified: the 0 seconds of the budget are over; --budget SECONDS gives more\n"
OCTETS = "more is listed to be verified than the {0:,} octets of the budget: the program was ended behind {1:,} of them, and " \
    "none of it is verified; --budget-octets OCTETS gives more\n"


@needs_dns
class Notes(Judging):
    def test_they_are_told_whatever_the_verdict(self):
        if self.room in self.program.parents:
            self.skipTest("the double knows no answers")
        for option, told in (("--budget", SECONDS), ("--budget-octets", OCTETS.format(0, 0))):
            for question, word in (("www.bind.test/A", "Pending"), ("other.bind.test/A", "Bogus")):
                with self.subTest(option, question=question):
                    _, lines, errors = self.noon(option, "0", WWW, question)
                    self.assertIn(f": {word}", verdicts(lines)[0])
                    self.assertTrue(errors.startswith(f"judge: {WWW}: ") and errors.endswith(told), errors)
                    self.assertEqual(errors.count("\n"), 1)

    def test_how_much_is_left_is_told_with_answers_and_without(self):
        if self.room in self.program.parents:
            self.skipTest("the double knows no answers")
        for option in ("--budget", "--budget-octets"):
            _, lines, _ = self.noon(option, "0", "--jsonl", WWW, "www.bind.test/A")
            row, = map(json.loads, lines)
            self.assertEqual((row["verdict"], row["evidence"]), ("Pending", {"todo": 8}))

    def test_enough_of_both_has_no_note(self):
        told = self.noon("--budget", "600", "--budget-octets", "1000000", WWW, "www.bind.test/A")
        self.assertEqual(told, (0, ["www.bind.test. A: SecureAnswer, until 2027-03-01 (98 days)"], ""))


class Room(unittest.TestCase):
    """A folder with a capture, and a program that lists what is wanted of it."""

    def setUp(self):
        room = tempfile.TemporaryDirectory()
        self.addCleanup(room.cleanup)
        self.room = room.name
        self.lay("capture", "x")

    def lay(self, name, text):
        path = os.path.join(self.room, name)
        with open(path, "w", encoding="ascii") as file:
            file.write(text)
        os.chmod(path, 0o755)
        return path

    def opened(self, name):
        return open(os.path.join(self.room, name), "rb")

    def program(self, text):
        return Program(self.lay("program", f"#!/bin/sh\n{text}\n"))


class Reads(Room):
    LINES = [f"todo 13 {number:02x} 02 03" for number in range(3)]

    def listed(self, text, most):
        with self.opened("capture") as capture:
            found = self.program(text).listed(capture.fileno(), 0, most)
            return list(found.lines()), found.octets, found.is_cut, found.status

    def test_lines_up_to_so_many_octets(self):
        text, size = "printf '" + "\\n".join(self.LINES) + "\\n'", len(self.LINES[0]) + 1
        for most, count in ((3 * size, 3), (3 * size - 1, 2), (2 * size, 2), (size - 1, 0), (0, 0)):
            with self.subTest(most):
                is_cut = count < 3
                self.assertEqual(self.listed(text, most), (self.LINES[:count], count * size, is_cut, None if is_cut else 0))

    def test_a_program_that_never_ends_is_ended(self):
        lines, octets, is_cut, status = self.listed("exec yes 'todo 13 01 02 03'", 170)
        self.assertEqual((lines, octets, is_cut, status), (["todo 13 01 02 03"] * 10, 170, True, None))

    def test_how_it_ends_is_kept(self):
        with self.opened("capture") as capture:
            found = self.program("echo 'fault 90' >&2; printf 'todo 13'; exit 1").listed(capture.fileno(), 0, 100)
            self.assertEqual((list(found.lines()), found.status, found.errors, found.is_cut), ([], 1, "fault 90\n", False))

    def test_a_large_capture_lists_within_the_memory_for_what_is_read(self):
        self.lay("capture", "x" * (listed.LISTS_LITTLE + 1))
        self.assertEqual(self.listed("ulimit -v; exit 0", 48)[0], [str((48 + listed.MEMORY_BESIDES) // 1024)])
        self.assertEqual(self.listed("echo 'fault 90' >&2; exit 1", 48), ([], 0, False, 1))
        with mock.patch.object(listed, "peak_of", lambda process: process.wait() + 48):
            for number, most, told in ((90, 48, (True, None)), (91, 48, (False, 1)), (90, 49, (False, 1))):
                self.assertEqual(self.listed(f"echo 'fault {number}' >&2; exit 1", most), ([], 0, *told))
        self.lay("capture", "x" * listed.LISTS_LITTLE)
        self.assertEqual(self.listed("echo 'fault 90' >&2; exit 1", 48), ([], 0, False, 1))


class Once(Room):
    FRONT = "00010d000000000a" + "00" * 11
    LIST = f"echo key 1 13 02; echo rrset 1 00 1 -; echo signature 1 1 {FRONT} 03"
    TODO = "echo todo 1 1 1 1"

    def write(self, text, moments, kept):
        budget, program = verifier.Budget(9, 200), self.program(text)
        with self.opened("capture") as capture:
            verified = answers.answers_on(b"x", capture.fileno(), moments, budget, program, kept=kept)
        by_moment = {moment: each.octets.decode("ascii").splitlines() for moment, each in verified.by_moment.items()}
        digest = "2d711642b726b04401627ca9fbac32f5c8530fb1903cc4db02258717921a4881"  # of x
        self.assertEqual([heading for heading, *_ in by_moment.values()], [f"of {digest} {moment}" for moment in by_moment])
        return {moment: lines for moment, (_, *lines) in by_moment.items()}, verified.notes

    def test_entries_of_several_moments_and_captures_are_verified_once(self):
        verified, kept = [], verifier.Kept()
        program = f"{self.LIST}; echo signature 1 2 {self.FRONT} ${{3#--moment=}}; {self.TODO}; echo todo 2 1 1 2"
        with mock.patch.object(compact, "is_good_here", lambda *parts: not verified.append(parts[3].hex())):
            told = [self.write(program, moments, kept) for moments in ([10, 20, 20], [20, 30])]
        self.assertEqual(verified, ["03", "10", "20", "30"])
        self.assertEqual(told, [({10: ["good"] * 2, 20: ["good"] * 2}, []), ({20: ["good"] * 2, 30: ["good"] * 2}, [])])

    def test_a_process_verifies_once_for_all_captures_that_it_judges(self):
        path, program = self.lay("verified", ""), self.program(f"{self.LIST}; {self.TODO}")

        def is_good_here(*parts):
            with open(path, "a", encoding="ascii") as file:
                file.write(parts[3].hex())
            return True

        tasks = [spread.Task(number, "-", b"x", None, []) for number in range(3)]
        with mock.patch.object(compact, "is_good_here", is_good_here):
            told = list(processes.in_processes(tasks, work.Common({5: b""}, None, None, [5]), program, 1, 3))
        self.assertEqual(told, [(number, work.Judged([], [])) for number in range(3)])
        with open(path, encoding="ascii") as file:
            self.assertEqual(file.read(), "03")

    def test_a_list_that_fails_is_a_fault_but_for_want_of_the_memory_that_it_gets(self):
        self.lay("capture", "x" * (listed.LISTS_LITTLE + 1))
        with mock.patch.object(listed, "peak_of", lambda process: process.wait() + 200):
            told = self.write("echo 'fault 90' >&2; exit 1", [1, 2], verifier.Kept())
        self.assertEqual(told, ({}, [OCTETS.format(200, 0).rstrip("\n")]))
        self.assertEqual(self.write("echo 'refused 100' >&2; exit 7", [1, 2], verifier.Kept()), ({}, []))
        rows = ("echo 'fault 91' >&2; exit 1", "91"), ("echo 'fault 90' >&2; exit 1", "90"), \
            ("kill -KILL $$", "- dnssec_check list was ended by SIGKILL"), ("exec false", "- dnssec_check list ended with status 1"), \
            ("echo todo 1 1 1 1", "- dnssec_check list: line 1: there is no key 1"), ("echo key 1 1 00", "- dnssec_check list: line 1: "
             "algorithm 1 is none of 5, 7, 8, 10, 13, 14, 15, 16")
        for text, said in rows:
            with self.subTest(text), self.assertRaises(Unlisted) as raised:
                self.write(text, [1, 2], verifier.Kept())
            self.assertEqual(raised.exception.said, said)

    def test_what_is_behind_the_octets_has_a_note_and_no_answers(self):
        """Neither at that moment nor at those behind it."""
        endless = "while true; do echo key $((number += 1)) 13 02; done"
        for moments in ([1], [1, 2]):
            told = self.write(f"[ $3 = --moment=3 ] || {endless}; {self.LIST}; {self.TODO}", [3, *moments], verifier.Kept())
            self.assertEqual(told, ({3: ["bad"]}, [OCTETS.format(200, 199).rstrip("\n")]))


if __name__ == "__main__":
    unittest.main()
