"""What the program has of its machine: which files it opens and reads, in which order it tells that one fails, its words,
and its two streams."""
import os
import re
import subprocess
import unittest

from tool import PROGRAM, run_program

from .desk import ADDRESS, ANCHOR, GOOD_HOST, GOOD_KEYS, HOST, KEYS, MOMENT, Desk, keyed, said

ANSWER = "SecureAnswer host.example. 1\nrrset 2 signature 1\n"
ASKED = ("--moment", MOMENT, "--name", "host.example.", "--type", 1)
# The files of `check` in the order in which they are opened, and in that in which they are read.
OPENED = ["capture", "anchors", "statements", "keys", "macs"]
READ = ["keys", "macs", "capture", "anchors", "statements"]


class Files(Desk):
    def setUp(self):
        super().setUp()
        octets = {"capture": KEYS + HOST, "anchors": ANCHOR, "statements": GOOD_KEYS + GOOD_HOST, "keys": b"", "macs": b""}
        for option, content in octets.items():
            (self.room / option).write_bytes(content)

    def path(self, name):
        return self.room / name

    def pipe(self):
        """A named pipe that nobody writes to: to open it takes as long as that."""
        path = self.path("pipe")
        os.mkfifo(path)
        return path

    def ended(self, *words):
        done = subprocess.run([PROGRAM, *map(str, words)], capture_output=True, timeout=300)
        return done.returncode, done.stdout.decode(), done.stderr.decode()

    def checked(self, files, name="host.example."):
        words = [word for option, path in files.items() for word in (f"--{option}", path)]
        return self.ended("check", "--moment", MOMENT, "--name", name, "--type", 1, *words)

    def test_beside_all_no_statements_are_opened(self):
        words = ("list", "--all", "--moment", MOMENT, "--capture", self.path("capture"))
        told = self.ended(*words, "--statements", self.pipe())
        self.assertEqual(told, self.ended(*words))
        self.assertEqual((told[0], told[1].count("\ndata "), told[2]), (0, 1, ""))

    def test_without_keys_no_macs_are_opened(self):
        files = {option: self.path(option) for option in ("capture", "anchors", "statements")}
        self.assertEqual(self.checked({**files, "macs": self.pipe()}), (0, ANSWER, ""))

    def test_of_files_that_do_not_open_the_first_is_told(self):
        """Whatever else is wrong, as the name here."""
        for number, first in enumerate(OPENED):
            files = {option: self.path(option if place < number else "none") for place, option in enumerate(OPENED)}
            self.assertEqual(self.checked(files, name="host"), (1, "", f"fault 811 {first}\n"))

    def test_of_reads_that_fail_the_first_is_told(self):
        """A folder opens, and can't be read. Where no keys are given, the MACs aren't read."""
        good = self.signed_files()
        self.assertEqual(self.checked(good), (0, ANSWER, ""))
        for number, first in enumerate(READ):
            files = {option: good[option] if place < number else self.room for place, option in enumerate(READ)}
            self.assertEqual(self.checked(files), (1, "", f"fault 210 {first}\n"))
        plain = {option: self.path(option) for option in ("capture", "anchors", "statements")}
        self.assertEqual(self.checked({**plain, "anchors": self.room, "macs": self.room}), (1, "", "fault 210 anchors\n"))

    def test_what_is_refused_comes_before_a_read_that_fails_behind_it(self):
        """For each file a text or a capture that is refused, where all that are read behind it can't be read."""
        good, bad = self.signed_files(), self.path("bad")
        bad.write_bytes(b"x")
        for number, (first, told) in enumerate(zip(READ, ("301 line 1", "801 line 1", "209", "601 line 1", "501 line 1"))):
            files = {option: good[option] if place < number else self.room for place, option in enumerate(READ)}
            self.assertEqual(self.checked({**files, first: bad}), (7, "", f"refused {told}\n"))
        self.assertEqual(self.checked(dict.fromkeys(READ, self.room), name="host"), (7, "", "refused 105\n"))

    def signed_files(self):
        self.path("signed").write_bytes(keyed(KEYS[2:], b"secret", "k.") + keyed(HOST[2:], b"secret", "k."))
        self.path("keys").write_bytes(b"k. c2VjcmV0\n")
        self.path("macs").write_bytes(b"-\n-\n")
        return {**{option: self.path(option) for option in OPENED}, "capture": self.path("signed")}


class Words(Desk):
    def given(self, *words):
        return run_program(PROGRAM, *words)

    def test_a_word_that_is_no_utf_8_is_refused(self):
        told = (2, b"", "error: a word of the command line is not UTF-8\n")
        (self.room / "capture").write_bytes(b"")
        word = os.fsdecode(b"caf\xe9")
        for words in ((word,), ("show", word), ("show", "--capture", word), ("show", "--capture", self.room / "capture", word),
                      ("--help", word)):
            self.assertEqual(self.given(*words), told)

    def test_a_path_is_taken_as_it_is(self):
        for name in ("capture ", " capture", "café"):
            (self.room / name).write_bytes(KEYS)
            status, output, errors = self.given("show", "--capture", self.room / name)
            self.assertEqual((status, output[:10], errors), (0, b"message 1 ", ""))
        self.assertEqual(self.given("show", "--capture", self.room / "caf"), (1, b"", "fault 811 capture\n"))
        self.assertEqual(self.given("show", "--capture", ""), (1, b"", "fault 811 capture\n"))

    def test_a_word_more_than_can_be_taken_is_refused(self):
        """The program's name, the subcommand, eight options with their values, and one that has none."""
        files = {"capture": KEYS + HOST, "anchors": ANCHOR, "statements": b"", "keys": b"", "macs": b""}
        status, output, errors = self.told("check", *ASKED, "--json", **files)
        self.assertEqual((status, output, errors), (7, "", "refused 802\n"))
        status, output, errors = self.told("check", *ASKED, "--json", "more", **files)
        self.assertEqual((status, output, "--help" in errors), (2, "", True))

    def test_each_help_tells_the_statuses_of_its_subcommand(self):
        statuses = {"show": {0, 1, 2, 7}, "list": {0, 1, 2, 7}, "check": set(range(8))}
        for subcommand, wanted in statuses.items():
            status, output, errors = self.given(subcommand, "--help")
            told = re.search(r"\nExit status: (.*?)\n\n", output.decode(), re.DOTALL)[1]
            self.assertEqual((status, errors, set(map(int, re.findall(r"\b\d+\b", told)))), (0, "", wanted))


class Streams(Desk):
    """An output and errors that take nothing, as of a full disk."""

    def ended(self, *words, **streams):
        with open("/dev/full", "wb") as full:
            given = {"stdout": subprocess.PIPE, "stderr": subprocess.PIPE, **dict.fromkeys(streams, full)}
            done = subprocess.run([PROGRAM, *map(str, words)], timeout=300, **given)
        return done.returncode, done.stdout, done.stderr

    def words(self):
        """A text of each subcommand, and help."""
        for option, octets in {"capture": KEYS + HOST, "anchors": ANCHOR, "statements": GOOD_KEYS + GOOD_HOST}.items():
            (self.room / option).write_bytes(octets)
        capture, moment = ("--capture", self.room / "capture"), ("--moment", MOMENT)
        trust = ("--anchors", self.room / "anchors", "--statements", self.room / "statements")
        yield "show", *capture
        yield "list", *capture, *moment
        yield "list", "--all", *capture, *moment
        yield "check", *capture, *trust, *ASKED
        yield "check", *capture, *trust[:2], *ASKED
        for subcommand in ((), ("show",), ("list",), ("check",)):
            yield *subcommand, "--help"

    def test_an_output_that_takes_nothing_is_a_fault(self):
        for words in self.words():
            self.assertEqual(self.ended(*words, stdout=True), (1, None, b"fault 812\n"))

    def test_errors_that_take_nothing_leave_the_status(self):
        for words in self.words():
            self.assertEqual(self.ended(*words, stderr=True)[0], self.ended(*words)[0])
        self.assertEqual(self.ended(*words, stdout=True, stderr=True), (1, None, None))
        self.assertEqual(self.ended("show", stderr=True), (2, b"", None))
        self.assertEqual(self.ended("show", "--capture", self.room / "none", stderr=True), (1, b"", None))
        (self.room / "capture").write_bytes(b"x")
        self.assertEqual(self.ended("show", "--capture", self.room / "capture", stderr=True), (7, b"", None))

    def test_each_end_has_its_status(self):
        """What is told where something is proved or not, and where no anchor is above the name."""
        bad = said("bad", "host.example.", "A", ADDRESS)
        ends = {0: {}, 4: {"statements": GOOD_KEYS}, 5: {"statements": GOOD_KEYS + bad}, 6: {"anchors": b""}}
        for wanted, files in ends.items():
            status, output, errors = self.verdict(**files)
            self.assertEqual((status, output.split(" ")[0], errors),
                             (wanted, {0: "SecureAnswer", 4: "Pending", 5: "Bogus", 6: "Indeterminate"}[wanted], ""))


if __name__ == "__main__":
    unittest.main()
