"""Tests of what tools write: nothing that is read, and each file whole or not at all."""
import os
import pathlib
import shutil
import stat
import subprocess
import tempfile
import unittest
from unittest import mock

from dnssec_check_tools import outputs
from tool import DATA, TOOLS

from .helper import JUDGE, NOON, Judging, capture_of, needs_dns

WWW = capture_of("bind-www-a")
LIMIT = 120  # seconds: a tool that isn't refused waits for a pipe that nobody writes


@needs_dns
class Judged(Judging):
    def setUp(self):
        """A folder with a capture, by three names, and a list of questions, and files for the options."""
        super().setUp()
        self.folder = self.room / "captures"
        self.folder.mkdir()
        self.capture, self.list = self.folder / "www.cap", self.folder / "questions"
        shutil.copy(WWW, self.capture)
        self.list.write_text("www www.bind.test. 1\n")
        self.link, self.hard = self.room / "link", self.room / "hard"
        self.link.symlink_to(self.capture)
        self.hard.hardlink_to(self.capture)
        self.other, self.pipe = self.room / "other", self.room / "pipe"
        self.other.write_text("www.bind.test/A\n")
        os.mkfifo(self.pipe)

    def refused(self, *words, **streams):
        """How the tool refuses, which reads its anchors from a pipe that nobody writes, so before anything is read."""
        words = [*JUDGE, "--at", NOON, "--anchors", self.pipe, *words]
        done = subprocess.run([str(word) for word in words], timeout=LIMIT, check=False, stderr=subprocess.PIPE, text=True,
                              **{"stdin": subprocess.DEVNULL, "stdout": subprocess.PIPE, **streams})
        self.assertEqual((done.returncode, done.stdout or ""), (2, ""))
        self.assertEqual((self.capture.read_bytes(), self.other.read_text()), (WWW.read_bytes(), "www.bind.test/A\n"))
        return done.stderr

    def test_a_page_is_no_capture(self):
        for page in (self.capture, self.link, self.hard, f"{self.folder}/../captures/www.cap"):
            for word in (self.capture, self.link, self.hard, self.folder):
                with self.subTest((page, word)):
                    self.assertIn(f"{page} is read, and would be written", self.refused("--html", page, word, "www.bind.test/A"))

    def test_a_page_is_no_other_input(self):
        rows = ("--keys", self.other), ("--questions", self.other), ("--keys", self.other, "--macs", self.other), \
            ("--program", self.other)
        for words in rows:
            with self.subTest(words):
                self.assertIn(f"{self.other} is read", self.refused("--html", self.other, self.capture, "a.test/A", *words))
        self.assertIn(f"{self.list} is read", self.refused("--html", self.list, self.folder))

    def test_the_standard_streams_are_files_too(self):
        with open(self.capture, "rb") as given:
            told = self.refused("--html", self.capture, "-", "www.bind.test/A", stdin=given)
        self.assertIn(f"{self.capture} is read", told)
        with open(self.capture, "ab") as output:
            told = self.refused(self.link, "www.bind.test/A", stdout=output)
            self.assertIn(f"the standard output is {self.link}, which is read", told)
            self.assertIn(f"the standard output is {self.capture}, ", self.refused("--records", self.capture, stdout=output))
        page = self.room / "page"
        with open(page, "wb") as output:
            told = self.refused("--html", page, self.capture, "www.bind.test/A", stdout=output)
        self.assertIn(f"--html and the standard output would both be {page}", told)


class Verified(unittest.TestCase):
    def test_statements_do_not_go_to_their_lines(self):
        with tempfile.TemporaryDirectory() as room:
            path = pathlib.Path(room) / "todo"
            shutil.copy(DATA / "todo", path)
            for words, name in (([path], path), ([], "the standard input")):
                with open(path, "rb") as given, open(path, "ab") as output:
                    done = subprocess.run([TOOLS / "verify", *words], stdin=given, stdout=output, stderr=subprocess.PIPE, check=False)
                self.assertEqual((done.returncode, path.read_bytes()), (2, (DATA / "todo").read_bytes()))
                self.assertIn(f"the standard output is {name}, which is read", done.stderr.decode())


class Whole(unittest.TestCase):
    def setUp(self):
        room = tempfile.TemporaryDirectory()
        self.addCleanup(room.cleanup)
        self.room = pathlib.Path(room.name)
        self.path = self.room / "file"
        self.path.write_bytes(b"old")

    def test_whoever_has_it_open_reads_the_old_one_to_its_end(self):
        with open(self.path, "rb") as file:
            outputs.write_whole(str(self.path), b"new")
            self.assertEqual((file.read(), self.path.read_bytes()), (b"old", b"new"))

    def test_what_fails_or_is_interrupted_leaves_the_old_one_alone(self):
        for fault, told in ((OSError(28, "no room"), OSError), (KeyboardInterrupt(), KeyboardInterrupt)):
            with mock.patch.object(os, "replace", side_effect=fault), self.assertRaises(told) as raised:
                outputs.write_whole(str(self.path), b"new")
            self.assertEqual([(path, path.read_bytes()) for path in self.room.iterdir()], [(self.path, b"old")])
            if told is OSError:
                self.assertEqual(str(raised.exception), f"[Errno 28] no room: '{self.path}'")

    def test_a_fault_has_the_name_that_was_given(self):
        path = str(self.room / "none" / "file")
        with self.assertRaises(FileNotFoundError) as raised:
            outputs.write_whole(path, b"new")
        self.assertEqual(raised.exception.filename, path)

    def test_it_is_as_if_written_in_place(self):
        """A link leads to what is written, the mode stays, and a new file has that of any new one."""
        link, new, usual = self.room / "link", self.room / "new", self.room / "usual"
        link.symlink_to("file")
        self.path.chmod(0o640)
        usual.touch()
        outputs.write_whole(str(link), b"by the link")
        outputs.write_whole(str(new), b"new")
        self.assertEqual((link.is_symlink(), self.path.read_bytes()), (True, b"by the link"))
        modes = [stat.S_IMODE(path.stat().st_mode) for path in (self.path, new)]
        self.assertEqual(modes, [0o640, stat.S_IMODE(usual.stat().st_mode)])

    def test_what_is_no_plain_file_stays(self):
        pipe = self.room / "pipe"
        os.mkfifo(pipe)
        with open(os.open(pipe, os.O_RDONLY | os.O_NONBLOCK), "rb") as reader:
            outputs.write_whole(str(pipe), b"new")
            self.assertEqual((reader.read(), stat.S_ISFIFO(pipe.stat().st_mode)), (b"new", True))
        with open(self.path, "wb") as file:
            outputs.write_whole(f"/dev/fd/{file.fileno()}", b"new")
            self.assertTrue(os.path.samestat(os.fstat(file.fileno()), self.path.stat()))

    def test_what_may_not_be_written_is_not(self):
        """Root may write every file, so the system's answer is that to another user."""
        self.path.chmod(0o444)
        is_readable = mock.patch.object(os, "access", lambda path, mode: not mode & os.W_OK)
        with is_readable, self.assertRaises(PermissionError):
            outputs.write_whole(str(self.path), b"new")
        self.assertEqual(self.path.read_bytes(), b"old")


if __name__ == "__main__":
    unittest.main()
