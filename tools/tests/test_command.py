"""How a tool ends where it is interrupted or its files, its input or its output fail: with one line and a status."""
import os
import pathlib
import signal
import subprocess
import sys
import tempfile
import time
import unittest
from unittest import mock

from tool import DATA, TOOLS, run_program
from dnssec_check_tools.command import VERSION

VERIFY = TOOLS / "verify"


def interruptible():
    """As a shell starts a command in the foreground; one in the background has this signal ignored."""
    signal.signal(signal.SIGINT, signal.SIG_DFL)


def writer_of(path, process):
    """The pipe of this name, opened once the process reads it."""
    while process.poll() is None:
        try:
            return open(os.open(path, os.O_WRONLY | os.O_NONBLOCK), "wb")
        except OSError:
            time.sleep(0.01)
    raise AssertionError(process.communicate())


def interrupted(*words):
    """How a tool ends that is interrupted while it reads its last file; the words are without that file."""
    with tempfile.TemporaryDirectory() as room:
        path = os.path.join(room, "given")
        os.mkfifo(path)
        process = subprocess.Popen([*map(str, words), path], stdout=subprocess.PIPE, stderr=subprocess.PIPE,
                                   preexec_fn=interruptible)
        with writer_of(path, process):
            output, errors = interrupt(process)
    return process.returncode, output, errors.decode()


def interrupt(process):
    """What it printed until it ended. A signal right before it reads is seen only once the next one ends the read."""
    for _ in range(12):
        process.send_signal(signal.SIGINT)
        try:
            return process.communicate(timeout=20)
        except subprocess.TimeoutExpired:
            pass
    raise AssertionError("it doesn't end")


def with_closed_pipe(stream, *words):
    """How a tool ends that has a pipe which nobody reads as its standard output or error, and the other stream."""
    reader, writer = os.pipe()
    os.close(reader)
    streams = {"stdout": subprocess.PIPE, "stderr": subprocess.PIPE, stream: writer}
    done = subprocess.run([*map(str, words)], stdin=subprocess.DEVNULL, check=False, **streams)
    os.close(writer)
    return done.returncode, (done.stdout or done.stderr or b"").decode()


def without(stream, *words):
    """How a tool ends whose standard input or output (`<` or `>`) isn't open."""
    return run_program("/bin/sh", "-c", f'exec "$@" {stream}&-', "sh", *words)


class Ends(unittest.TestCase):
    def setUp(self):
        """Output is written at the end, as it is where nobody asks otherwise; argparse passes over a failed write."""
        patched = mock.patch.dict(os.environ)
        patched.start()
        self.addCleanup(patched.stop)
        os.environ.pop("PYTHONUNBUFFERED", None)

    def has_one_line(self, errors, name="verify"):
        self.assertEqual(errors.count("\n"), 1, errors)
        self.assertTrue(errors.startswith(f"{name}: "), errors)

    def test_an_interrupt(self):
        self.assertEqual(interrupted(VERIFY), (130, b"", "verify: interrupted\n"))
        self.assertEqual(interrupted(VERIFY, DATA / "todo"), (130, b"", "verify: interrupted\n"))

    def test_an_output_that_nobody_reads(self):
        for words in ([DATA / "todo"], ["--help"]):
            with self.subTest(words):
                status, errors = with_closed_pipe("stdout", VERIFY, *words)
                self.assertEqual(status, 1)
                self.has_one_line(errors)

    def test_a_standard_error_that_nobody_reads(self):
        self.assertEqual(with_closed_pipe("stderr", VERIFY, DATA / "no-such-file"), (1, ""))
        self.assertEqual(with_closed_pipe("stderr", VERIFY, DATA / "todo"), (0, (DATA / "statements").read_text()))

    def test_an_input_or_output_that_is_not_open(self):
        for stream, words in (("<", []), (">", [DATA / "todo"])):
            with self.subTest(stream):
                status, output, errors = without(stream, VERIFY, *words)
                self.assertEqual((status, output), (1, b""))
                self.has_one_line(errors)

    def test_a_write_of_help_that_fails(self):
        with open("/dev/full", "wb") as full:
            status, _, errors = run_program(VERIFY, "--help", output=full)
        self.assertEqual(status, 1)
        self.has_one_line(errors)

    def test_each_tool_tells_its_name_and_the_one_version(self):
        for name in ("capture", "verify"):
            with self.subTest(name):
                wanted = f"{name} {VERSION}\n".encode()
                self.assertEqual(run_program(TOOLS / name, "--version"), (0, wanted, ""))
        self.assertEqual(run_program(TOOLS / "capture", "--version", "no-such-file")[0], 0)

    def test_a_package_that_python_lacks_is_told_with_how_to_get_it(self):
        """Without site-packages, which `-S` leaves out, and behind them nothing goes on by another Python."""
        words = (DATA / "signed.client", "www.example.com/A", "--anchors", DATA / "todo")
        status, output, errors = run_program(sys.executable, "-S", TOOLS / "judge", *words)
        self.assertEqual((status, output), (1, b""))
        self.has_one_line(errors, "judge")
        for text in ("the Python package dnspython", sys.executable, "install"):
            self.assertIn(text, errors)

    def test_a_file_that_is_not_there_or_is_a_folder(self):
        for path in (DATA / "no-such-file", DATA, pathlib.Path("no-such-file")):
            with self.subTest(path):
                status, output, errors = run_program(VERIFY, path)
                self.assertEqual((status, output), (1, b""))
                self.has_one_line(errors)
                self.assertIn(path.name, errors)

    def test_a_page_that_is_not_there(self):
        status, output, errors = run_program(TOOLS / "pages", DATA / "no-such-page")
        self.assertEqual((status, output), (1, b""))
        self.has_one_line(errors, "pages")


if __name__ == "__main__":
    unittest.main()
