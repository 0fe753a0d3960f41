"""Tests of how tools/judge ends by a signal with eight captures at work: no process and no file is left."""
import contextlib
import os
import pathlib
import shutil
import signal
import subprocess
import time
import unittest
from unittest import mock

from test_command import interruptible

from .helper import ANCHORS, JUDGE, NOON, Judging, capture_of, examples, needs_dns

WWW = capture_of("bind-www-a")
AT_ONCE = 8
LIMIT = 120  # seconds, for whatever takes a moment where nothing else is done
TO_END = 30  # seconds, for what takes two
# Tells its process and that of whoever runs it, and waits; that is a process of its own.
WAITS = """echo $PPID > at_work/$$.new
mv at_work/$$.new at_work/$$
while [ ! -e go ] && [ -e at_work/$$ ]; do sleep 0.1; done"""


def is_there(process):
    """Whether it runs; one that has ended, and that nobody has asked for, doesn't."""
    try:
        text = pathlib.Path(f"/proc/{process}/stat").read_text()
    except OSError:
        return False
    return text.rpartition(")")[2].split()[0] not in "ZX"


def wait_for(condition, seconds=LIMIT):
    """What the condition gives, once it's true."""
    last = time.monotonic() + seconds
    while time.monotonic() < last:
        found = condition()
        if found:
            return found
        time.sleep(0.02)
    raise AssertionError("it never comes")


@needs_dns
class Ends(Judging):
    def setUp(self):
        super().setUp()
        for name in ("captures", "temporary", "at_work"):
            (self.room / name).mkdir()
        for number in range(AT_ONCE):
            shutil.copy(WWW, self.room / "captures" / f"{number}.cap")
        script = WAITS.replace("at_work", f"{self.room}/at_work").replace("go ", f"{self.room}/go ")
        self.program = self.stand_in(f'[ "$1" = list ] && {{ {script}\n}}')

    def start(self):
        """The tool, once it has eight programs at work."""
        words = [*JUDGE, "--program", self.program, "--at", NOON, "--anchors", ANCHORS, "--jobs", AT_ONCE,
                 self.room / "captures", "www.bind.test/A"]
        judge = subprocess.Popen([str(word) for word in words], stdout=subprocess.PIPE, stderr=subprocess.PIPE, text=True,
                                 preexec_fn=interruptible, env={**os.environ, "TMPDIR": str(self.room / "temporary")})
        self.addCleanup(judge.communicate)
        self.addCleanup(self.kill_what_is_left)  # which has its output open
        self.addCleanup(judge.kill)
        self.addCleanup((self.room / "go").touch)
        wait_for(lambda: len(self.at_work()) == AT_ONCE)
        return judge

    def at_work(self):
        """The programs that were begun, each with the process that did it."""
        files = [path for path in (self.room / "at_work").iterdir() if path.suffix != ".new"]
        return {int(path.name): int(path.read_text()) for path in files}

    def kill_what_is_left(self):
        for process in [process for pair in self.at_work().items() for process in pair if is_there(process)]:
            with contextlib.suppress(ProcessLookupError):
                os.kill(process, signal.SIGKILL)

    def nothing_is_left(self):
        processes = [process for pair in self.at_work().items() for process in pair]
        wait_for(lambda: not any(map(is_there, processes)), TO_END)
        self.assertEqual(list((self.room / "temporary").iterdir()), [])

    def ended(self, judge):
        """The status, the output and the errors of the tool, which is to end by itself."""
        try:
            output, errors = judge.communicate(timeout=TO_END)
        except subprocess.TimeoutExpired:
            self.fail(f"it hasn't ended within {TO_END} seconds")
        return judge.returncode, output, errors

    def test_signals_end_all(self):
        for number, told in ((signal.SIGINT, "interrupted"), (signal.SIGTERM, "terminated"), (signal.SIGHUP, "hung up")):
            with self.subTest(number):
                judge = self.start()
                judge.send_signal(number)
                self.assertEqual(self.ended(judge), (128 + number, "", f"judge: {told}\n"))
                self.nothing_is_left()
                shutil.rmtree(self.room / "at_work")
                (self.room / "at_work").mkdir()

    def test_processes_that_do_not_heed_are_ended_too(self):
        judge = self.start()
        for worker in self.at_work().values():
            os.kill(worker, signal.SIGSTOP)
        judge.send_signal(signal.SIGTERM)
        self.assertEqual(self.ended(judge), (128 + signal.SIGTERM, "", "judge: terminated\n"))
        self.nothing_is_left()

    def test_one_that_is_killed_leaves_nothing_and_the_others_go_on(self):
        judge = self.start()
        program, worker = sorted(self.at_work().items())[0]
        os.kill(worker, signal.SIGKILL)
        wait_for(lambda: len(self.at_work()) == AT_ONCE + 1)
        wait_for(lambda: not is_there(program), TO_END)
        (self.room / "go").touch()
        output, errors = judge.communicate(timeout=LIMIT)
        self.assertEqual((judge.returncode, output.count(": SecureAnswer"), errors), (0, AT_ONCE, ""))
        self.nothing_is_left()

    def test_processes_end_with_the_tool_once_their_capture_is_done(self):
        judge = self.start()
        judge.kill()
        judge.wait()
        (self.room / "go").touch()
        wait_for(lambda: not any(map(is_there, self.at_work().values())), TO_END)
        self.assertEqual(list((self.room / "temporary").iterdir()), [])


# Looks for the secret in all that the process of the tool, and that which runs the program, have open, and below the
# folder for what is there for a time; and says what the file of the keys is.
LOOKS = """grep -rqsF SECRET "$TMPDIR" && touch ROOM/found
for word; do
  case $word in --keys=*) readlink "${word#--keys=}" >> ROOM/keys;; esac
done
for file in /proc/$PPID/fd/*; do
  case $(readlink "$file") in
    /memfd:* | pipe:* | socket:* | /dev/null | *.keys | */keys) ;;
    /*) grep -qsF SECRET "$file" && touch ROOM/found;;
  esac
done"""


@needs_dns
class Keys(Judging):
    def test_keys_are_in_no_file_that_could_be_left(self):
        """Looked for while the program runs, by which they are read nonetheless."""
        example, = (each for each in examples("check") if each.name == "tsig-named-nosuch/check")
        files = {name: example.options[name] for name in ("anchors", "keys", "macs")}
        temporary, secret = self.room / "temporary", files["keys"].read_text().split()[-1]
        temporary.mkdir()
        self.program = self.stand_in(LOOKS.replace("SECRET", secret).replace("ROOM", str(self.room)))
        with mock.patch.dict(os.environ, TMPDIR=str(temporary)):
            words = [word for name, path in files.items() for word in (f"--{name}", path)]
            status, lines, _ = self.judge("--at", NOON, *words, example.options["capture"], "nosuch.bind.test/A")
        self.assertEqual((status, len(lines)), (0, 1))
        self.assertFalse((self.room / "found").exists())
        links = (self.room / "keys").read_text().splitlines()
        self.assertTrue(links and all(link.startswith("/memfd:") for link in links), links)


if __name__ == "__main__":
    unittest.main()
