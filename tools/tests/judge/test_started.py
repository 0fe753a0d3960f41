"""Tests of how programs are begun: what they have open, how they end, and what is left of them."""
import os
import signal
import sys
import unittest

from dnssec_check_tools.asking.faults import Failure
from dnssec_check_tools.program import Program
from dnssec_check_tools.started import Process, content_of, nameless, pipe, write_all
from tool import TOOLS, run_program


def shell(script):
    return ["/bin/sh", "-c", script]


def ran(script, kept=()):
    """The status, the output and the errors."""
    with nameless() as output, nameless() as errors:
        with Process(shell(script), output.fileno(), errors.fileno(), kept) as process:
            status = process.wait()
        return status, content_of(output).decode(), content_of(errors).decode()


class Started(unittest.TestCase):
    def test_what_it_writes_and_its_status_are_kept(self):
        self.assertEqual(ran("echo one; echo two >&2; exit 7"), (7, "one\n", "two\n"))
        self.assertEqual(ran("kill -TERM $$")[0], -signal.SIGTERM)

    def test_it_has_nothing_to_read_and_nothing_open_but_what_is_kept(self):
        self.assertEqual(ran("cat"), (0, "", ""))
        with nameless(b"octets") as kept:
            for _ in range(2):  # it's read from its beginning, however often
                self.assertEqual(ran(f"cat /proc/self/fd/{kept.fileno()}", [kept.fileno()])[1], "octets")
            self.assertEqual(ran(f"cat /proc/self/fd/{kept.fileno()}")[1], "")

    def test_signals_do_what_a_program_expects(self):
        """Python ignores SIGPIPE; a program that writes to nobody is ended."""
        self.assertEqual(signal.getsignal(signal.SIGPIPE), signal.SIG_IGN)
        with nameless() as errors, pipe() as (output, back):
            with Process(shell("sleep 0.3; exec yes"), back.fileno(), errors.fileno()) as process:
                back.close()
                output.close()
                self.assertEqual(process.wait(), -signal.SIGPIPE)

    def test_the_end_of_the_block_ends_it(self):
        with nameless() as output, self.assertRaises(KeyError):
            with Process(shell("exec sleep 600"), output.fileno(), output.fileno()) as process:
                raise KeyError
        self.assertEqual(process.status, -signal.SIGKILL)
        with self.assertRaises(ProcessLookupError):
            os.kill(process.pid, 0)

    def test_a_program_that_cannot_be_run_is_a_failure(self):
        for path in ("/nowhere/program", "/etc/passwd"):
            with self.assertRaisesRegex(Failure, f"^{path}: "):
                Program(path).run([], {})

    def test_a_process_with_its_standard_files_closed(self):
        """What it opens has other numbers then, which stand for what they name in a program that it begins."""
        script = ("import os, sys; sys.path.insert(0, {0!r}); from dnssec_check_tools.started import *; output = nameless()\n"
                  "with nameless() as errors, nameless(b'kept') as kept, pipe() as (reading, back):\n"
                  "    words = ['/bin/sh', '-c', 'echo told >&2; cat /proc/self/fd/%d' % kept.fileno()]\n"
                  "    with Process(words, back.fileno(), errors.fileno(), [kept.fileno()]) as process:\n"
                  "        back.close(); text = reading.read() + content_of(errors); process.wait()\n"
                  "open({1!r}, 'wb').write(text)\n")
        with nameless() as written:
            path = f"/proc/{os.getpid()}/fd/{written.fileno()}"
            words = shell(f'exec {sys.executable} -c "$0" <&- >&- 2>&-') + [script.format(str(TOOLS), path)]
            run_program(*words)
            self.assertEqual(content_of(written), b"kepttold\n")

    def test_all_octets_are_written_whatever_the_system_takes_at_a_time(self):
        class Slow:
            taken = b""

            def write(self, octets):
                self.taken += bytes(octets[:3])
                return min(3, len(octets))

        slow = Slow()
        write_all(slow, b"0123456789")
        self.assertEqual(slow.taken, b"0123456789")


if __name__ == "__main__":
    unittest.main()
