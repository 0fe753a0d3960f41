"""Tests of what is read of captures: no more than one may have, in a folder files alone, and by whoever judges it."""
import os
import pathlib
import socket
import tempfile
import unittest
from unittest import mock

from tool import run

from dnssec_check_tools.asking import captures
from dnssec_check_tools.judging import processes, records, spread, tasks, work

from .helper import Judging, capture_of, needs_dns, verdicts

LARGEST = b"\xff\xff" + bytes(65535)
SMALL = b"\x00\x01x"


class Room(unittest.TestCase):
    def setUp(self):
        room = tempfile.TemporaryDirectory()
        self.addCleanup(room.cleanup)
        self.room = pathlib.Path(room.name)

    def lay(self, name, octets=b""):
        path = self.room / name
        path.write_bytes(octets)
        return str(path)


class Octets(Room):
    def test_what_a_capture_may_have_is_read_and_one_message_more(self):
        """A stream that ends within a message, or has one without octets, is refused as it is, and so stays as it is."""
        rows = (b"", b""), (SMALL, SMALL), (SMALL * 70, SMALL * 70), (LARGEST * 64, LARGEST * 64), (LARGEST * 65, LARGEST * 65), \
            (LARGEST * 64 + b"\xff", LARGEST * 64 + b"\xff"), (LARGEST * 70, LARGEST * 65), (SMALL * 1_500_000, SMALL * 65), \
            (LARGEST * 60 + SMALL * 200_000, LARGEST * 60 + SMALL * 5), \
            (SMALL + bytes(5_000_000), (SMALL + bytes(5_000_000))[:65 * 65537])
        for number, (octets, read) in enumerate(rows):
            with self.subTest(number):
                self.assertEqual(captures.octets_of(self.lay("capture", octets)), read)

    @needs_dns
    def test_records_of_more_are_told_to_lack(self):
        told = "more than a capture may have; of what is behind 4,259,905 octets nothing is shown"
        path = self.lay("large.cap", LARGEST * 66)
        with mock.patch.object(records, "lines_of", lambda octets: [str(len(octets))]):
            self.assertEqual(run("judge", "--records", path), (0, b"4259905\n", f"judge: {path}: {told}\n"))


class Folders(Room):
    def test_what_is_no_file_is_passed_over_with_a_note(self):
        """Nothing of it is opened: a FIFO would wait for who writes."""
        files = [self.lay(name) for name in ("a.cap", "z.cap")]
        (self.room / "gone.cap").symlink_to(self.room / "nowhere")
        os.mkfifo(self.room / "fifo.cap")
        (self.room / "link.cap").symlink_to(self.room / "fifo.cap")
        (self.room / "null.cap").symlink_to(os.devnull)
        (self.room / "text").symlink_to(os.devnull)
        with socket.socket(socket.AF_UNIX) as bound, mock.patch.object(captures, "tell") as told:
            bound.bind(str(self.room / "socket.cap"))
            found = [each.path for each in captures.captures_of([str(self.room)])]
            self.assertEqual(captures.captures_of([str(self.room)]), [captures.Capture(path, []) for path in found])
        self.assertEqual(found, [files[0], str(self.room / "gone.cap"), files[1]])
        kinds = {"fifo": "a FIFO", "link": "a FIFO", "null": "a device", "socket": "a socket"}
        self.assertEqual(told.mock_calls, [mock.call(f"passed over {self.room}/{name}.cap: {kind}") for name, kind in kinds.items()])


class Tasks(Room):
    def tasks(self, path, page=None, is_read_here=False):
        return list(tasks.tasks_of([(path, ["asked"])], page, is_read_here))

    def test_a_file_is_read_by_whoever_judges_it(self):
        path = self.lay("a.cap", SMALL)
        self.assertEqual(self.tasks(path), [spread.Task(0, path, None, None, ["asked"])])
        with mock.patch.object(spread, "judged", lambda octets, *_: octets):
            common = work.Common({}, None, None, [])
            self.assertEqual(spread.judged_task(self.tasks(path)[0], common, None), SMALL)

    def test_it_is_read_here_where_others_need_its_octets(self):
        path, page = self.lay("a.cap", SMALL), mock.Mock()
        read = [spread.Task(0, path, SMALL, None, ["asked"])]
        self.assertEqual(self.tasks(path, is_read_here=True), read)
        self.assertEqual(self.tasks(path, page), read)
        page.read.assert_called_once_with(0, path, SMALL)

    def test_what_is_met_where_it_is_read_is_the_fault_of_its_capture(self):
        """Whoever reads it: the others are judged."""
        path, common = self.lay("a.cap", SMALL), work.Common({}, None, None, [5])
        rows = (MemoryError(), {"number": 90}), (KeyError("x"), {"said": "KeyError: 'x'"}), (RecursionError("deep"), {"said": "RecursionError: deep"}), \
            (captures.Unmade("no answer"), {"said": "no answer"}), (OSError("x"), {"number": 811, "file": "capture"})
        for fault, evidence in rows:
            with self.subTest(fault), mock.patch.object(tasks, "octets_of", side_effect=fault):
                task, = self.tasks(path, is_read_here=True)
                row, = spread.of_unread(task, task.fault, common).rows
                self.assertEqual(row.evidence, evidence)
            with self.subTest(fault), mock.patch.object(spread, "octets_of", side_effect=fault):
                row, = spread.answer(common, None, spread.Task(0, path, None, None, ["asked"])).rows
                self.assertEqual(row.evidence, evidence)

    def test_no_more_are_read_ahead_than_are_judged_at_once(self):
        """A task may have all octets of a capture."""
        ahead, given = [], 0

        def all_tasks():
            nonlocal given
            for number in range(20):
                given += 1
                yield spread.Task(number, "-", SMALL, None, [])

        with mock.patch.object(spread, "judged", lambda *_: work.Judged([], [])):
            common = work.Common({}, None, None, [])
            for done, _ in enumerate(processes.in_processes(all_tasks(), common, None, 2, 20)):
                ahead.append(given - done)
        self.assertEqual((len(ahead), max(ahead)), (20, 2))

    def test_a_file_that_is_gone_when_it_is_read(self):
        task, common = spread.Task(0, str(self.room / "gone"), None, None, ["asked"]), work.Common({}, None, None, [5])
        row = work.Row(5, "asked", 1, "fault", {"number": 811, "file": "capture"}, None)
        self.assertEqual(spread.judged_task(task, common, None), work.Judged([row], []))


@needs_dns
class Pipes(Judging):
    def test_one_that_is_named_is_read(self):
        read, written = os.pipe()
        os.set_inheritable(read, True)
        os.write(written, capture_of("bind-www-a").read_bytes())
        os.close(written)
        self.addCleanup(os.close, read)
        path = self.room / "pipe.cap"
        path.symlink_to(f"/proc/{os.getpid()}/fd/{read}")
        status, lines, errors = self.noon(path, "www.bind.test/A")
        self.assertEqual((status, len(verdicts(lines)), errors), (0, 1, ""))


if __name__ == "__main__":
    unittest.main()
