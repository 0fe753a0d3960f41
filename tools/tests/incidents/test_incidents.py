"""Tests of tools/incidents: its lines by what programs say, and where root has what it needs, the incidents against the page."""
import os
import pathlib
import tempfile
import unittest
from unittest import mock

from breaking import others, processes, table
from breaking.incidents import INCIDENTS
from judge.helper import needs_dns
from tool import PROGRAM, TOOLS, load, run

BREAKS = TOOLS.parent / "docs" / "BREAKS.md"


@needs_dns
class Lines(unittest.TestCase):
    def test_what_changes_from_run_to_run_is_left_out(self):
        rows = (
            ("the DS names key 11181; the zone has 34815 and 42738 [EDE 9]", "the DS names key ..; the zone has .. and .. [EDE 9]"),
            ("expired on 2026-10-29 (30 days ago) [EDE 7]", "expired on .. (.. days ago) [EDE 7]"),
            ("begins at 2026-11-28T06:37:50Z (in 2 hours)", "begins at .. (in .. hours)"),
            ("RR (2026-10-29 04:01:37+00:00) is 30 days", "RR (..) is .. days"),
            ("no NSEC3 of a. by SHA-256 at 127.0.77.3", "no NSEC3 of a. by SHA-256 at 127.0.77.3"),
            ("message 4 answers a|b (keyid=4782)", r"message .. answers a\|b (keyid=..)"),
            ("key B8naff4eofsWja8cK8wCw/TZl/48AhMjZA9jeCJ2NI8c/KRehXmA9XCqnh6aFnV1ufK62PDsHBB2wRCVG3GuKA==", "key .."),
        )
        for text, left in rows:
            self.assertEqual(table.masked(text), left)

    def test_the_first_sentence_of_what_fails(self):
        self.assertEqual(table.sentence(["a. A: Bogus", "  FAIL a. A: bad [EDE 6]", "  FAIL b. A: bad"]), "a. A: bad [EDE 6]")
        self.assertEqual(table.sentence(["a. A: Insecure", "  WHY a.: none counts", "  WHY a. DS: that"]), "a. DS: that")
        self.assertEqual(table.sentence(["a. A: SecureAnswer, until"]), "a. A: SecureAnswer, until")
        self.assertEqual(table.sentence([]), "nothing")

    def test_ways_that_lead_to_one_sentence_are_not_told_apart(self):
        self.assertEqual(table.Row("x", {"p": "a", "q": "a"}, []).own(), "a")
        self.assertEqual(table.Row("x", {"p": "a", "q": "b", "r": "a"}, []).own(), "by p and r: a; by q: b")

    def test_which_line_others_say(self):
        self.assertEqual(others.first(["x", "; no", ";; yes", ";; no"], ";; "), ";; yes")
        self.assertEqual(others.first(["x", "last ", ""], ";; "), "last")
        self.assertEqual(others.first([], ";; "), "")
        value = {"a": [{"description": "of loopback", "code": "GLUE_PRIVATE_IP"}, {"x": {"description": "this", "code": "NO_SEP"}}]}
        self.assertEqual(list(others.descriptions(value)), ["this"])

    def test_there_are_fifteen(self):
        self.assertEqual((len({each.what for each in INCIDENTS}), len({each.zone for each in INCIDENTS})), (15, 15))
        page = BREAKS.read_text()
        for each in INCIDENTS:
            self.assertEqual(page.count(f"\n| {each.what} | "), 1, each.what)


# Stands in for tcpdump on a busy machine: it writes what comes before the mark a second after that has come.
LATE = """#!/usr/bin/env python3
import socket, sys, time
path = sys.argv[sys.argv.index("-w") + 1]
ahead = socket.socket(socket.AF_INET, socket.SOCK_DGRAM)
ahead.bind(%r)
with open(path, "wb", buffering=0) as file:
    file.write(b"begins ")
    mark = ahead.recv(100)
    time.sleep(1)
    file.write(b"last packet " + mark)
    time.sleep(60)
"""


class Captured(unittest.TestCase):
    def captured(self, script):
        with tempfile.TemporaryDirectory() as folder:
            program, path = pathlib.Path(folder, "tcpdump"), pathlib.Path(folder, "x.pcap")
            program.write_text(script)
            program.chmod(0o755)
            with mock.patch.dict(os.environ, PATH=f"{folder}:{os.environ['PATH']}"), processes.captured(path, "port 53"):
                begun = path.read_bytes()
            return begun, path.read_bytes()

    def test_all_that_was_sent_is_written(self):
        begun, ended = self.captured(LATE % (processes.MARKED,))
        self.assertEqual((begun, ended[:19]), (b"begins ", b"begins last packet "))

    def test_a_capture_that_is_never_written_is_told(self):
        with mock.patch.object(processes, "SECONDS_TO_WRITE", 1), self.assertRaisesRegex(processes.Broken, "doesn't write"):
            self.captured('#!/bin/sh\nwhile [ "$1" != -w ]; do shift; done\necho begins > "$2"\nexec sleep 60\n')


@needs_dns
class CommandLine(unittest.TestCase):
    def test_a_zone_that_is_none_of_them(self):
        status, output, errors = run("incidents", "other.test")
        self.assertEqual((status, output), (2, b""))
        self.assertIn("there is no zone other.test", errors)

    def test_what_is_not_there_is_told(self):
        with mock.patch.object(os, "geteuid", lambda: 1000):
            self.assertEqual(run("incidents"), (1, b"", "incidents: it needs root, for packets and for port 53\n"))
        with mock.patch.object(os, "geteuid", lambda: 0), mock.patch.dict(os.environ, PATH="/nowhere"):
            status, output, errors = run("incidents")
        self.assertEqual((status, output), (1, b""))
        self.assertTrue(errors.startswith("incidents: not there: nsd, "), errors)


@needs_dns
@unittest.skipUnless(PROGRAM.exists(), "needs the built program")
@unittest.skipIf(load("incidents").lacking(), "needs root, nsd, ldnsutils, unbound, unbound-host, bind9-dnsutils, dnsviz, tcpdump")
class Page(unittest.TestCase):
    def test_three_of_the_lines_stand_in_the_page(self):
        """All of them are run by `make pages`, as is the page."""
        status, output, errors = run("incidents", "--against", BREAKS, "stale.test", "bare.test", "unsig.test")
        self.assertEqual((status, output.decode().splitlines()[-1], errors), (0, "3 passed, 0 failed", ""), output.decode())

    def test_a_line_that_the_page_does_not_have_is_told(self):
        with tempfile.NamedTemporaryFile() as page, mock.patch.object(load("incidents"), "TRIES", 1):
            status, output, _ = run("incidents", "--against", page.name, "gost.test")
        *_, line, last = output.decode().splitlines()
        self.assertEqual((status, last), (1, "0 passed, 1 failed"))
        self.assertTrue(line.startswith("not in the page: | GOST alone | "), line)


if __name__ == "__main__":
    unittest.main()
