"""Tests of tools/judge --zone on transfers that random changes led to, and that it once failed on."""
import pathlib
import unittest

from dnssec_check_tools.capturing.frames import frames_of
from dnssec_check_tools.zones.audit import Audit
from dnssec_check_tools.zones.transfer import transfer_of

MET = pathlib.Path(__file__).resolve().parent.parent / "data" / "transfers"


class Met(unittest.TestCase):
    """An NSEC3 record whose owner is the root; a record whose next name lies outside of the zone."""

    def test_each_is_audited(self):
        paths = sorted(MET.glob("*.cap"))
        self.assertEqual(len(paths), 2)
        for path in paths:
            with self.subTest(path.name):
                self.assertTrue(Audit(transfer_of(frames_of(path.read_bytes())[0])).items)
