"""The zone that the bench measures is a whole transfer, is proved, and lacks what is taken out."""
import contextlib
import io
import pathlib
import shutil
import tempfile
import unittest

import measure_zone
from dnssec_check_tools.capturing.frames import frames_of
from dnssec_check_tools.zones.audit import Audit
from dnssec_check_tools.zones.transfer import transfer_of
from tool import PROGRAM


@unittest.skipUnless(shutil.which("ldns-signzone"), "needs ldnsutils")
class Zone(unittest.TestCase):
    def test_it_is_a_whole_transfer_of_so_many_names(self):
        with tempfile.TemporaryDirectory() as folder:
            records = measure_zone.signed(pathlib.Path(folder), 60).records
        messages = frames_of(measure_zone.transfer(records))[0]
        transfer = transfer_of(messages)
        self.assertEqual((len(messages), transfer.is_whole, transfer.others), (2, True, []))
        audit = Audit(transfer)
        self.assertEqual((len(audit.contents.names), len(audit.items)), (62, 3 * 62 + 2))

    def test_what_cannot_be_measured_is_refused(self):
        for words in (["1"], ["many"], ["16777216"]):
            with self.subTest(words), contextlib.redirect_stderr(io.StringIO()), self.assertRaises(SystemExit) as end:
                measure_zone.main(words)
            self.assertEqual(end.exception.code, 2)

    @unittest.skipUnless(PROGRAM.exists(), "needs the program")
    def test_it_is_proved_and_what_is_taken_out_is_told(self):
        said = io.StringIO()
        with contextlib.redirect_stdout(said):
            status = measure_zone.main(["20"])
        lines = said.getvalue().splitlines()
        self.assertEqual(status, 0, lines)
        self.assertIn("  zone big.test.: 22 names, 68 questions to 1 capture", lines)
        self.assertIn("  h10.big.test. A: Bogus", lines)
        self.assertEqual([line.split(":")[0] for line in lines if line.endswith("by the clock")],
                         ["all of it", "without h10.big.test. A"])


if __name__ == "__main__":
    unittest.main()
