"""The Debian packages of the library: made of what is built, taken apart, and used from there."""
import os
import pathlib
import shutil
import subprocess
import sys
import tempfile
import unittest

from tool import TOOLS
from dnssec_check_tools.command import VERSION
from . import LIBRARY, SHARED

EXAMPLE = TOOLS.parent / "examples" / "bind-www-a"
ANCHORS = TOOLS.parent / "examples" / "anchors"
NEEDED = ("dpkg-buildpackage", "dh", "dh_python3", "dpkg-deb", "cc")
NAMES = {"libdnssec-check1", "libdnssec-check-dev", "python3-dnssec-check"}
JUDGES = """import dnssec_check, sys
capture, anchors, statements = (open(path, "rb").read() for path in sys.argv[1:])
print(dnssec_check.Case(capture, anchors, at=1795348800, statements=statements).judge("www.bind.test").verdict)"""


class Symbols(unittest.TestCase):
    def test_the_file_of_symbols_has_each_call(self):
        lines = (LIBRARY / "debian" / "libdnssec-check1.symbols").read_text().splitlines()
        self.assertEqual(lines[0], "libdnssec_check.so.1 libdnssec-check1 #MINVER#")
        self.assertEqual([line.split("@")[0].strip() for line in lines[1:]], sorted((LIBRARY / "symbols").read_text().split()))


@unittest.skipUnless(SHARED.exists() and all(map(shutil.which, NEEDED)), "needs the library that `make library` builds, and debhelper")
class Packages(unittest.TestCase):
    def test_they_are_used_where_they_are_put(self):
        made = [TOOLS.parent / path for path in subprocess.check_output([TOOLS / "deb", "library"], text=True).split()]
        self.assertEqual({path.name.split("_")[0] for path in made}, NAMES)
        with tempfile.TemporaryDirectory() as room:
            for path in made:
                self.assertIn(f"_{VERSION}_", path.name)
                subprocess.run(["dpkg-deb", "--extract", path, room], check=True)
            usr = pathlib.Path(room) / "usr"
            self.assertEqual([path for path in usr.rglob("*") if not path.exists()], [])
            folder = next(usr.glob("lib/*/libdnssec_check.so.1")).parent
            self.assertEqual((folder / SHARED.name).read_bytes(), SHARED.read_bytes())
            files = [EXAMPLE / "capture", ANCHORS, EXAMPLE / "statements"]
            self.from_python(usr, folder, files)
            self.from_c(usr, folder, pathlib.Path(room) / "example", files)

    def from_python(self, usr, folder, files):
        place = {"PYTHONPATH": str(usr / "lib/python3/dist-packages"), "DNSSEC_CHECK_LIBRARY": str(folder / SHARED.name)}
        told = subprocess.check_output([sys.executable, "-c", JUDGES, *files], env={**os.environ, **place}, text=True)
        self.assertEqual(told, "SecureAnswer\n")

    def from_c(self, usr, folder, program, files):
        words = [f"-I{usr}/include", LIBRARY / "example.c", f"-L{folder}", "-ldnssec_check", f"-Wl,-rpath,{folder}", "-o", program]
        subprocess.run(["cc", *words], check=True)
        told = subprocess.check_output([program, *files, "1795348800", "www.bind.test.", "1"])
        self.assertEqual(told, (EXAMPLE / "check.stdout").read_bytes())


if __name__ == "__main__":
    unittest.main()
