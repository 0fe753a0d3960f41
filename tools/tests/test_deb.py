"""Tests of the Debian package: it is made of the built program, installed, used, and removed without a rest."""
import os
import pathlib
import shutil
import subprocess
import unittest

from tool import DATA, PROGRAM, TOOLS, run_program
from dnssec_check_tools.command import VERSION

TOP = TOOLS.parent
EXAMPLES = TOP / "examples"
APT = ("apt-get", "-o", "DPkg::Lock::Timeout=300", "--quiet", "--yes")
COMMANDS = ("dnssec_check", "dnssec_check-capture", "dnssec_check-judge", "dnssec_check-verify")


def lacking():
    """What this machine lacks to make and to install the package, None where it is nothing."""
    if not PROGRAM.exists():
        return "needs the built program"
    if not all(map(shutil.which, ("dpkg-buildpackage", "dh", "dh_python3", "apt-get"))):
        return "needs Debian's packages debhelper, dh-python and dpkg-dev"
    if os.geteuid() != 0:
        return "needs root, to install a package"
    if is_installed("dnssec-check"):
        return "the package is installed here already, and the test would remove it"
    missing = [name for name in ("python3-dnspython", "python3-cryptography") if not is_installed(name)]
    return f"needs {' and '.join(missing)}" if missing else None


def is_installed(package):
    words = ["dpkg-query", "-W", "-f", "${db:Status-Status}", package]
    return subprocess.run(words, check=False, capture_output=True, text=True).stdout == "installed"


def done(*words):
    """What a command prints that has to end well."""
    status, output, errors = run_program(words[0], *words[1:])
    if status != 0:
        raise AssertionError(f"{words} ended with {status}:\n{output.decode()}{errors}")
    return output.decode()


@unittest.skipIf(lacking(), str(lacking()))
class Package(unittest.TestCase):
    @classmethod
    def setUpClass(cls):
        cls.package = TOP / done(TOOLS / "deb").strip()

    def test_it_names_what_it_needs(self):
        fields = dict(line.split(": ", 1) for line in done("dpkg-deb", "--field", self.package).splitlines()
                      if not line.startswith(" "))
        self.assertEqual((fields["Package"], fields["Version"], fields["Architecture"]),
                         ("dnssec-check", VERSION, "amd64"))
        needed = {text.split()[0] for text in fields["Depends"].split(",")}
        self.assertLessEqual({"python3", "python3-dnspython", "python3-cryptography"}, needed)

    def test_it_has_the_pages(self):
        paths = {line.split()[5] for line in done("dpkg-deb", "--contents", self.package).splitlines()}
        for name in COMMANDS:
            self.assertIn(f"./usr/share/man/man1/{name}.1.gz", paths)
            self.assertIn(f"./usr/share/bash-completion/completions/{name}", paths)
            self.assertIn(f"./usr/share/fish/vendor_completions.d/{name}.fish", paths)
        self.assertIn("./usr/share/zsh/vendor-completions/_dnssec_check", paths)
        for name in ("README.md", "CHANGELOG.md", "CONTRIBUTING.md", "SECURITY.md", "docs/AUDITING.md", "docs/CAPTURING.md",
                     "docs/GUARANTEES.md", "docs/pictures/broken-chain.svg", "docs/pictures/page.png",
                     "examples/README.md", "crates/dnsv_names/GUARANTEES.md"):
            self.assertIn(f"./usr/share/doc/dnssec-check/{name}", paths)
        self.assertIn("./usr/share/dnssec_check/schema.json", paths)
        self.assertIn("./usr/lib/python3/dist-packages/dnssec_check_tools", paths)
        self.assertEqual([path for path in paths if "__pycache__" in path or "/tests" in path], [])

    def test_it_is_installed_used_and_removed(self):
        self.addCleanup(run_program, *APT, "purge", "dnssec-check")
        done(*APT, "--no-install-recommends", "install", self.package)
        self.assertEqual(pathlib.Path("/usr/bin/dnssec_check").read_bytes(), PROGRAM.read_bytes())
        for name in COMMANDS[1:]:
            self.assertEqual(done(f"/usr/bin/{name}", "--version"), f"{name} {VERSION}\n")
        self.use()
        paths = [path for path in done("dpkg", "-L", "dnssec-check").splitlines() if "dnssec" in path]
        done(*APT, "purge", "dnssec-check")
        self.assertEqual([path for path in paths if os.path.lexists(path)], [])

    def use(self):
        """A verdict by the installed commands, from anywhere."""
        capture = EXAMPLES / "bind-www-a" / "capture"
        words = (capture, "www.bind.test/A", "--at", "2026-11-22T12:00:00Z",
                 "--anchors", EXAMPLES / "anchors")
        self.assertIn("SecureAnswer", done("/usr/bin/dnssec_check-judge", *words))
        self.assertEqual(done("/usr/bin/dnssec_check-verify", DATA / "todo"), (DATA / "statements").read_text())
        shown = done("/usr/bin/dnssec_check", "show", "--capture", capture)
        self.assertEqual(shown.count("message "), 6)
        asked = "import dnssec_check_tools.command as found; print(found.VERSION)"
        self.assertEqual(done("/usr/bin/python3", "-I", "-c", asked), f"{VERSION}\n")


if __name__ == "__main__":
    unittest.main()
