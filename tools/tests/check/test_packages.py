"""The packages: what is seen of one that is there, and what tools/packages does where one isn't."""
import os
import unittest
from unittest import mock

from checking import packages
from checking.packages import Package
from tool import load, run

THERE = (Package("a", command="sh"), Package("b", module="json"), Package("c", file="/etc/passwd"))
GONE = (Package("x", command="no-such-command"), Package("y", module="no_such_module"), Package("z", file="/no/such/file"))


class Packages(unittest.TestCase):
    def test_what_is_there(self):
        self.assertEqual(packages.lacking(THERE + GONE), ["x", "y", "z"])

    def test_each_package_is_seen_by_one_thing(self):
        for package in packages.PACKAGES:
            self.assertEqual(sum(map(bool, (package.command, package.module, package.file))), 1, package.name)
        names = [package.name for package in packages.PACKAGES]
        self.assertEqual(names, sorted(set(names)))

    def run_packages(self, missing, user=0):
        """How it ends where these are missing one time after the other, and what it has installed."""
        tool = load("packages")
        with mock.patch.object(tool, "lacking", side_effect=missing), mock.patch.object(os, "geteuid", lambda: user), \
                mock.patch.object(tool, "install") as install, mock.patch.object(tool.shutil, "which", lambda _: "there"):
            status, output, errors = run("packages")
        return status, output + errors.encode(), [call.args[0] for call in install.call_args_list]

    def test_root_installs_what_is_missing(self):
        self.assertEqual(self.run_packages([[]]), (0, b"", []))
        self.assertEqual(self.run_packages([["x", "y"], []]), (0, b"", [["x", "y"]]))

    def test_what_stays_missing_is_told_with_the_line(self):
        said = b"not there: y; as root on Debian this installs them:\napt-get install --yes --no-install-recommends y\n"
        status, told, done = self.run_packages([["x", "y"], ["y"]])
        self.assertEqual((status, done), (1, [["x", "y"]]))
        self.assertTrue(told.endswith(said), told)
        status, told, done = self.run_packages([["y"]], user=1000)
        self.assertEqual((status, done), (1, []))
        self.assertTrue(told.endswith(said), told)


if __name__ == "__main__":
    unittest.main()
