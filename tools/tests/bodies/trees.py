"""Temporary folders and trees of crates for the tests of wrong bodies."""
import pathlib
import subprocess
import tempfile
import unittest


class Room(unittest.TestCase):
    def setUp(self):
        room = tempfile.TemporaryDirectory()
        self.addCleanup(room.cleanup)
        self.room = pathlib.Path(room.name)

    def write(self, path, text):
        (self.room / path).parent.mkdir(parents=True, exist_ok=True)
        (self.room / path).write_text(text)

    def git(self, *words):
        names = ["-c", "user.name=a", "-c", "user.email=a@b"]
        return subprocess.run(["git", *names, *words], cwd=self.room, check=True, stdout=subprocess.PIPE, text=True).stdout
