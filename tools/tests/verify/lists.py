"""A compact list for tests of tools/verify, and a room with a capture to verify it in."""
import pathlib
import tempfile
import unittest

from tool import run

SIGNER = "0161" + "00"
FRONT = "00010d02" + "0000000a" + "00" * 10 + SIGNER  # two labels, and a TTL of ten
OWNER = "01770161" + "00"
LIST = [
    "key 1 13 02",
    "key 2 15 -",
    f"rrset 2 {OWNER} 1 c0000201 c0000202",
    f"signature 2 1 {FRONT} 0a0b",
    f"signature 2 3 {FRONT} -",
    f"rrset 7 {SIGNER} 16 -",
    f"signature 7 1 {FRONT.replace('0d02', '0d01')} 0c",
    "todo 1 1 2 1",
    "todo 2 2 2 3",
    "todo 3 1 7 1",
]


class Room(unittest.TestCase):
    def setUp(self):
        room = tempfile.TemporaryDirectory()
        self.addCleanup(room.cleanup)
        self.capture = pathlib.Path(room.name) / "capture"
        self.capture.write_bytes(b"")

    def verify(self, lines, *words):
        given = "".join(f"{line}\n" for line in lines).encode()
        return run("verify", "--compact", "--capture", self.capture, "--moment", "7", *words, given=given)
