"""What tools/capture makes of one input, and says of it."""
import unittest

from tool import run

from .build import ethernet, framed, ipv4, message, pcap

QUERY = message(flags=0x0100)
ONE, TWO, THREE = message(1, "one."), message(2, "two."), message(3, "three.", more=b"\xff" * 700)


class Case(unittest.TestCase):
    def takes(self, given, messages, *told, kind="--stream", words=()):
        """The messages are kept, and each text is told in its line of those before the last, but for the notes."""
        status, output, errors = run("capture", kind, "-", *words, given=given)
        lines = [line for line in errors.splitlines() if "capture: note:" not in line]
        self.assertEqual((status, output), (0, framed(*messages)), errors)
        self.assertEqual(len(lines), len(told) + 1, errors)
        for line, text in zip(lines, told):
            self.assertIn(text, line)
        self.assertIn(f"kept {len(messages)} of", lines[-1])

    def refuses(self, given, *texts, kind="--stream", words=()):
        status, output, errors = run("capture", kind, "-", *words, given=given)
        self.assertEqual((status, output), (1, b""), errors)
        for text in ("refused:", *texts):
            self.assertIn(text, errors)


class PacketCase(Case):
    def takes(self, given, messages, *told, words=()):
        super().takes(given, messages, *told, kind="--pcap", words=words)

    def refuses(self, given, *texts, words=()):
        super().refuses(given, *texts, kind="--pcap", words=words)

    def takes_of(self, packets, messages, *told):
        self.takes(pcap([ethernet(ipv4(each)) for each in packets]), messages, *told)
