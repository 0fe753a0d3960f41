"""The library that refuses a program its calls: which calls it counts, and which of them it refuses, with which error."""
import unittest

from failing.refusal import Refusal, refused
from .programs import ASKING, Programs


class Refuse(Programs):
    def setUp(self):
        self.asking = self.bench(self.program(ASKING))
        self.files = [self.asking.file(name, octets) for name, octets in (("one", b"1" * 10), ("two", b"2" * 100))]

    def told(self, *refusal, **named):
        """What was written, which calls told that they were refused, how many there were, and how many were refused."""
        (status, output, errors), calls, count = refused(self.asking, map(str, self.files), Refusal(*refusal, **named))
        self.assertEqual(status, 0)
        return output, errors, calls, count

    def test_none_is_refused_where_nothing_is_asked(self):
        whole = b"1" * 10 + b"2" * 100 + b"end"
        for kind, calls in (("memory", 5), ("read", 5), ("write", 4)):
            self.assertEqual(self.told(kind), (whole, b"", calls, 0))

    def test_memory_is_refused_from_main_on(self):
        for number, letter in enumerate("mrcap", 1):
            self.assertEqual(self.told("memory", number, number)[1:], (letter.encode(), 5, 1))
        self.assertEqual(self.told("memory", 3)[1:], (b"cap", 5, 3))
        self.assertEqual(self.told("memory", 6)[1:], (b"", 5, 0))

    def test_a_read_is_refused(self):
        self.assertEqual(self.told("read", 1, 1), (b"1" * 10 + b"2" * 100 + b"end", b"f", 6, 1))
        self.assertEqual(self.told("read", 1, 2, file=self.files[1])[1:], (b"ff", 5, 2))
        self.assertEqual(self.told("read", 5, 5, file=self.files[0], size=4)[1:], (b"", 4, 0))
        self.assertEqual(self.told("read", file=self.files[0], size=1)[1:], (b"", 11, 0))

    def test_a_write_is_refused(self):
        self.assertEqual(self.told("write", 2, 3, file="/dev/stdout"), (b"1" * 10 + b"end", b"ww", 4, 2))
        self.assertEqual(self.told("write", 4, 4, file="/dev/stdout"), (b"1" * 10 + b"2" * 100, b"v", 4, 1))
        self.assertEqual(self.told("write", file="/dev/stdout", size=2)[0], b"112222en")
        self.assertEqual(self.told("write", file="/dev/stderr", first=1)[1:], (b"", 0, 0))


if __name__ == "__main__":
    unittest.main()
