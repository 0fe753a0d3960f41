"""Tests that whatever octets a capture has, what is odd of it is found without a fault: a fault would be a verdict's."""
import functools
import json
import random
import unittest

from dnssec_check_tools.explaining.explanation import Explanation
from dnssec_check_tools.judging.evidence import Evidence
from dnssec_check_tools.odd.found import Oddities, Wish
from tool import TOOLS

EXAMPLES = TOOLS.parent / "examples"
NAMES = ("bind-nosuch", "ed-wildalias-a", "it150-nosuch", "ds24-www-a", "knot-insalias-a", "ldns-dangling-a")
TRIES, CHANGES_MOST, SEED = 100, 12, 97


def changed(octets, chance):
    """A few octets are others, and sometimes its end is gone."""
    found = bytearray(octets)
    for _ in range(chance.randint(1, CHANGES_MOST)):
        found[chance.randrange(len(found))] = chance.choice((0, 1, 0xC0, 0xFF, chance.randrange(256)))
    return bytes(found[: chance.choice((len(found), chance.randrange(len(found))))])


class Mutations(unittest.TestCase):
    def test_no_capture_leads_to_a_fault(self):
        chance, count = random.Random(SEED), 0
        for name in NAMES:
            octets = (EXAMPLES / name / "capture").read_bytes()
            told = Explanation(json.loads((EXAMPLES / name / "explain.json").read_text()))
            for number in range(TRIES):
                with self.subTest(name=name, number=number):
                    read = functools.partial(Evidence, changed(octets, chance))
                    found = Oddities(Wish()).of(read, told)
                    count += len(list(map(str, found)))
        self.assertGreater(count, 100)


if __name__ == "__main__":
    unittest.main()
