"""Every question of a small zone, by captures with its whole chain: what is told is what looking it up gives."""
import unittest

from messages import TYPES
from tool import TOOLS, run_program
from zones import Zone, child

from .desk import PROGRAM

EXAMPLES = TOOLS.parent / "examples"
ZONE = Zone("shop.test.", [
    ("shop.test.", "NS SOA DNSKEY"), ("branch.shop.test.", "NS"), ("ns.shop.test.", "A"), ("www.shop.test.", "A"),
    ("www.eu.shop.test.", "A"), ("*.page.shop.test.", "TXT")])
LABELS = ["a", "branch", "eu", "page", "www", "*"]
ASKED = ["A", "NS", "CNAME", "TXT", "DS"]


def questions():
    """The zone's name, names to a depth of two labels below it, and of three below some."""
    names = below = ["shop.test."]
    for _ in range(2):
        below = [child(label, each) for each in below for label in LABELS]
        names = names + below
    deeper = [child(label, each) for each in below if each.endswith((".eu.shop.test.", ".page.shop.test."))
              for label in ("a", "*")]
    return [(owner, rtype) for owner in names + deeper for rtype in ASKED]


def looked_up(owner, rtype):
    """The verdict by a chain without Opt-Out, where no more than the chain and what it is signed by is there."""
    if ZONE.lacks_name(owner):
        return "SecureNoName"
    if ZONE.lacks_data(owner, rtype):
        return "SecureNoData"
    return "Insecure" if ZONE.unsigned_cut(owner) else None


def looked_up_openly(owner, rtype):
    """The same with Opt-Out, which leaves the delegation out and so denies no name."""
    if owner in ZONE.signed_nodes():
        return looked_up(owner, rtype)
    return "Insecure" if ZONE.open_closer(owner) else None


@unittest.skipUnless(PROGRAM.exists(), "needs the built program")
class WholeChains(unittest.TestCase):
    def kind(self, chain, owner, rtype):
        folder = EXAMPLES / f"whole-{chain}"
        words = ("check", "--capture", folder / "capture", "--anchors", EXAMPLES / "whole-nsec" / "anchors", "--statements",
                 folder / "statements", "--moment", 1795348800, "--name", owner, "--type", TYPES[rtype])
        status, output, errors = run_program(PROGRAM, *words)
        self.assertEqual((errors, status in (0, 3, 5)), ("", True))
        return output.decode().split(" ")[0]

    def agrees(self, chain, expected):
        for owner, rtype in questions():
            with self.subTest(chain=chain, owner=owner, rtype=rtype):
                kind, wanted = self.kind(chain, owner, rtype), expected(owner, rtype)
                # What is there is an answer, or isn't in the capture.
                self.assertIn(kind, [wanted] if wanted else ["SecureAnswer", "Bogus"])

    def test_by_nsec(self):
        self.agrees("nsec", looked_up)

    def test_by_nsec3(self):
        self.agrees("nsec3", looked_up)

    def test_by_nsec3_with_opt_out(self):
        self.agrees("opt-out", looked_up_openly)


if __name__ == "__main__":
    unittest.main()
