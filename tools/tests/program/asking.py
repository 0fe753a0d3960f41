"""What `explain` says of a chain, and what it says first."""
from messages import TYPES

from .chains.faults import broken
from .desk import MOMENT, Desk

BY_NAME = ("delegation", "type-held", "match-missing", "encloser-missing", "cover-missing")
STATUSES = {"no-anchor": 6}
PROVED = (0, 3)


def first_reason(text):
    """The word of the first reason, and what it is said of: a name, and its type where one stands behind it."""
    for line in text.splitlines():
        words = line.split(" ")
        if words[0] == "reason":
            _, _, word, *rest = words
            if word in BY_NAME:
                return word, rest[rest.index("name") + 1]
            return word, " ".join(rest[:2] if rest[1:] and rest[1].isdigit() else rest[:1])
    return None


class Asking(Desk):
    def explained(self, chain, subcommand="explain"):
        """The status and the text, where each signature is what the chain says of it; of some it says nothing."""
        capture, anchors, words = chain.files()
        status, output, errors = self.told("list", "--moment", MOMENT, capture=capture)
        self.assertEqual((status, errors), (0, ""))
        lines = [line.split(" ")[1:] for line in output.splitlines()]
        statements = "".join(f"{words[line[-1]]} {' '.join(line)}\n" for line in lines if words[line[-1]])
        owner, rtype = chain.question
        asked = ("--moment", MOMENT, "--name", owner, "--type", TYPES[rtype])
        status, output, errors = self.told(subcommand, *asked, capture=capture, anchors=anchors, statements=statements.encode())
        self.assertEqual(errors, "")
        return status, output

    def lead_out(self, chain, faults):
        """Each time the fault that is named is one that is there; without it the next is, until nothing fails."""
        while faults:
            _, output = self.explained(broken(chain, *faults))
            named = [each for each in faults if each.said == first_reason(output)]
            self.assertTrue(named, output)
            faults = [each for each in faults if each is not named[0]]
        self.assertIn(self.explained(chain)[0], PROVED)
