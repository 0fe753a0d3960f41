"""What is told of a question that nothing proves is enough: where that is times and answers alone, with just these signatures
valid and answered the verdict proves something. Mended one at a time, each time what is said first, they lead there too."""
import random
import unittest

from .asking import PROVED, Asking
from .chains.beside import BESIDE
from .chains.faults import all_shapes
from .test_beside import MORE
from .chains.worlds import mend, world

BOGUS, PENDING = 5, 4
TIMES_AND_ANSWERS = {"expired", "not-yet", "bad", "unanswered"}
WITHOUT_PRICE = {"no-closer", "denial-unproved", "ds-unproved"}
WORLDS, FOLLOWED, EACH = 120, 40, 6


def reasons(text):
    return [line.split(" ")[2:] for line in text.splitlines() if line.startswith("reason ")]


def signature_of(chain, word, owner, rtype, _, rrset, __, place, ___, tag, *rest):
    """The signature that a reason names."""
    signature = chain.rrsets()[int(rrset) - 1].signatures[int(place) - 1]
    if (signature.key.tag() + signature.off) % 65536 != int(tag):
        raise LookupError(f"signature {place} of RRset {rrset} has another tag than {tag}")
    return signature


def aliases(text):
    return sum(line.startswith("alias ") for line in text.splitlines())


class Enough(Asking):
    def test_each_world_is_sound(self):
        for seed in range(WORLDS):
            sound, _ = world(seed)
            with self.subTest(seed=seed):
                self.assertIn(self.explained(sound)[0], PROVED)

    def test_these_signatures_are_enough(self):
        told = 0
        for seed in range(WORLDS):
            _, chain = world(seed)
            status, output = self.explained(chain)
            found = reasons(output)
            if status == BOGUS and {word for word, *_ in found} <= TIMES_AND_ANSWERS | WITHOUT_PRICE:
                told += 1
                for reason in found:
                    if reason[0] in TIMES_AND_ANSWERS:
                        mend(signature_of(chain, *reason))
                with self.subTest(seed=seed, told=output):
                    self.assert_proves(chain, aliases(output))
        self.assertGreater(told, WORLDS // 3)

    def assert_proves(self, chain, followed):
        """The verdict proves something, or one alias more than these is followed."""
        status, output = self.explained(chain)
        self.assertTrue(status in PROVED or aliases(output) > followed, output)


class Followed(Asking):
    def test_what_is_said_first_leads_out_of_each_world(self):
        """Each time the signature that is told first is mended, or the first that is to be checked is answered."""
        for seed in range(WORLDS, WORLDS + FOLLOWED):
            _, chain = world(seed)
            with self.subTest(seed=seed):
                self.follow(chain)

    def follow(self, chain):
        signatures = [signature for rrset in chain.rrsets() for signature in rrset.signatures]
        for _ in range(len(signatures) + 1):
            status, output = self.explained(chain)
            if status in PROVED:
                return
            if status == PENDING:
                todo = next(line for line in output.splitlines() if line.startswith("todo "))
                mend(signatures[int(todo.split(" ")[-1], 16) - 1])
            else:
                mend(signature_of(chain, *reasons(output)[0]))
        self.fail(output)

    def test_what_is_said_first_leads_out_of_several_faults(self):
        draw = random.Random(20261129)
        for shape, chain, faults in [*all_shapes(), *MORE]:
            for _ in range(EACH):
                links = draw.sample(sorted({fault.link for fault in faults}), min(3, len({fault.link for fault in faults})))
                chosen = [draw.choice([fault for fault in faults if fault.link == link]) for link in links]
                beside = draw.choice(BESIDE)
                fuller = chain.copied()
                if all(map(beside.leaves, chosen)):
                    beside.adds(fuller)
                with self.subTest(shape, beside=beside.name, faults=[(fault.name, fault.link) for fault in chosen]):
                    self.lead_out(fuller, chosen)


if __name__ == "__main__":
    unittest.main()
