"""Unsigned cuts, islands, aliases and DS questions: a fault of theirs is named first too, and also where something else stands
beside the chain, as a standby key or a copy, which is not told."""
import itertools
import random
import unittest

from .asking import STATUSES, Asking, first_reason
from .chains.beside import BESIDE
from .chains.cuts import more_shapes
from .chains.faults import all_shapes, broken, with_faults

UNSIGNED = ("cut", "open cut", "alias of a cut", "below unsigned")
MORE = list(with_faults(more_shapes()))
EACH = 2


def last_word(text):
    *_, line = (line for line in text.splitlines() if line.startswith("reason "))
    return line.split(" ")[2]


class Shaped(Asking):
    def assert_sound(self, shape, chain):
        status, output = self.explained(chain)
        self.assertEqual((status, first_reason(output)), (3 if shape in UNSIGNED else 0, None))

    def assert_named(self, shape, chain, fault):
        """The fault is named first, and last that a zone isn't proved unsigned where a record fails that has to prove it."""
        status, output = self.explained(broken(chain, fault))
        self.assertEqual((status, first_reason(output)), (STATUSES.get(fault.said[0], 5), fault.said))
        if shape in UNSIGNED and fault.link.startswith("denial") and fault.said[0] != "ds-missing":
            self.assertEqual(last_word(output), "ds-unproved")


class Shapes(Shaped):
    def test_each_chain_is_sound(self):
        for shape, chain, _ in MORE:
            with self.subTest(shape):
                self.assert_sound(shape, chain)

    def test_a_single_fault_is_named_first(self):
        for shape, chain, faults in MORE:
            for fault in faults:
                with self.subTest(shape, fault=fault.name, link=fault.link):
                    self.assert_named(shape, chain, fault)


class Besides(Shaped):
    """Each thing beside each shape."""

    def pairs(self):
        for beside, (shape, chain, faults) in itertools.product(BESIDE, [*all_shapes(), *MORE]):
            fuller = chain.copied()
            beside.adds(fuller)
            yield beside, shape, fuller, faults

    def test_nothing_is_wrong_with_it(self):
        for beside, shape, chain, _ in self.pairs():
            with self.subTest(beside.name, shape=shape):
                self.assert_sound(shape, chain)

    def test_a_single_fault_is_named_first(self):
        draw = random.Random(20261128)
        for beside, shape, chain, faults in self.pairs():
            for fault in draw.sample([each for each in faults if beside.leaves(each)], EACH):
                with self.subTest(beside.name, shape=shape, fault=fault.name, link=fault.link):
                    self.assert_named(shape, chain, fault)


if __name__ == "__main__":
    unittest.main()
