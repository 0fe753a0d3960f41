"""Of a sound chain with one fault `explain` names that fault first; with two, each mended by what is said first leads out."""
import random
import unittest

from .asking import STATUSES, Asking, first_reason
from .chains.faults import all_shapes, broken


class FirstReason(Asking):
    def test_each_chain_is_sound(self):
        for shape, chain, _ in all_shapes():
            with self.subTest(shape):
                status, output = self.explained(chain)
                self.assertEqual((status, first_reason(output)), (0, None))

    def test_a_single_fault_is_named_first(self):
        for shape, chain, faults in all_shapes():
            for fault in faults:
                with self.subTest(shape, fault=fault.name, link=fault.link):
                    status, output = self.explained(broken(chain, fault))
                    self.assertEqual((status, first_reason(output)), (STATUSES.get(fault.said[0], 5), fault.said))

    def test_what_is_said_first_leads_out(self):
        draw = random.Random(20261126)
        for shape, chain, faults in all_shapes():
            for one in faults:
                other = draw.choice([each for each in faults if each.link != one.link])
                with self.subTest(shape, faults=(one.name, one.link, other.name, other.link)):
                    self.lead_out(chain, [one, other])


if __name__ == "__main__":
    unittest.main()
