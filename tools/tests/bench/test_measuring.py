"""What the program says of each shape, made small, and the rows that are printed of what it costs."""
import pathlib
import tempfile
import unittest

import measure_shapes
from measure_shapes import Costs
from shapes import SHAPES
from tool import PROGRAM

# Of each shape a small size, and the first line of what is said.
SMALL = {
    "long-data": (8, "Indeterminate www.bench.example. 1"),
    "pairs": (16, "Indeterminate www.bench.example. 1"),
    "digests": (2, "Bogus www.bench.example. 1"),
    "alike": (2, "Bogus www.bench.example. 1"),
    "exponents": (1, "Indeterminate www.bench.example. 1"),
    "key-sets": (2, f"Bogus {'d.' * 24}bench.example. 1"),
    "key-sets-apart": (2, f"Bogus {'d.' * 24}bench.example. 1"),
    "key-sets-aliases": (2, "SecureAnswer a0.bench.example. 1"),
    "key-anchors": (2, "Bogus www.bench.example. 1"),
    "keys-to-check": (2, "Pending bench.example. 1"),
    "expanded-nsec": (2, f"Bogus {'a.' * 127} 1"),
    "expanded-nsec3": (2, f"Bogus {'a.' * 127} 1"),
    "hashes": (2, "Bogus a.a. 1"),
    "question-hashes": (2, "Bogus a.a.a0. 1"),
    "aliases": (2, f"Bogus 0.{'a.' * 126} 1"),
    "alias-hashes": (2, "Bogus 0.a. 1"),
    "timeline-transfer": (6, "timeline host-0001.big.test. 1"),
    "timeline-bystanders": (40, "timeline www.bench.example. 1"),
    "timeline-hashes": (4, f"timeline {'a.' * 29}bench.example. 1"),
    "timeline-ends": (40, "timeline www.bench.example. 1"),
    "key-file": (10, "Indeterminate www.bench.example. 1"),
    "statements": (10, "Indeterminate www.bench.example. 1"),
    "scattered": (10, "Indeterminate www.bench.example. 1"),
    "long-statements": (10, "Indeterminate www.bench.example. 1"),
    "long-scattered": (10, "Indeterminate www.bench.example. 1"),
    "questions": (10, "Indeterminate n0000000.example. 1"),
    "frames": (1_000, "refused 201 message 1"),
    "zeros": (2**20, "refused 601 line 1"),
}


class Rows(unittest.TestCase):
    def test_a_row_has_the_growth_from_the_row_before(self):
        before, costs = Costs(1_000, 4, 5_000, 2_000, 0.5, ""), Costs(4_000, 16, 60_500, 3_000, 1.25, "")
        self.assertEqual(measure_shapes.row("pairs", 16, costs, before),
                         "| `pairs` | 16 | 4,000 | 16 | 60,500 | 12.1 | 3,000 KiB | 1.25 |")
        self.assertEqual(measure_shapes.row("zeros", 1_024, costs._replace(pairs=0), None),
                         "| `zeros` | 1,024 | 4,000 |  | 60,500 |  | 3,000 KiB | 1.25 |")

    def test_each_shape_is_asked_small_below(self):
        self.assertEqual(set(SMALL), set(SHAPES))


@unittest.skipUnless(PROGRAM.exists(), "needs the built program")
class Answers(unittest.TestCase):
    def setUp(self):
        room = tempfile.TemporaryDirectory()
        self.addCleanup(room.cleanup)
        self.room = pathlib.Path(room.name)

    def made(self, name):
        """The shape made small, with its files in a folder of their own."""
        shape, room = SHAPES[name][0](SMALL[name][0]), self.room / name
        room.mkdir()
        measure_shapes.write_files(shape, room)
        return shape, room

    def test_each_is_answered_as_it_is_meant(self):
        for name, (_, answer) in SMALL.items():
            with self.subTest(name):
                output, errors = measure_shapes.run(measure_shapes.words_of(*self.made(name)))
                self.assertEqual((output or errors).split("\n")[0], answer)

    def test_what_is_to_check_are_its_pairs(self):
        for name in set(SHAPES) - {"frames"}:
            shape, room = self.made(name)
            words = [PROGRAM, "list", "--capture", room / "capture", *shape.listed]
            self.assertEqual(measure_shapes.run(words)[0].count("todo "), shape.pairs, name)


if __name__ == "__main__":
    unittest.main()
