"""Tests of tools/wrong_bodies/answers.py: where the answers of a proof file stand, and the file without some of them."""
import unittest

from wrong_bodies import answers

FILE = """use Rattle.std.proofs.Common.{ap}
use Rattle.names.proofs.first.Goals as goal

-- the octets are the name's
module _ (c : goal.After-copied) where
  same : c.args.now ≡ c.copied.result
  same = c.copied.ensures

pub returns-clause-some : goal.returns-clause-some
unfolding first
returns-clause-some c = (
  ap first (same c),
)

pub loop-place-init :
    goal.loop-place-init
loop-place-init c = c.get-2.ensures
"""


class Answers(unittest.TestCase):
    def test_a_line_stands_in_a_declaration_or_a_section(self):
        rows = ((1, []), (3, []), (6, ["same"]), (9, ["returns-clause-some"]), (12, ["returns-clause-some"]), (17, ["loop-place-init"]))
        for line, names in rows:
            self.assertEqual(answers.standing_at(FILE, line), set(names), line)

    def test_what_mentions_a_name_leans_on_it(self):
        self.assertEqual(answers.leaning_on(FILE, {"same"}), {"same", "returns-clause-some"})
        self.assertEqual(answers.leaning_on(FILE, {"loop-place"}), {"loop-place"})

    def test_taken_out_with_all_their_lines(self):
        head = FILE[: FILE.index("module")]
        left = answers.without(FILE, {"same", "returns-clause-some"})
        self.assertEqual(left, head + FILE[FILE.index("pub loop") :])
        self.assertEqual(answers.without(FILE, ()), FILE)
        self.assertEqual(answers.without(FILE, {"returns-clause-some", "loop-place-init"}), "")

    def test_branches_of_a_goal_go_with_the_answers_that_name_them(self):
        both = "use Rattle.names.proofs.first.Goals.{then-eq+in_ok-push, else-eq}\n"
        text = both + FILE.replace("c.get-2.ensures", "elim c.if-eq.branch [ | then-eq+in_ok-push w ↦ w.is | else-eq w ↦ w.is ]")
        self.assertEqual(answers.without(text, ()), text)
        self.assertNotIn("Goals.{", answers.without(text, {"loop-place-init"}))
        text = text.replace("first (same c)", "else-eq")
        self.assertIn("first.Goals.{else-eq}\n", answers.without(text, {"loop-place-init"}))

    def test_an_answer_has_the_steps_that_it_cites_and_those_of_its_goal(self):
        self.assertEqual(answers.steps_of(FILE, "loop-place-init"), {"get", "loop", "place", "init"})
        self.assertTrue(answers.has_answer(FILE, "loop-place-init"))
        self.assertFalse(answers.has_answer(FILE, "loop-place"))
