"""Tests of tools/wrong_bodies/judge.py: what a check tells of a wrong body, in the prover's own words, and what has to come of it."""
import unittest
from pathlib import Path

from wrong_bodies import bodies, judge

OPEN = "no proof: expected answers in ./proofs/names/first/Answers.antt; `search` did not prove `returns`"
STANDS = "not proved; it stands on `Rattle.upper.proofs.names.first.Answers.returns`, which antt refuses"
CALLS = "no proof: it calls `upper::names::last`, which is not proved"
ANSWERS = "use Rattle.upper.proofs.names.first.Goals as goal\n\npub returns : goal.returns\nreturns c = c.one.ensures.0\n"
WITH_A_LEMMA = """use Rattle.upper.proofs.names.first.Goals as goal

same : (c : goal.After-one) → c.one.result ≡ c.args.x
same c = c.one.ensures.0

pub returns : goal.returns
returns c = sym (same c)
"""

# What antt says of an answer that meets its goal and fails, and of one that doesn't fit.
FAILS = (
    "as printed, the two types differ only where one has `c.args.x` (expected), right after `mathlib.Core.Path.◌≡◌ (Prim.Native.Nat.◌+◌ c.args.x 1)`\n"
    "  and the other has `(Prim.Native.Nat.◌+◌ c.args.x 1)` (found)",
    "as printed, the two types first differ where one has `20` (expected), right after `sha1 (take`, and the other has `(20 + c.min-beside.result)`",
    "as printed, the two indices differ only where one has `Rattle.dnsv_tsig.specs.declared.error.TsigError.TheVariants.NoTsig`",
    "as printed, the two values differ only where one has `c.in-Some.place.part` (found), right after `c.deref-3.result.now) record {key =`",
    "as printed, the two sides first differ where one has `lib.ListN.get_or` (left), right after `signature_number_cmp (`",
    "expected type `mathlib.Core.Path.◌≡◌ (Prim.Native.Nat.◌+◌ c.args.x 1) y`, but this has type `mathlib.Core.Path.◌≡◌ c.args.x y`",
    "`grind` found no proof. It did not look into whether `mathlib.Core.List.◌++◌ c.copy_from_slice.new.self` is false",
    "`grind`: the goal does not follow. The hypotheses hold, and the goal fails at `c.args.x` = `0`.",
    "`omega`: the goal does not follow from what it read. All of that holds, and the goal fails, at `c.args.x` = 0.",
    "`search`: no proof of `mathlib.Core.Path.◌≡◌ (Prim.Native.Nat.◌+◌ c.args.x 1) c.args.x` was found. `grind`",
)
NO_SUCH_GOAL = (
    "`goal.returns`: module `Rattle.upper.proofs.names.first.Goals` has no `returns` that can be named from here",
    # The same, cut short.
    "`goal.returns`: module `Rattle.upper.proofs.names.first.Goals`",
)
DOES_NOT_FIT = (
    "this λ is checked against `Unit {0}`, which is not a function or extension (path) type",
    "a tuple is checked against `mathlib.Core.Path.◌≡◌ c.args.x c.args.x`, which is not a `×` type",
    "record `Rattle.upper.proofs.names.first.Lts.Start` has no field `gone`\n  the fields that can be named here are `args`",
    "record `Rattle.upper.proofs.names.first.Lts.Start` (nearest: `one-2`)",
    "`c.one` is not in scope: not a local variable, nor a definition admitted earlier",
    "`same.first`: module `Rattle.upper.proofs.lemmas.Same` has no `first` that can be named from here",
    "`same` cannot be unfolded because it was not admitted: it has an error, a hole, or an implicit argument",
    *NO_SUCH_GOAL,
)
# The judge knows none of these words.
UNKNOWN = "this λ has 2 binders, but its type has room for only 1"


class Judge(unittest.TestCase):
    def trial(self, old="LIMIT", new="0"):
        file = Path("upper/must-fail/one.edit")
        return judge.Trial(bodies.Edit(file, (("src/names.rt", old, new),), bodies.Function("names", "", "first")))

    def judged(self, trial, said, *errors, file="Answers.antt", is_alone=False, others=""):
        told = "".join(f"./proofs/names/first/{file}:4:13: error: `returns`: {error}\n" for error in errors)
        told = judge.Told("upper", f"{told}fn upper::names::first: {said}\n{others}")
        taken = {name for names in (trial.names_in(file) for file in trial.files) for name in names}
        return judge.judged(trial, told, lambda file: ANSWERS if "/first/" in file and not taken else "", is_alone)

    def kind_of(self, trial, said, error):
        """What comes of a body whose answer is refused so, where the next check says that."""
        self.assertEqual(self.judged(trial, STANDS, error), judge.AGAIN)
        self.assertEqual(trial.names_in("proofs/names/first/Answers.antt"), {"returns"})
        return getattr(self.judged(trial, said, is_alone=True), "kind", None)

    def test_an_open_goal_without_an_answer_refuses_it(self):
        said = OPEN.replace("`returns`", "`returns-clause-one`, `bounds-place`")
        verdict = self.judged(self.trial(), said + "; it calls `f`")
        self.assertEqual(verdict, judge.Verdict(judge.Kind.REFUSED, "`search` did not prove `returns-clause-one`"))
        self.assertEqual(self.judged(self.trial(), said, FAILS[0]).kind, judge.Kind.REFUSED)

    def test_an_answer_that_fails_refuses_it_where_search_fails_too(self):
        for error in FAILS:
            with self.subTest(error):
                self.assertEqual(self.kind_of(self.trial(), OPEN, error), judge.Kind.REFUSED)
                self.assertEqual(self.kind_of(self.trial(), "proved", error), judge.Kind.PROVED)

    def test_an_answer_that_does_not_fit_settles_nothing(self):
        for error in DOES_NOT_FIT:
            with self.subTest(error):
                self.assertEqual(self.kind_of(self.trial(), OPEN, error), judge.Kind.UNSETTLED)
                self.assertEqual(self.kind_of(self.trial(), "proved", error), judge.Kind.PROVED)

    def test_nor_does_one_that_is_refused_in_other_words(self):
        self.assertEqual(self.kind_of(self.trial(), OPEN, UNKNOWN), judge.Kind.UNSETTLED)

    def test_nor_does_one_whose_calls_have_other_numbers(self):
        error = "as printed, the two types differ only where one has `c.one-b.result` (expected) and the other has `c.one.result` (found)"
        for old, new, kind in (("one(x)", "one(one(x))", judge.Kind.UNSETTLED), ("one(x)", "one(y)", judge.Kind.REFUSED)):
            self.assertEqual(self.kind_of(self.trial(old, new), OPEN, error), kind)

    def test_the_first_line_tells_that_an_answer_does_not_fit(self):
        for error in DOES_NOT_FIT:
            with self.subTest(error):
                self.assertEqual(self.kind_of(self.trial(), OPEN, f"{error}\n  {FAILS[1]}"), judge.Kind.UNSETTLED)

    def test_a_line_behind_it_does_not_tell_so(self):
        for error in DOES_NOT_FIT:
            with self.subTest(error):
                self.assertEqual(self.kind_of(self.trial(), OPEN, f"{FAILS[1]}\n  {error}"), judge.Kind.REFUSED)

    def test_an_answer_fails_with_the_lemma_that_it_leans_on(self):
        error = f"./proofs/names/first/Answers.antt:4:10: error: `same`: {FAILS[1]}\n"
        told, trial = judge.Told("upper", f"{error}fn upper::names::first: {STANDS}\n"), self.trial()
        self.assertEqual(judge.judged(trial, told, lambda file: WITH_A_LEMMA, False), judge.AGAIN)
        self.assertEqual(trial.names_in("proofs/names/first/Answers.antt"), {"same", "returns"})

    def test_a_goal_that_is_new_where_an_answer_is_left_over_settles_nothing(self):
        said = OPEN.replace("`returns`", "`returns-in-Some`")
        for error in NO_SUCH_GOAL:
            with self.subTest(error):
                trial = self.trial()
                self.assertEqual(self.judged(trial, said, error), judge.AGAIN)
                self.assertEqual(self.judged(trial, said).kind, judge.Kind.UNSETTLED)

    def test_nor_does_a_goal_of_a_step_that_the_body_adds(self):
        rows = (("copy(a)", "copy(a); copy(b)", "slice_bounds-copy-end-in-loop-3", judge.Kind.UNSETTLED),
                ("copy(a)", "copy(b)", "slice_bounds-copy-end-in-loop-3", judge.Kind.REFUSED),
                ("octets.get(0)", "octets[0]", "bounds-octets", judge.Kind.UNSETTLED),
                ("place", "place + 1", "overflow_add-place", judge.Kind.UNSETTLED),
                ("copy(a)", "copy(a); copy(b)", "returns-clause-copy", judge.Kind.REFUSED))
        for old, new, goal, kind in rows:
            with self.subTest(goal, new=new):
                self.assertEqual(self.judged(self.trial(old, new), OPEN.replace("`returns`", f"`{goal}`")).kind, kind)

    def test_an_invariant_that_does_not_fit_settles_nothing(self):
        error = ("`goal.invariant-loop-piece`: module `Rattle.upper.proofs.names.first.Given` has no `invariant-loop-piece` that can be "
                 "named from here (names in it that begin alike: `invariant-loop-part`)")
        verdict = self.judged(self.trial(), OPEN.replace("`returns`", "`bounds`"), error, file="Invariants.antt")
        self.assertEqual(verdict.kind, judge.Kind.UNSETTLED)
        self.assertIn("Invariants.antt:4: `returns`: `goal.invariant-loop-piece`", verdict.reason)

    def test_a_lemma_that_fails_refuses_an_edit_of_definitions_alone(self):
        rows = [("specs/Names.antt", error, judge.Kind.REFUSED) for error in FAILS]
        rows += [("specs/Names.antt", error, judge.Kind.UNSETTLED) for error in (*DOES_NOT_FIT, UNKNOWN)]
        rows += [("src/names.rt", FAILS[0], judge.Kind.UNSETTLED)]
        for path, error, kind in rows:
            with self.subTest(path, error=error):
                trial = judge.Trial(bodies.Edit(Path("upper/must-fail/one.edit"), ((path, "old", "new"),), None))
                told = judge.Told("upper", f"./proofs/Same.antt:4:13: error: `same`: {error}\nfn upper::names::first: {STANDS}\n")
                verdict = judge.judged(trial, told, lambda file: "", True)
                self.assertEqual((verdict.kind, verdict.reason), (kind, f"proofs/Same.antt:4: `same`: {error.split(chr(10))[0]}"))

    def test_errors_of_other_functions_are_not_its_own(self):
        other = "./proofs/names/last/Answers.antt:4:13: error: `returns`: " + FAILS[0] + "\n"
        for said in ("proved", "no holes", CALLS, "could not tell"):
            self.assertEqual(self.judged(self.trial(), said, others=other), judge.UNTOLD)

    def test_alone_it_is_judged_by_the_goals_of_all(self):
        other = "fn upper::names::last: no proof; `search` did not prove `returns`\n"
        self.assertEqual(self.judged(self.trial(), CALLS, others=other), judge.UNTOLD)
        self.assertEqual(self.judged(self.trial(), CALLS, others=other, is_alone=True).kind, judge.Kind.REFUSED)

    def test_a_check_of_many_says_nothing_where_others_fail_too(self):
        other = "fn upper::names::last: no proof; `search` did not prove `returns`\n"
        told = judge.Told("upper", f"fn upper::names::first: {OPEN}\n{other}")
        self.assertTrue(told.blames_others([self.trial()]))
        self.assertFalse(judge.Told("upper", f"fn upper::names::first: {OPEN}\n").blames_others([self.trial()]))

    def test_a_method_is_told_by_the_module_of_its_type(self):
        trial = self.trial()
        trial.edit = bodies.Edit(trial.edit.file, trial.edit.pairs, bodies.Function("names", "OwnerOrd", "cmp"))
        told = judge.Told("upper", f"fn upper::owners::OwnerOrd::cmp: {OPEN}\n")
        self.assertEqual(judge.judged(trial, told, lambda file: "", False).kind, judge.Kind.REFUSED)
