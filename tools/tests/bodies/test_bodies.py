"""Tests of tools/wrong_bodies/bodies.py: which function a wrong body is of, and what one check can try."""
import shutil

from tool import TOOLS, load
from wrong_bodies import bodies

from .trees import Room

SOURCE = """//! Names.
const LIMIT: usize = 3;

impl<'a> Ord for Owner<'a> {
    /// Says what comes first.
    fn cmp(&self, other: &Self) -> Ordering
        ensures { result ≡ self }
    {
        self.0
    }
}

pub fn first() -> usize {
    LIMIT
}
"""


class Bodies(Room):
    def setUp(self):
        super().setUp()
        (self.room / "src").mkdir()
        (self.room / "src/names.rt").write_text(SOURCE)

    def edit(self, *pairs):
        texts = [f"old: {old}\nnew: {new}\n" for old, new in pairs]
        (self.room / "one.edit").write_text("file: src/names.rt\n" + "".join(texts))
        return bodies.Edit.read(self.room, self.room / "one.edit")

    def test_the_function_is_the_one_around_the_text(self):
        self.assertEqual(self.edit(("self.0", "other.0")).function.path, "names::OwnerOrd::cmp")
        self.assertEqual(self.edit(("    LIMIT", "    LIMIT + 1")).function, bodies.Function("names", "", "first"))

    def test_a_block_is_told_by_its_type_and_trait(self):
        heads = {"impl<'a> View<'a> {": "View", "impl fmt::Display for Fault {": "FaultDisplay",
                 "impl Word<NsecEntry<'_>> for Owner<'_> {": "OwnerWordNsecEntry", "pub trait Word<Entry> {": "Word",
                 "impl From<clap::Error> for LineError {": "LineErrorFromClapError",
                 "impl<T: Drop> From<AllocFailed<T>> for Fault {": "FaultFromAllocFailed"}
        for head, told in heads.items():
            self.assertEqual(bodies.block_at([head, "    fn f() {"], 1), told)

    def test_what_is_in_no_body_has_no_function(self):
        for pair in (("usize = 3", "usize = 4"), ("result ≡ self", "result ≡ other"), ("pub fn first", "pub fn last")):
            self.assertIsNone(self.edit(pair).function)
        self.assertIsNone(self.edit(("self.0", "other.0"), ("    LIMIT", "    0")).function)

    def test_a_text_has_to_stand_once(self):
        source = self.room / "src/names.rt"
        self.assertTrue(self.edit(("self.0", "other.0"), ("    LIMIT", "    0")).apply(self.room))
        self.assertEqual(source.read_text(), SOURCE.replace("self.0", "other.0").replace("    LIMIT", "    0"))
        for old in ("usize", "u16"):
            self.assertFalse(self.edit(("other.0", "self.0"), (old, "u8")).apply(self.room))
        self.assertEqual(source.read_text(), SOURCE.replace("self.0", "other.0").replace("    LIMIT", "    0"))
        self.assertIsNone(self.edit(("u16", "u8")).function)

    def test_steps_are_recounted_where_there_are_more_or_fewer(self):
        rows = (("f(a)", "f(f(a))", "f", True), ("f(a)", "f(b)", "f", False), ("f(a)", "ff(f(a))", "f", False),
                ("f::<u8>(a)", "a", "f", True), ("a?", "a", "from_residual", True), ("a?", "b?", "branch", False),
                ("a[0]", "a[1]", "index", False), ("a[0]", "b", "index", True), ("a", "if a", "if", True))
        for old, new, step, recounts in rows:
            self.assertEqual(self.edit((old, new)).recounts(step), recounts, (old, new, step))

    def test_what_is_stated_is_all_but_bodies_and_comments(self):
        stated = bodies.without_bodies(SOURCE)
        for body in ("self.0", "other.0 // of all"):
            self.assertEqual(bodies.without_bodies(SOURCE.replace("self.0", body).replace("//! Names", "//! All")), stated)
        for part in ("usize = 3", "result ≡ self", "pub fn first"):
            self.assertNotEqual(bodies.without_bodies(SOURCE.replace(part, "u8")), stated)

    def test_batches_have_one_of_a_function(self):
        edits = [self.edit(("self.0", "other.0")), self.edit(("self.0", "0")), self.edit(("    LIMIT", "    0"))]
        self.assertEqual([len(batch) for batch in bodies.batches_of(edits, 2)], [2, 1])
        self.assertEqual([len(batch) for batch in bodies.batches_of(edits, 1)], [1, 1, 1])

    def test_each_stands_in_its_crate(self):
        tool = load("wrong-bodies")
        for crate in tool.order():
            for edit in tool.edits_of(crate):
                for path in {path for path, _, _ in edit.pairs}:
                    (self.room / path).parent.mkdir(parents=True, exist_ok=True)
                    shutil.copy(TOOLS.parent / "crates" / crate / path, self.room / path)
                self.assertTrue(edit.apply(self.room), edit.file)
