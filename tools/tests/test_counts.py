"""Tests of the sources: a digest or an answer that is counted nowhere would make the numbers of a verdict say less than
they seem to, and no clause can tell. So a count is begun only where a number is told."""
import re
import unittest

from tool import TOOLS

CRATES = TOOLS.parent / "crates"
# However it is spelled: `Default::default()` may stand wherever a count is wanted, and so may what `mem::take` leaves.
BEGINS = re.compile(r"\bCount(?:>|\s+as\s+Default>)?::(?:new|default)\b|\bDefault::default\b|\bmem::take\b")
ROWS = {"dnsv_message_rows", "dnsv_record_rows", "dnsv_rows"}
# Where counts are begun, how many, and why.
NAMED = {
    "dnsv_answers/src/answered.rt": 1,  # answers of a file are put beside entries, and no verifier is asked
    "dnsv_names/src/count.rt": 1,  # the default of a count
    "dnsv_verdict/src/case.rt": 1,  # how much the verifier was asked for a case
    "dnsv_verdict/src/case/hashed_name.rt": 1,  # the digests that a name takes, which each report of a question tells
    "dnsv_verdict/src/case/tracing.rt": 1,  # the digests that a report tells
    "dnsv_work/src/listing.rt": 1,  # `list` asks a verifier, and prints no number
    "dnsv_program/src/work/timeline.rt": 1,  # and so does `timeline`
}


def sources():
    """The files of the libraries and of the program, but for their tests. Rows begin counts as they like."""
    files = (file for file in CRATES.glob("*/src/**/*.rt") if not ROWS.intersection(file.parts))
    return [file for file in files if file.stem != "tests" and "tests" not in file.parts]


class Counts(unittest.TestCase):
    def test_a_beginning_is_seen_however_it_is_spelled(self):
        for spelled in (
            "Count::new()",
            "Count::default()",
            "<Count>::default()",
            "<Count as Default>::default()",
            "let mut count: Count = Default::default();",
            "std::mem::take(count)",
        ):
            with self.subTest(spelled):
                self.assertEqual(len(BEGINS.findall(spelled)), 1)
        for other in ("&mut Count", "count.add(1)", "Counted::new(writer)", "DefaultKey::default()"):
            with self.subTest(other):
                self.assertEqual(BEGINS.findall(other), [])

    def test_a_count_is_begun_only_where_it_is_told(self):
        begun = {str(file.relative_to(CRATES)): len(BEGINS.findall(file.read_text())) for file in sources()}
        self.assertEqual({file: number for file, number in begun.items() if number}, NAMED)


if __name__ == "__main__":
    unittest.main()
