"""Tests of the tables of public calls in the crates' GUARANTEES.md: each call that a library exports has a row in its
page, what a row names is there, and no cell is empty. Calls come and go, and no check looks at pages."""
import re
import unittest

from pages.guarantees import CRATES, pages, rows, section

USED = re.compile(r"^pub use ([^;]+);", re.MULTILINE)
IMPL = re.compile(r"impl(?:<.*?>)? (?:(?:\w+::)*(\w+)(?:<.*?>)? for )?(\w+)")
TRAIT = re.compile(r"pub trait (\w+)")
FUNCTION, METHOD, DECLARED = (re.compile(f"{front}fn (\\w+)") for front in ('pub (?:extern "C" )?', "    pub ", "    "))
FOR_C = re.compile(r'^pub extern "C" fn (\w+)', re.MULTILINE)
# In the last cell: lines of dnsv_rows, by the names that they begin with.
ROWS = re.compile(r"rows ((?:`[^`]+`(?:, | and )?)+)")
# How rows call a trait; what is told by none: views, marks of types, and the `From` that `?` calls.
SHORT = {"PartialEq": "==", "PartialOrd": "Ord"}
UNTOLD = {"Model", "Eq", "Circle", "From"}


def libraries():
    return sorted(path.parent.parent.name for path in CRATES.glob("*/src/lib.rt"))


def exported(crate):
    """The names that the root of the crate exports, and those that it exports for C."""
    paths = USED.findall((CRATES / crate / "src" / "lib.rt").read_text())
    for_c = {name for file in (CRATES / crate / "src").glob("*.rt") for name in FOR_C.findall(file.read_text())}
    return for_c | {name for path in paths for name in re.findall(r"(\w+)(?=\s*(?:[,}]|$))", path)}


def calls_in(text):
    """The public calls of a source: functions, and methods and traits with their type."""
    owner, call = None, FUNCTION
    for line in text.split("#[cfg(test)]\nmod tests")[0].splitlines():
        if line.startswith("impl"):
            trait, owner = IMPL.match(line).groups()
            call = None if trait else METHOD
            if trait and trait not in UNTOLD:
                yield owner, SHORT.get(trait, trait)
        elif TRAIT.match(line):
            owner, call = TRAIT.match(line)[1], DECLARED
        elif call and call.match(line):
            yield owner, call.match(line)[1]
        if line in ("}", "{}") or (line.endswith("{}") and not line.startswith(" ")):
            owner, call = None, FUNCTION


def offered(crate):
    """The calls that another crate can name."""
    files = [file for file in (CRATES / crate / "src").rglob("*.rt") if file.stem != "tests" and "tests" not in file.parts]
    calls, names = {call for file in files for call in calls_in(file.read_text())}, exported(crate)
    return {(owner, name) for owner, name in calls if (owner or name) in names}


def told():
    """The rows of calls by crate."""
    return {crate: rows(section(page, "Calls")) for crate, page in pages().items()}


def each_row():
    return [row for table in told().values() for row in table]


def words_of(text):
    return re.findall(r"`([^`]+)`", text)


def named(cell):
    """The calls of a row: `function`, `function`; `Type`, `Type`: `method`, `Trait`."""
    for part in cell.split("; "):
        front, colon, back = part.partition(": ")
        owners, calls = (words_of(front), back) if colon else ([None], front)
        yield from ((owner, name) for owner in owners for name in words_of(calls))


def in_order(calls):
    return sorted((owner or "", name) for owner, name in calls)


class Calls(unittest.TestCase):
    maxDiff = None

    def test_each_call_of_a_library_has_one_row(self):
        for crate in libraries():
            with self.subTest(crate):
                calls = [call for row in told()[crate] for call in named(row[0])]
                self.assertEqual(in_order(calls), in_order(offered(crate)))

    def test_no_cell_is_empty(self):
        for row in each_row():
            self.assertEqual([bool(cell) for cell in row], [True] * 5, row)

    def test_the_rows_that_are_told_to_test_a_call_are_there(self):
        there = {line.split(" ")[0] for line in (CRATES / "dnsv_rows" / "stdin").read_text().splitlines()}
        rows_told = {name for row in each_row() for part in ROWS.findall(row[4]) for name in words_of(part)}
        self.assertEqual(rows_told - there, set())


if __name__ == "__main__":
    unittest.main()
