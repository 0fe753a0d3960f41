"""The pages of the crates' guarantees, and what stands in their tables."""
import re

from tool import TOOLS

CRATES = TOOLS.parent / "crates"


def pages():
    """The page of each crate that has one."""
    return {path.parent.name: path.read_text() for path in sorted(CRATES.glob("*/GUARANTEES.md"))}


def section(page, title):
    """What stands below a heading, up to the next."""
    return page.split(f"\n## {title}\n")[1].split("\n#")[0]


def rows(text):
    """The rows of a table, each as its cells, without the head."""
    lines = [line for line in text.splitlines() if line.startswith("| ")][1:]
    return [[cell.strip() for cell in line.strip("|").split("|")] for line in lines]


def numbers_of(field):
    """The numbers of a table's field such as `201 to 207` or `401, 402`."""
    found = [int(number) for number in re.findall(r"\b\d+\b", field)]
    return range(found[0], found[1] + 1) if " to " in field else found
