"""Tests of the pages: a file that a page links or names is there, and what GUARANTEES.md names stands in the code.
Files move and names change, and no check looks at pages."""
import re
import unittest

from pages import guarantees
from tool import TOOLS

ROOT = TOOLS.parent
LINK = re.compile(r"\]\(([^)#:]+)(?:#[^)]*)?\)|(?:src|srcset)=\"([^\":]+)\"")
PATH = re.compile(r"`(specs/[\w/]+\.antt)`")
NAME = re.compile(r"`(\w+\.antt)`")
ITEM = re.compile(r"`([A-Za-z_][\w:]*)`")
WORD = re.compile(r"[A-Za-z_]\w*")


def pages():
    return [ROOT / "README.md", *sorted((ROOT / "docs").rglob("*.md")), *sorted((ROOT / "crates").glob("*/*.md"))]


def definitions(crates="*"):
    """The files of definitions and lemmas, by their paths within their crates."""
    files = (ROOT / "crates").glob(f"{crates}/*/**/*.antt")
    return {"/".join(file.relative_to(ROOT / "crates").parts[1:]) for file in files if "out" not in file.parts}


def words_of_the_code():
    files = [file for ending in ("rt", "antt") for file in (ROOT / "crates").glob(f"**/*.{ending}") if "out" not in file.parts]
    return {word for file in files for word in WORD.findall(file.read_text())}


class Named(unittest.TestCase):
    def test_each_file_that_a_page_links_is_there(self):
        lost = {(page.name, path) for page in pages() for found in LINK.findall(page.read_text())
                for path in filter(None, found) if not (page.parent / path).exists()}
        self.assertEqual(lost, set())

    def test_GUARANTEES_links_the_page_of_each_crate_with_its_sections(self):
        text = (ROOT / "docs" / "GUARANTEES.md").read_text()
        told = {crate: titles.split("; ") for crate, titles in
                re.findall(r"^\| \[`\w+`\]\(\.\./crates/(\w+)/GUARANTEES\.md\) \| (.*) \|$", text, re.MULTILINE)}
        self.assertEqual(told, {crate: titles_of(page) for crate, page in guarantees.pages().items()})

    def test_each_path_that_a_page_names_is_there(self):
        there = definitions()
        lost = {(page.name, path) for page in pages() for path in PATH.findall(page.read_text()) if path not in there}
        self.assertEqual(lost, set())

    def test_each_definition_that_the_page_of_a_crate_names_is_its_own(self):
        for crate, text in guarantees.pages().items():
            with self.subTest(crate):
                self.assertEqual(set(PATH.findall(text)) - definitions(crate), set())

    def test_each_name_of_a_file_that_a_page_names_is_there(self):
        there = {path.rsplit("/", 1)[1] for path in definitions()}
        lost = {(page.name, name) for page in pages() for name in NAME.findall(page.read_text()) if name not in there}
        self.assertEqual(lost, set())

    def test_each_item_that_GUARANTEES_names_stands_in_the_code(self):
        there = words_of_the_code()
        for page in (page for page in pages() if page.name == "GUARANTEES.md"):
            with self.subTest(str(page.relative_to(ROOT))):
                items = ITEM.findall(page.read_text())
                self.assertEqual({part for item in items for part in item.split("::") if part} - there, set())


def titles_of(page):
    """What the page of a crate is on: its title without the crate, and its sections but for those that each has."""
    titles = re.findall(r"^#+ (.*?)(?: \(.*\))?$", page, re.MULTILINE)
    return [title for title in titles if title not in ("Promises", "Calls")]


if __name__ == "__main__":
    unittest.main()
