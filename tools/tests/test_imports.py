"""Tests of what crates import of one another: crates.txt lists those that a crate's files name and no others, and each
module and name that is imported is there. A check finds what is wrong there too, but minutes later."""
import pathlib
import re
import tempfile
import unittest

from tool import TOOLS
from wrong_bodies.crates import below

ROOT = TOOLS.parent
COMMENT = re.compile(r"(?:^|(?<=\s))(?://|--).*$", re.MULTILINE)
NAMED = re.compile(r"\b(\w+)(?:::|\.)")
IMPORT = re.compile(
    r"^[ \t]*(?:pub )?(?:unfoldable )?(?:ghost )?use\s+Rattle\.(\w+)\.((?:specs|proofs)\.[\w.\-]+?)"
    r"(?:\.\{([^}]*)\}|(?: as \w+)?);?[ \t]*$",
    re.MULTILINE,
)
# Modules that a check makes of the functions' contracts, of which there is no file.
MADE = {"declared", "Goals", "Given", "Calls"}


def sources(crate):
    files = [file for folder in ("src", "specs", "proofs") for file in (crate / folder).rglob("*")]
    return [file for file in files if file.suffix in (".rt", ".antt")]


def unlisted(tree):
    """The crates with what crates.txt lists of them wrongly: what no file names, and what it lacks."""
    crates = below(tree)
    for crate, listed in crates.items():
        texts = [COMMENT.sub("", file.read_text()) for file in sources(tree / "crates" / crate)]
        named = {name for text in texts for name in NAMED.findall(text)} - {crate}
        yield from ((crate, name) for name in sorted((named ^ set(listed)) & crates.keys()))


def module(crate, path):
    """The file of the longest module that the path begins with, and what follows of the path."""
    parts = path.split(".")
    for end in range(len(parts), 1, -1):
        file = crate.joinpath(*parts[:end]).with_suffix(".antt")
        if file.is_file():
            return file, parts[end:]
    return None, parts


def is_there(name, text):
    """Whether the module defines the name or passes it on."""
    word = rf"{re.escape(name)}(?![\w'\-])"
    front = r"(?:pub |abbrev |unfoldable |opaque |abstract |data |record )*"
    return re.search(rf"^\s*{front}{word}|^pub use .*(?<![\w\-]){word}", text, re.MULTILINE)


def is_lost(crate, path, names):
    """Whether the module, or one of the names that are imported from it, isn't there."""
    if not crate.is_dir() or MADE & set(path.split(".")):
        return False
    file, rest = module(crate, path)
    asked = [name.split(" as ")[0].strip() for name in names.split(",")] if names else rest[:1]
    return not file or any(name and not is_there(name, file.read_text()) for name in asked)


def lost(tree):
    """The imports of what isn't there, each with the file that it stands in."""
    for file in [file for crate in below(tree) for file in sources(tree / "crates" / crate)]:
        for crate, path, names in IMPORT.findall(file.read_text()):
            if is_lost(tree / "crates" / crate, path, names):
                yield file.relative_to(tree).as_posix(), path


class Imports(unittest.TestCase):
    def test_crates_txt_lists_what_files_name(self):
        self.assertEqual(list(unlisted(ROOT)), [])

    def test_each_module_and_name_that_is_imported_is_there(self):
        self.assertEqual(list(lost(ROOT)), [])


class Planted(unittest.TestCase):
    def tree(self, listed, text):
        """A tree of two crates, of which the lower one defines `Sum` and `IsZero`."""
        room = tempfile.TemporaryDirectory()
        self.addCleanup(room.cleanup)
        tree = pathlib.Path(room.name)
        (tree / "crates.txt").write_text(f"low:\nhigh: {listed}\n")
        for crate, name, words in (("low", "Sums", "pub Sum : Type\npub abbrev IsZero : Type\n"), ("high", "Uses", text)):
            (tree / "crates" / crate / "specs").mkdir(parents=True)
            (tree / "crates" / crate / "specs" / f"{name}.antt").write_text(words)
        return tree

    def test_a_crate_that_is_named_must_be_listed(self):
        self.assertEqual(list(unlisted(self.tree("", "use Rattle.low.specs.Sums.{Sum}\n"))), [("high", "low")])

    def test_a_crate_that_is_not_named_must_not_be_listed(self):
        self.assertEqual(list(unlisted(self.tree("low", "-- low.specs\n"))), [("high", "low")])

    def test_a_module_that_moved_is_lost(self):
        tree = self.tree("low", "use Rattle.low.specs.Totals.{Sum}\n")
        self.assertEqual(list(lost(tree)), [("crates/high/specs/Uses.antt", "specs.Totals")])

    def test_a_name_that_moved_is_lost(self):
        tree = self.tree("low", "use Rattle.low.specs.Sums.{Sum,\n  IsOne}\n")
        self.assertEqual(list(lost(tree)), [("crates/high/specs/Uses.antt", "specs.Sums")])

    def test_what_is_there_is_found(self):
        tree = self.tree("low", "use Rattle.low.specs.Sums.{Sum, IsZero}\nuse Rattle.low.specs.Sums.Sum\n")
        self.assertEqual([*lost(tree), *unlisted(tree)], [])
