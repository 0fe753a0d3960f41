"""The cases of examples/: folders of files, command lines over them, and what has to come of each.

A line of a case's file `commands` has the exit status that has to come and the words of the command line. What has
to be printed is in files that are named by the subcommand: `check.stdout`, `check.stderr`, `check.json` for
`check --json`, and `list-all.stdout` for `list --all`. Where a file isn't there, nothing has to be printed.
"""
import pathlib
import re
from dataclasses import dataclass

EXAMPLES = pathlib.Path(__file__).resolve().parent.parent / "examples"
LINE = re.compile(r"(\d+) (\S+(?: \S+)*)")
FILES = ("--capture", "--anchors", "--statements", "--answers", "--keys", "--macs", "--questions")
FORMS = ("--all", "--compact", "--kinds")


class WrongLine(ValueError):
    """A line of a file `commands` that is none."""


@dataclass(frozen=True)
class Example:
    """A command line of a case, and what has to come of it."""

    folder: pathlib.Path
    status: int
    words: tuple[str, ...]

    @property
    def is_json(self) -> bool:
        return "--json" in self.words

    @property
    def asks_many(self) -> bool:
        return "--questions" in self.words

    @property
    def stem(self) -> str:
        """What the files are named by that have what it prints."""
        return self.words[0] + "".join(form[1:] for form in FORMS if form in self.words)

    @property
    def name(self) -> str:
        """As `bind-www-a/check` and `bind-www-a/check.json`."""
        return f"{self.folder.name}/{self.stem}" + (".json" if self.is_json else "")

    @property
    def output_file(self) -> pathlib.Path:
        return self.folder / (self.stem + (".json" if self.is_json else ".stdout"))

    @property
    def errors_file(self) -> pathlib.Path:
        return self.folder / f"{self.stem}.stderr"

    @property
    def output(self) -> bytes:
        return octets_of(self.output_file)

    @property
    def errors(self) -> bytes:
        return octets_of(self.errors_file)

    @property
    def files(self) -> dict[str, pathlib.Path]:
        """The paths of its files by their options, `capture` and others."""
        pairs = zip(self.words, self.words[1:])
        return {word[2:]: (self.folder / path).resolve() for word, path in pairs if word in FILES}


def octets_of(path: pathlib.Path) -> bytes:
    return path.read_bytes() if path.exists() else b""


def examples_of(folder: pathlib.Path) -> list[Example]:
    """Those of a case, in the order of its lines."""
    path, found = folder / "commands", []
    for number, line in enumerate(path.read_text(errors="surrogateescape").splitlines(), 1):
        parts = LINE.fullmatch(line)
        if parts is None:
            raise WrongLine(f"{path}: line {number} isn't an exit status and words, parted by one blank each")
        found.append(Example(folder, int(parts[1]), tuple(parts[2].split(" "))))
    return found


def examples() -> list[Example]:
    """Those of all cases."""
    folders = sorted(path for path in EXAMPLES.iterdir() if path.is_dir())
    return [example for folder in folders for example in examples_of(folder)]


def named(name: str) -> list[Example]:
    """Those of the case of this name, or the one that has it."""
    found = [example for example in examples() if name in (example.folder.name, example.name)]
    if not found:
        raise LookupError(f"there is no case {name}, and no command line of one")
    return found
