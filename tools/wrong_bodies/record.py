"""What was told of wrong bodies before: in a crate's file wrong-bodies/refused a line for each that was refused, with
its name and the commit of the crates that it was refused over."""

from __future__ import annotations

from pathlib import Path

from .changed import Unknown, told

FOLDERS = ("must-fail", "wrong-bodies")


def commit_of(tree: Path) -> str | None:
    """The last commit that changed the crates; `None` where there is none, or what they have isn't committed."""
    paths = ("--", "crates", ":(exclude,glob)crates/*/wrong-bodies/refused")
    try:
        is_committed = not told(tree, "status", "--porcelain", *paths)
        return told(tree, "log", "-1", "--format=%h", "--abbrev=10", *paths)[0] if is_committed else None
    except (Unknown, IndexError):
        return None


class Record:
    """A crate's file, to which a run over the commit writes; it writes nothing where that is `None`."""

    def __init__(self, tree: Path, crate: str, commit: str | None) -> None:
        self.tree = tree
        self.folder = tree / "crates" / crate
        self.file = self.folder / "wrong-bodies" / "refused"
        self.commit = commit

    def commits(self) -> dict[str, str]:
        """The commit of each body that was refused, by the body's name."""
        lines = self.file.read_text().splitlines() if self.file.is_file() else []
        return dict(line.split() for line in lines)

    def standing(self) -> set[str]:
        """The names of those whose edits are what they were when they were refused."""
        commits = self.commits()
        changed = {commit: self.changed_since(commit) for commit in set(commits.values())}
        return {name for name, commit in commits.items() if name not in changed[commit]}

    def changed_since(self, commit: str) -> set[str]:
        folders = [f":(glob)crates/*/{name}/*" for name in FOLDERS]
        own = f"crates/{self.folder.name}/"
        try:
            # An edit that only moved, as from one folder or crate to another, is what it was.
            moved = ("--find-renames=100%", "--diff-filter=r")
            files = told(self.tree, "diff", *moved, "--name-only", commit, "--", *folders)
            return {Path(file).stem for file in files if file.startswith(own)}
        except Unknown:
            # Of a commit that isn't here nobody knows what the edits were.
            return set(self.commits())

    def note(self, name: str, is_refused: bool) -> None:
        """Writes what is told of a body now, and takes those out that are no more."""
        if not self.commit:
            return
        commits = {other: commit for other, commit in self.commits().items() if other != name and self.has(other)}
        if is_refused:
            commits[name] = self.commit
        self.file.parent.mkdir(exist_ok=True)
        self.file.write_text("".join(f"{name} {commit}\n" for name, commit in sorted(commits.items())))

    def has(self, name: str) -> bool:
        return any((self.folder / folder / f"{name}.edit").is_file() for folder in FOLDERS)
