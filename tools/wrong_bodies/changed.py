"""Which crates' wrong bodies a change can concern."""

from __future__ import annotations

import subprocess
from pathlib import Path

from .bodies import without_bodies


class Unknown(Exception):
    """There is no such commit."""


def changed_since(tree: Path, commit: str, below: dict[str, list[str]]) -> set[str]:
    """The crates to be tried again since the commit: those that changed, and those above one whose statements changed.
    A proof sees of another crate what it states, and never its bodies."""
    files = files_since(tree, commit)
    changed = {name for name in below if any(concerns_bodies(file) for file in of_crate(files, name))}
    restated = {name for name in below if any(restates(tree, commit, name, file) for file in of_crate(files, name))}
    for name, others in below.items():
        if restated & set(others):
            restated.add(name)
    return changed | restated


def files_since(tree: Path, commit: str) -> list[str]:
    return told(tree, "diff", "--name-only", commit, "--", "crates") + told(
        tree, "ls-files", "--others", "--exclude-standard", "crates"
    )


def told(tree: Path, *words: str) -> list[str]:
    ran = subprocess.run(
        ["git", *words], cwd=tree, stdout=subprocess.PIPE, stderr=subprocess.PIPE, text=True, check=False
    )
    if ran.returncode:
        raise Unknown(ran.stderr.strip().split("\n")[0])
    return ran.stdout.splitlines()


def of_crate(files: list[str], name: str) -> list[str]:
    """The files of the crate, by their paths in it."""
    top = f"crates/{name}/"
    return [file.removeprefix(top) for file in files if file.startswith(top)]


def concerns_bodies(file: str) -> bool:
    return (
        file.startswith(("src/", "specs/", "proofs/", "must-fail/", "wrong-bodies/"))
        and not is_test(file)
        and file != "wrong-bodies/refused"
    )


def is_test(file: str) -> bool:
    return file.endswith("/tests.rt") or "/tests/" in file


def restates(tree: Path, commit: str, name: str, file: str) -> bool:
    """Whether the change of the file can concern the crates above."""
    if file.startswith("specs/"):
        return True
    if not file.startswith("src/") or is_test(file):
        return False
    path = f"crates/{name}/{file}"
    now = (tree / path).read_text() if (tree / path).is_file() else ""
    return without_bodies(text_at(tree, commit, path)) != without_bodies(now)


def text_at(tree: Path, commit: str, path: str) -> str:
    ran = subprocess.run(
        ["git", "show", f"{commit}:{path}"],
        cwd=tree,
        stdout=subprocess.PIPE,
        stderr=subprocess.DEVNULL,
        text=True,
        check=False,
    )
    return "" if ran.returncode else ran.stdout
