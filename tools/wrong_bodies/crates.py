"""The crates of the tree, as crates.txt has them: each with those that it stands on, lowest first."""

from __future__ import annotations

from pathlib import Path

TREE = Path(__file__).resolve().parent.parent.parent


def below(tree: Path = TREE) -> dict[str, list[str]]:
    """Each crate with the crates and the libraries of the kit that it uses, lowest first.

    A second word before the colon, as of a static library, is its kind.
    """
    lines = (tree / "crates.txt").read_text().splitlines()
    parted = [line.partition(":") for line in lines if ":" in line and not line.startswith("#")]
    return {names.split()[0]: others.split() for names, _, others in parted}


def all_below(crate: str, used: dict[str, list[str]]) -> list[str]:
    """The crates below this one, each behind those that it stands on."""
    found: list[str] = []
    for other in used[crate]:
        if other in used:
            found += [each for each in (*all_below(other, used), other) if each not in found]
    return found
