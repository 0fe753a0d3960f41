"""A share of the jobs of each kind, chosen by a seed: the same one again by the same seed."""

from __future__ import annotations

import argparse
import random
from fractions import Fraction
from typing import Sequence, TypeVar

Job = TypeVar("Job")
WHOLE = Fraction(1)


def share_of(text: str) -> Fraction:
    """A share as the command line has it: `1/20`, `0.05`."""
    try:
        share = Fraction(text)
    except (ValueError, ZeroDivisionError):
        share = Fraction(0)
    if not 0 < share <= WHOLE:
        raise argparse.ArgumentTypeError(f"{text} is no share, such as 1/20")
    return share


def chosen(jobs: Sequence[Job], share: Fraction, seed: str) -> list[Job]:
    """So many of the jobs, at least one of them, in their order."""
    count = max(1, round(len(jobs) * share))
    places = random.Random(seed).sample(range(len(jobs)), min(count, len(jobs)))
    return [jobs[place] for place in sorted(places)]
