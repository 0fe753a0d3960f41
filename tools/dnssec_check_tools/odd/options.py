"""The options of what is odd."""
import argparse
from typing import FrozenSet, Optional

from .found import DAY, DAYS, Wish
from .kinds import kinds

DAYS_MOST = 9999


def add_odd(parser: argparse.ArgumentParser) -> None:
    parser.add_argument("--warn", action="store_true", help="say what is odd of what is proved, in lines ODD")
    parser.add_argument(
        "--soon", type=days, default=DAYS, metavar="DAYS", help=f"of --warn: how near an end is odd; {DAYS}"
    )
    parser.add_argument(
        "--fail-on",
        type=words,
        metavar="WORD,..",
        help="end with status 8 where a secure verdict has something odd of these kinds, which the manual page names",
    )


def days(text: str) -> int:
    if text.isascii() and text.isdigit() and len(text) <= 4:
        return int(text)
    raise ValueError


def words(text: str) -> FrozenSet[str]:
    """The kinds that are named, each of which has to be one."""
    found = text.split(",")
    strangers = [word for word in found if word not in kinds()]
    if strangers:
        raise argparse.ArgumentTypeError(f"{strangers[0]!r} is no kind of what is odd: {', '.join(kinds())}")
    return frozenset(found)


def wish_of(options: argparse.Namespace) -> Optional[Wish]:
    """None where nothing is to be looked for."""
    if not (options.warn or options.fail_on or options.html or options.tsv or options.jsonl):
        return None
    return Wish(options.soon * DAY, options.fail_on or frozenset())
