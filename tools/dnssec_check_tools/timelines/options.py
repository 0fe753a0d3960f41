"""The options of dnssec_check-judge that ask for timelines, and what is wrong with them."""
import argparse
from typing import Optional

from ..asking.faults import WrongLine
from ..asking.moments import seconds_of
from .spans import ROUND, Range, Wish

ALL = "--from, --to and --timeline"
# What goes without them, and why.
WITHOUT = {
    "skew": "which judge all moments",
    "zone": "of which each part of a transfer would have its own: ask captures by --every",
    "resume": "whose tables have other columns",
    "keys": "since a message signed by a shared key is taken within minutes: test it by --at",
    "warn": "since what is odd is odd at a moment: ask by --at",
    "fail_on": "since what is odd is odd at a moment: ask by --at",
}


def add_timeline(parser: argparse.ArgumentParser) -> None:
    parser.add_argument(
        "--from", dest="first", action="append", metavar="MOMENT", help="judge all moments from this on"
    )
    parser.add_argument("--to", dest="last", action="append", metavar="MOMENT", help="to this one; --at is what is now")
    parser.add_argument(
        "--timeline", action="store_true", help="judge all moments that the signatures of each capture span"
    )
    parser.add_argument(
        "--verbose", action="store_true", help="of a timeline: tell also where only other signatures take over"
    )


def fault_of_timeline(options: argparse.Namespace) -> Optional[str]:
    """What is wrong with the options together, None where nothing is."""
    if not (options.first or options.last or options.timeline):
        return "--verbose goes with --from and --to, or with --timeline" if options.verbose else None
    if bool(options.first) != bool(options.last):
        return "--from and --to go together"
    if options.first and options.timeline:
        return "--timeline goes without --from and --to: it takes the times of the signatures"
    for name in ("first", "last", "at"):
        if len(getattr(options, name) or ()) > 1:
            return f"{spelled(name)} is given twice" + (", and is what is now in a timeline" if name == "at" else "")
    for name, why in WITHOUT.items():
        if getattr(options, name):
            return f"--{name.replace('_', '-')} goes without {ALL}, {why}"
    return None


def spelled(name: str) -> str:
    return {"first": "--from", "last": "--to"}.get(name, f"--{name}")


def span_of(options: argparse.Namespace) -> Optional[Wish]:
    """The range that is asked for; None where no timeline is."""
    if options.first:
        span = Range(seconds_of(options.first[0], "--from"), seconds_of(options.last[0], "--to"))
        fault = fault_of(span)
        if fault:
            raise WrongLine(fault)
        return Wish(span, options.verbose)
    return Wish(None, options.verbose) if options.timeline else None


def fault_of(span: Range) -> Optional[str]:
    """What the program refuses by its 821."""
    if span.first > span.last:
        return "--from is later than --to"
    if span.last - span.first >= ROUND:
        return (
            "from --from to --to are 2^32 seconds or more (136 years), after which the times of signatures begin anew: "
            "ask for less"
        )
    return None
