"""Timelines as the program tells them, and what `check` and `explain` say at a moment of one."""
import itertools
import json
from typing import NamedTuple

from dnssec_check_tools.timelines.spans import HALF, ROUND

PROVED_BY = ("trusted", "signed")
EDGES = ("ends", "begins")
# What a name comes to, from the best to the worst.
CASES = ("SecureAnswer", "SecureAlias", "SecureNoName", "SecureNoData", "Insecure", "Pending", "Bogus", "Indeterminate")


class Stay(NamedTuple):
    """An interval: its moments, what is said, and the signatures that derive it, as pairs of numbers."""

    first: int
    last: int
    words: str
    by: list


class Told(NamedTuple):
    """A timeline: its intervals, and the lines in front of each but the first."""

    stays: list
    edges: list

    def at(self, moment):
        return next(stay for stay in self.stays if stay.first <= moment <= stay.last)


def told_of(text, value):
    """The timeline of a text and of its object."""
    stays, edges = [], []
    for line in text.splitlines()[1:]:
        fields = line.split(" ")
        if fields[0] in EDGES:
            edges[-1].append(fields)
            continue
        by = value["intervals"][len(stays)]["by"]
        stays.append(Stay(int(fields[0]), int(fields[1]), " ".join(fields[2:]), [(each["rrset"], each["signature"]) for each in by]))
        edges.append([])
    return Told(stays, edges[:-1])


def words_of(status, output, errors):
    """What a timeline says of a moment, by the text of `check` at it."""
    if status == 7:
        return errors.rstrip("\n")
    first, *lines = (line for line in output.splitlines() if not line.startswith("todo "))
    return " ".join([first.split(" ")[0], *lines])


def by_of(output):
    """The signatures of the lines `trusted` and `signed` of an explanation."""
    found = set()
    for line in output.splitlines():
        fields = line.split(" ")
        if fields[0] in PROVED_BY:
            place = fields.index("rrset")
            found.add((int(fields[place + 1]), int(fields[place + 3])))
    return sorted(found)


def way_of(words):
    """The RRsets of the aliases that the words show, and what the name behind them comes to. Of a way that is refused none
    are shown, and at its first name is an alias."""
    kind, *fields = words.split(" ")
    links = [int(fields[place + 3]) for place, field in enumerate(fields) if field == "alias"]
    return links, "SecureAlias" if kind == "refused" else kind


def turn_of(before, behind):
    """`ends`, where the name at which the ways of both words part, or the last of both, comes to something worse behind,
    `begins`, where it comes to something better, and else None."""
    ways = [way_of(before), way_of(behind)]
    shared = sum(1 for _ in itertools.takewhile(lambda pair: pair[0] == pair[1], zip(*(links for links, _ in ways))))
    case, other = (CASES.index("SecureAlias" if len(links) > shared else kind) for links, kind in ways)
    if case == other:
        return None
    return "ends" if other > case else "begins"


def is_valid(times, moment):
    """Whether a signature with this inception and expiration is valid (RFC 4034 3.1.5, by RFC 1982)."""
    return (moment - times[0]) % ROUND < HALF and (times[1] - moment) % ROUND < HALF


def as_object(output):
    return json.loads(output)
