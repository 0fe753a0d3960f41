"""What other programs say of a zone that has something odd, and don't of its twin that hasn't."""

from __future__ import annotations

import json
import re
import shutil
from concurrent.futures import ThreadPoolExecutor
from typing import Any, Callable, Iterator

from breaking.processes import ran
from breaking.zones import PARENT, Room

from .cases import BESIDE, Case
from .signing import SERVER, Made

AT_ONCE = 3
NUMBER = re.compile(r"\b\d+\b")
OF_LOOPBACK = "PRIVATE_IP"
OF_VERIFIED = re.compile(r"[1-9]\d* (?:stand-by|revoked)|.*\b(?:[Mm]issing|[Bb]ad|failed|broken|not signed)\b.*")
UNVERIFIED = "cannot verify signature, reason unknown"
ODD_LEVELS = ("WARNING", "ERROR", "CRITICAL", "NOTICE")
Told = list[str]


def of_dnsviz(room: Room, made: Made) -> Told:
    """The codes of its warnings and errors."""
    name, kind = made.asked
    words = ["-A", "-R", kind, "-a", PARENT, "-x", f"{PARENT}+:ns.{PARENT}={SERVER}", name]
    probe = ran(["dnsviz", "probe", *words], room.folder, is_checked=False)
    printed = ran(["dnsviz", "grok", "-l", "warning"], room.folder, given=probe[probe.find("{") :], is_checked=False)
    place = printed.find("{")
    found = json.JSONDecoder().raw_decode(printed, place)[0] if place >= 0 else {}
    return [code for code in codes(found) if not code.endswith(OF_LOOPBACK)]


def codes(value: Any) -> Iterator[str]:
    if isinstance(value, dict):
        if "code" in value:
            yield value["code"]
        value = list(value.values())
    for each in value if isinstance(value, list) else ():
        yield from codes(each)


def of_zonemaster(room: Room, made: Made) -> Told:
    """The tags of its tests of DNSSEC, from a notice on."""
    ds = [",".join(words.split()[-4:]) for words in made.ds]
    given = [word for each in ds for word in ("--ds", each)]
    words = ["--test", "dnssec", "--json", "--no-ipv6", "--ns", f"ns.{made.name}/{SERVER}", *given, made.name]
    printed = ran(["zonemaster-cli", *words], room.folder, is_checked=False)
    place = printed.find("[")
    try:
        found = json.JSONDecoder().raw_decode(printed, place)[0] if place >= 0 else []
    except ValueError:
        return []
    return [each["tag"] for each in found if each.get("level") in ODD_LEVELS]


def of_verify(room: Room, made: Made) -> Told:
    printed = ran(["dnssec-verify", "-o", made.name, f"{made.name}.served"], room.folder, is_checked=False)
    return OF_VERIFIED.findall(printed)


def of_validns(room: Room, made: Made) -> Told:
    words = ["validns", "-p", "all", "-z", made.name, f"{made.name}.served"]
    lines = [line.partition(": ")[2] for line in ran(words, room.folder, is_checked=False).splitlines()]
    return [line for line in lines if not line.endswith(UNVERIFIED)]  # as each is of an algorithm that it can't verify


def of_ldns(room: Room, made: Made) -> Told:
    return ran(["ldns-verify-zone", f"{made.name}.served"], room.folder, is_checked=False).splitlines()


OTHERS: dict[str, Callable[[Room, Made], Told]] = {
    "dnsviz": of_dnsviz,
    "zonemaster-cli": of_zonemaster,
    "dnssec-verify": of_verify,
    "validns": of_validns,
    "ldns-verify-zone": of_ldns,
}


def told(room: Room, made: Made) -> list[Told]:
    """What each says, without what is of this zone alone."""
    return [[plain(made, text) for text in tell(room, made)] for name, tell in OTHERS.items() if shutil.which(name)]


def plain(made: Made, text: str) -> str:
    return NUMBER.sub("N", text.strip().replace(made.name, "ZONE"))


def table(room: Room, zones: list[tuple[Case, Made]]) -> Iterator[str]:
    """The lines of a table of Markdown."""
    names = [name for name in OTHERS if shutil.which(name)]
    with ThreadPoolExecutor(AT_ONCE) as pool:
        found = dict(zip((made.name for _, made in zones), pool.map(lambda each: told(room, each[1]), zones)))
    yield f"| The zone | {' | '.join(f'`{name}`' for name in names)} |"
    yield f"|{'---|' * (1 + len(names))}"
    for name, of_odd in found.items():
        if not name.startswith(BESIDE):
            of_twin = found[BESIDE + name]
            cells = [
                ", ".join(dict.fromkeys(one for one in odd if one not in twin)) for odd, twin in zip(of_odd, of_twin)
            ]
            yield f"| `{name.split('.')[0]}` | {' | '.join(cells)} |"
