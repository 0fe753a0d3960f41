"""What other programs say of an incident: of each the line that says most, by one rule for all incidents."""

from __future__ import annotations

import json
from pathlib import Path
from typing import Any, Callable, Iterator

from .incidents import Incident
from .processes import ran
from .servers import RESOLVER
from .ways import delv, probe
from .zones import PARENT

OF_LOOPBACK = "PRIVATE_IP"  # the end of what dnsviz complains of where addresses aren't the Internet's


def first(lines: list[str], front: str) -> str:
    """The first line that begins so; the last where none does."""
    told = [line for line in lines if line.strip()]
    return next((line for line in told if line.startswith(front)), (told or [""])[-1]).strip()


def of_delv(incident: Incident, folder: Path) -> str:
    """The first of its complaints."""
    return first(ran(delv(incident, "+cd"), folder, is_checked=False).splitlines(), ";; ").removeprefix(";; ").strip()


def of_unbound_host(incident: Incident, folder: Path) -> str:
    """Why validation failed, or what it holds the answer for."""
    words = ["unbound-host", "-v", "-C", "unbound.conf", "-t", "A", incident.question]
    return first(ran(words, folder, is_checked=False).splitlines(), "validation failure")


def of_drill(incident: Incident, folder: Path) -> str:
    """What it says below the tree of the signatures that it chased, or that it could not chase them."""
    words = ["drill", "-D", "-S", "-o", "CD", "-k", f"{PARENT}.key", f"@{RESOLVER}", incident.question, "A"]
    return first(ran(words, folder, is_checked=False).splitlines(), "No trusted keys found").removeprefix(";; ").strip()


def of_dnsviz(incident: Incident, folder: Path) -> str:
    """The first of its errors."""
    printed = ran(["dnsviz", "grok", "-l", "error"], folder, given=probe(incident, folder), is_checked=False)
    place = printed.find("{")
    if place < 0:
        return first(printed.splitlines(), "")
    try:
        return next(descriptions(json.JSONDecoder().raw_decode(printed, place)[0]), "no error")
    except ValueError:
        return "no JSON"


def descriptions(value: Any) -> Iterator[str]:
    """Those of all errors that aren't a matter of loopback, in their order."""
    if isinstance(value, list):
        for each in value:
            yield from descriptions(each)
    elif isinstance(value, dict):
        if "description" in value and not value["code"].endswith(OF_LOOPBACK):
            yield value["description"]
        for each in value.values():
            yield from descriptions(each)


OTHERS: dict[str, Callable[[Incident, Path], str]] = {
    "delv": of_delv,
    "unbound-host": of_unbound_host,
    "drill": of_drill,
    "dnsviz": of_dnsviz,
}
