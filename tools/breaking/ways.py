"""The ways of docs/CAPTURING.md to a capture of an incident, and what dnssec_check-judge says of it."""

from __future__ import annotations

import sys
from pathlib import Path
from typing import Callable

from .incidents import INCIDENTS, Incident
from .processes import captured, ran
from .servers import RESOLVER, resolver
from .zones import PARENT, PARENT_SERVER

TOOLS = Path(__file__).resolve().parent.parent
OF_SERVERS = f"port 53 and not host {RESOLVER}"


def by_delv(incident: Incident, folder: Path, name: str) -> list[str]:
    """What delv asks a resolver with the flag CD."""
    with captured(folder / f"{name}.pcap", f"port 53 and host {RESOLVER}"), resolver(folder):
        ran(delv(incident, "+cd"), folder, is_checked=False)
    return [f"{name}.pcap"]


def delv(incident: Incident, *options: str) -> list[str]:
    return ["delv", f"@{RESOLVER}", "-a", "delv.anchors", f"+root={PARENT}", *options, incident.question, "A"]


def by_resolver(incident: Incident, folder: Path, name: str) -> list[str]:
    """What a validating resolver asks the servers."""
    with captured(folder / f"{name}.pcap", OF_SERVERS), resolver(folder):
        ran(["dig", f"@{RESOLVER}", "+tries=1", "+time=20", incident.question, "A"], folder, is_checked=False)
    return [f"{name}.pcap"]


def by_dnsviz(incident: Incident, folder: Path, name: str) -> list[str]:
    """What dnsviz asks the servers."""
    with open(folder / f"{name}.json", "w", encoding="utf-8") as file:
        file.write(probe(incident, folder))
    return [f"{name}.json"]


def probe(incident: Incident, folder: Path) -> str:
    words = ["-A", "-R", "A", "-a", PARENT, "-x", f"{PARENT}+:ns.{PARENT}={PARENT_SERVER}", incident.question]
    text = ran(["dnsviz", "probe", *words], folder, is_checked=False)
    return text[text.index("{") :] if "{" in text else "{}"


WAYS: dict[str, Callable[[Incident, Path, str], list[str]]] = {
    "delv +cd": by_delv,
    "the resolver": by_resolver,
    "dnsviz probe": by_dnsviz,
}


def tool(name: str, *words: str) -> list[str]:
    return [sys.executable, str(TOOLS / name), *words]


def judged(incident: Incident, folder: Path, way: str) -> tuple[str, list[str]]:
    """What the capture tool tells, and the lines of judge, of a capture that is made in this way."""
    name = f"{INCIDENTS.index(incident):02}-{way.split()[0]}-{way.split()[-1]}"
    files = WAYS[way](incident, folder, name)
    told = ran(tool("capture", *files, "--output", f"{name}.cap"), folder, is_checked=False)
    words = [f"{name}.cap", f"{incident.question}/A", "--anchors", f"{PARENT}.ds"]
    return told, ran(tool("judge", *words), folder, is_checked=False).splitlines()
