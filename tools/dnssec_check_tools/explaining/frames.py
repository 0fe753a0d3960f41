"""In which zone's frame an RRset stands that no signature places, and what stands under what in a picture where no edge
says so: the chain is told from above."""
from itertools import groupby
from typing import Dict, List, Optional

from .chain import FAILS, MISSING, QUESTION, UNDER, Box, Chain, Key
from .explanation import Explanation
from .values import DNSKEY, DS


def is_at_or_below(name: str, zone: str) -> bool:
    return zone == "." or f".{name}".endswith(f".{zone}")


def zone_above(name: str, zones: List[str]) -> Optional[str]:
    """Of these zones the closest at or above the name; None where none is."""
    above = [zone for zone in zones if is_at_or_below(name, zone)]
    return max(above, key=len) if above else None


def signers_of(told: Explanation) -> Dict[int, str]:
    """The zones of RRsets by their numbers: those that sign them, of others the closest that lines name."""
    zones = sorted({line[name] for line in told.lines for name in ("zone", "signer") if name in line})
    signers = {line["rrset"]: line["signer"] for line in told.lines if {"rrset", "signer"} <= set(line)}
    for line in told.of("reason"):
        if line["word"] == "unsigned":
            others = [zone for zone in zones if zone != line["owner"] or line["type"] != DS]
            zone = line["owner"] if line["type"] == DNSKEY else zone_above(line["owner"], others)
            signers.update({line["rrset"]: zone} if zone else {})
    return signers


def lay_under(chain: Chain, last: Optional[Key]) -> None:
    """Under the last link of the chain stand the breaks, those of a zone under those of the one before, and under what
    breaks above a zone stands its frame, if no edge leads there. The question stands under all."""
    breaks = [box for box in chain.boxes.values() if box.state in (FAILS, MISSING) and box.key != QUESTION]
    lay_breaks(chain, breaks, last)
    for zone, boxes in chain.zones().items():
        above = [box.key for box in breaks if box.zone != zone and box.zone and is_at_or_below(zone, box.zone)]
        lay_frame(chain, boxes, above[-1] if above else last)
    if last:
        chain.join(last, QUESTION, UNDER)


def lay_breaks(chain: Chain, breaks: List[Box], last: Optional[Key]) -> None:
    heads = {each.head for each in chain.edges.values()}
    for _, boxes in groupby(breaks, key=lambda box: box.zone):
        group = [box.key for box in boxes]
        for key in group:
            if last and key not in heads and key != last:
                chain.join(last, key, UNDER)
        last = group[-1]


def lay_frame(chain: Chain, boxes: List[Box], above: Optional[Key]) -> None:
    """Under what is above a frame stand the boxes in it to which nothing leads, where nothing leads into it."""
    keys, heads = {box.key for box in boxes}, {each.head for each in chain.edges.values()}
    is_led_to = any(each.head in keys and each.tail not in keys for each in chain.edges.values())
    for box in boxes:
        if above and above not in keys and not is_led_to and box.key not in heads:
            chain.join(above, box.key, UNDER)
