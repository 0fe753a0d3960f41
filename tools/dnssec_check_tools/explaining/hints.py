"""What many reasons together point to: a clock that is wrong, or signatures that nobody asked for."""
from typing import List, Optional, Tuple

from ..asking.moments import moment_text
from .explanation import Explanation, Line
from .said import WHY, Said
from .values import DNSKEY, owned

# What is said where time is what fails of all signatures.
CLOCKS = {
    "not-yet": "all signatures on the way begin later: is the clock right?",
    "expired": "all signatures on the way ended before: is the clock right, and is the capture of that time?",
}
STRIPPED = "from here on nothing has a signature: was it asked with DO, and does all that lies between pass that on?"
STRIPPED_LEAST = 2  # RRsets without a signature


def hints(told: Explanation) -> List[Said]:
    """A sentence where one cause is likely for all that fails."""
    return [said for said in (of_clock(told), of_stripping(told)) if said]


def of_clock(told: Explanation) -> Optional[Said]:
    """Where lines tell of a signature that isn't over, or has begun, the clock isn't what is wrong."""
    signatures = {place_of(line) for line in told.lines if "signature" in line}
    for word, text in CLOCKS.items():
        if signatures and signatures == {place_of(line) for line in told.of("reason") if line["word"] == word}:
            return Said(WHY, moment_text(told.now), text)
    return None


def place_of(line: Line) -> Tuple[int, int]:
    return line["rrset"], line["signature"]


def of_stripping(told: Explanation) -> Optional[Said]:
    """Where no line tells of a signature below the first RRset that has none, and that or another one are keys."""
    reasons = told.of("reason")
    lacking = [line for line in reasons if line["word"] == "unsigned"]
    is_signed = any("signer" in line for line in [*reasons, *told.of("follows")])
    has_keys = any(line["type"] == DNSKEY for line in lacking)
    if is_signed or not has_keys or len(lacking) < STRIPPED_LEAST or reasons[0] is not lacking[0]:
        return None
    return Said(WHY, owned(lacking[0]["owner"], lacking[0]["type"]), STRIPPED)
