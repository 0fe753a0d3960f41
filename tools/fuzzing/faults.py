"""What of a reader's end is a fault, and the input that leads to it: made smaller, and kept."""

from __future__ import annotations

import hashlib
import traceback
from pathlib import Path
from typing import NamedTuple, Optional

from .limits import TooLong, processor_seconds, within_time
from .target import Broken, Desk, Ended, Target, kind_of

SECONDS_TO_SHRINK = 20


class Fault(NamedTuple):
    """What came of an input, with where it came from: of one kind are those that fail at the same place."""

    kind: str
    text: str


def tried(target: Target, octets: bytes, desk: Desk) -> tuple[Optional[Ended], Optional[Fault]]:
    """How the reader ended, or the fault. An end that is none of the reader's own is one, whatever it is."""
    try:
        with within_time():
            return target.run(octets, desk), None
    except (Exception, TooLong, SystemExit) as fault:  # pylint: disable=broad-exception-caught
        return None, fault_of(fault)


def fault_of(fault: BaseException) -> Fault:
    place = traceback.extract_tb(fault.__traceback__)[-1]
    at = "" if isinstance(fault, TooLong) else f" at {Path(place.filename).name} {place.name}"
    text = "".join(traceback.format_exception(type(fault), fault, fault.__traceback__, chain=False))
    what = kind_of(str(fault).split(": ", maxsplit=1)[0]) if isinstance(fault, Broken) else ""
    return Fault(f"{type(fault).__name__}{at} {what}".rstrip(), text)


def shrunk(target: Target, octets: bytes, kind: str, desk: Desk) -> bytes:
    """A smaller input with a fault of the same kind: pieces are left out while that lasts, each half as long as the
    ones before."""
    end, size = processor_seconds() + SECONDS_TO_SHRINK, max(1, len(octets) // 2)
    while size and processor_seconds() < end:
        smaller = without_a_piece(target, octets, size, kind, desk, end)
        size = size if smaller is not None else size // 2
        octets = octets if smaller is None else smaller
    return octets


def without_a_piece(target: Target, octets: bytes, size: int, kind: str, desk: Desk, end: float) -> Optional[bytes]:
    """The first that still fails; None where none does within the time."""
    for front in range(0, len(octets), size):
        smaller = octets[:front] + octets[front + size :]
        desk.taken = 0  # so that the program is asked
        fault = tried(target, smaller, desk)[1]
        if fault and fault.kind == kind:
            return smaller
        if processor_seconds() > end:
            break
    return None


def saved(octets: bytes, folder: Path, name: str) -> Path:
    """Where the input is kept."""
    folder.mkdir(parents=True, exist_ok=True)
    path = folder / f"{name}-{hashlib.sha256(octets).hexdigest()[:12]}"
    path.write_bytes(octets)
    return path
