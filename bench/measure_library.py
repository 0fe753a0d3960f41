#!/usr/bin/env python3
"""Measures how many captures are judged in a second of a processor: in process, by the library from C and from Python,
and by starting the program for each; and by getdns (Debian's libgetdns-dev) and dnspython, where they are there. The
capture is that of examples/bind-www-a, which has a signature for each of six RRsets. The time is that which the
processes had of a processor. It needs the library (make library), the built program (make), cc and
PYTHONPATH=tools:library/python.

exit status: 0, all is measured; 1, a run failed; 2, the command line is wrong; 130, it was interrupted.
"""

from __future__ import annotations

import os
import pathlib
import subprocess
import tempfile
import time
from typing import Callable, List, Sequence, Tuple

import dnssec_check
from measure_shapes import PROGRAM

from dnssec_check_tools import command
from dnssec_check_tools.capturing.frames import frames_of
from dnssec_check_tools.started import Process

TREE = pathlib.Path(__file__).resolve().parent.parent
FOLDER = TREE / "examples" / "bind-www-a"
MOMENT, NAME, KIND = 1795348800, "www.bind.test.", "A"
PATHS = (FOLDER / "capture", TREE / "examples" / "anchors", FOLDER / "statements")
CAPTURE, ANCHORS, STATEMENTS = (path.read_bytes() for path in PATHS)


def seconds() -> float:
    """That this process and those that it waited for had of a processor."""
    had = os.times()
    return had.user + had.system + had.children_user + had.children_system


def a_second(judge: Callable[[], object], least: float) -> float:
    """How often it can be done in a second, from as many times as take so many."""
    judge()
    count, begin, end = 0, seconds(), time.monotonic() + 20 * least
    while seconds() - begin < least and time.monotonic() < end:
        judge()
        count += 1
    return count / (seconds() - begin)


def by_library() -> None:
    case = dnssec_check.Case(CAPTURE, ANCHORS, at=MOMENT, statements=STATEMENTS)
    assert case.judge(NAME, KIND).is_secure


def by_library_and_verifier() -> None:
    case = dnssec_check.Case(CAPTURE, ANCHORS, at=MOMENT, verifier=dnssec_check.verify)
    assert case.judge(NAME, KIND).is_secure


def by_program() -> None:
    """As the tools start it, which is by one call of the system."""
    files = {"capture": FOLDER / "capture", "anchors": FOLDER.parent / "anchors", "statements": FOLDER / "statements"}
    words = [f"--{option}={path}" for option, path in files.items()]
    asked = [f"--moment={MOMENT}", f"--name={NAME}", "--type=1"]
    with open(os.devnull, "wb") as output:
        with Process([str(PROGRAM), "check", *words, *asked], output.fileno(), output.fileno()) as process:
            assert process.wait() == 0


def by_dnspython() -> None:
    """The chain of trust from the root's keys, and the answer: each signature is verified once, and no denial read."""
    from dns import dnssec, message, name, rdatatype

    found, signed = {}, {}
    for octets in frames_of(CAPTURE)[0]:
        for rrset in message.from_wire(octets).answer:
            if rrset.rdtype == rdatatype.RRSIG:
                signed[rrset.name, rrset.covers] = rrset
            else:
                found[rrset.name, rrset.rdtype] = rrset
    keys = {}
    for zone in (".", "test.", "bind.test."):
        at = name.from_text(zone)
        keys[at] = found[at, rdatatype.DNSKEY]
        dnssec.validate(keys[at], signed[at, rdatatype.DNSKEY], {at: keys[at]}, now=MOMENT)
        if (at, rdatatype.DS) in found:
            dnssec.validate(
                found[at, rdatatype.DS], signed[at, rdatatype.DS], {at.parent(): keys[at.parent()]}, now=MOMENT
            )
            assert {dnssec.make_ds(at, key, "SHA256") for key in keys[at]} & set(found[at, rdatatype.DS])
    asked = name.from_text(NAME), rdatatype.A
    dnssec.validate(found[asked], signed[asked], {at: keys[at]}, now=MOMENT)


class Lacking(Exception):
    """What a way needs isn't there."""


def counted(source: str, links: Sequence[str], words: Sequence[str]) -> float:
    """What a C file of this folder, compiled for it, says that it did in a second."""
    with tempfile.TemporaryDirectory() as room:
        program = os.path.join(room, "program")
        compiler = ["cc", "-O2", f"-I{TREE / 'library'}", f"{TREE / 'bench' / source}", "-o", program, *links]
        try:
            subprocess.run(compiler, capture_output=True, check=True)
        except (OSError, subprocess.CalledProcessError) as fault:
            raise Lacking(f"{source} doesn't compile here") from fault
        return float(subprocess.run([program, *words], stdout=subprocess.PIPE, check=True).stdout)


def by_library_from_c(least: float) -> float:
    archive = str(TREE / "out" / "library" / "libdnssec_check.a")
    asked = [str(MOMENT), NAME, "1", str(least)]
    return counted("by_library.c", [archive], [*map(str, PATHS), *asked])


def by_getdns(least: float) -> float:
    """Each signature is verified once, from the root's anchor down; the answer is asked for, and no denial."""
    anchors = [line.split(" ", 2) for line in ANCHORS.decode().splitlines() if line.startswith("DS ")]
    anchor = f"{anchors[0][1]} 3600 IN DS {anchors[0][2]}"
    return counted("by_getdns.c", ["-lgetdns"], [str(PATHS[0]), anchor, str(MOMENT), str(least)])


IN_C: List[Tuple[str, Callable[[float], float]]] = [
    ("the library, from C, by statements", by_library_from_c),
    ("getdns' `getdns_validate_dnssec2`, from C", by_getdns),
]
WAYS: List[Tuple[str, Callable[[], None]]] = [
    ("the library, from Python, by statements", by_library),
    ("the program, started for each, by statements", by_program),
    ("the library, from Python, with `dnssec_check.verify`", by_library_and_verifier),
    ("dnspython's `dnssec.validate`, RRset by RRset", by_dnspython),
]


def main(words: Sequence[str]) -> int:
    parser = command.parser_of(__doc__)
    parser.add_argument("--seconds", type=float, default=3.0, help="of a processor, for each row")
    least = parser.parse_args(words).seconds
    for way, count in IN_C:
        try:
            print(f"| {way} | {count(least):,.0f} |", flush=True)
        except Lacking as fault:
            print(f"| {way} | {fault} |", flush=True)
    for way, judge in WAYS:
        try:
            print(f"| {way} | {a_second(judge, least):,.0f} |", flush=True)
        except ImportError as fault:
            print(f"| {way} | {fault} |", flush=True)
    return 0


if __name__ == "__main__":
    command.run(main)
