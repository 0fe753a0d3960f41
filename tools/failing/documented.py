"""The ends of a run that the program's pages tell of."""

from __future__ import annotations

import re

from dnssec_check_tools.judging import numbers

from .runs import Answer

NAME, HEX = rb"[!-~]+", rb"(?:-|(?:[0-9a-f]{2})+)"
ALIASES = rb"(?:alias " + NAME + rb" rrset [1-9]\d* signature [1-9]\d*\n){0,8}"
PROOF = rb"(?:record " + NAME + rb" (?:47|50)\n){1,3}"
# The status of each verdict, and the lines behind those of its aliases.
VERDICTS = {
    b"SecureAnswer": (0, rb"rrset [1-9]\d* signature [1-9]\d*\n"),
    b"SecureNoName": (0, PROOF),
    b"SecureNoData": (0, PROOF),
    b"Insecure": (3, rb"cut " + NAME + rb"\n"),
    b"Pending": (4, rb"(?:todo \d+ " + HEX + rb" " + HEX + rb" " + HEX + rb"\n)+"),
    b"Bogus": (5, b""),
    b"Indeterminate": (6, b""),
}
REFUSED = re.compile(rb"refused (\d+)(?: message [1-9]\d*)?(?: record [1-9]\d*)?(?: line [1-9]\d*)?\n")
FAULT = re.compile(rb"fault (?:90|(?:210|211|811) (?:capture|anchors|statements|keys|macs))\n")


FAULTS = {90, 210, 211, 811, 812}
REFUSALS = frozenset(str(number).encode() for number in numbers.numbers().keys() - FAULTS)


def kind_of(answer: Answer) -> str | None:
    """The verdict or the refusal that `check` tells, as in `refused 209`; None where no page tells of such an end."""
    if answer.status == 7 and not answer.output:
        found = REFUSED.fullmatch(answer.errors)
        return f"refused {found[1].decode()}" if found and found[1] in REFUSALS else None
    if answer.status == 1 and not answer.output:
        return answer.errors.decode().strip() if FAULT.fullmatch(answer.errors) else None
    return verdict_of(answer)


def verdict_of(answer: Answer) -> str | None:
    """The word of the verdict, None where there is none in the form that the pages show."""
    word = answer.output.split(b" ")[0]
    status, lines = VERDICTS.get(word, (None, b""))
    text = word + rb" " + NAME + rb" \d+\n" + ALIASES + lines
    if status != answer.status or answer.errors or not re.fullmatch(text, answer.output):
        return None
    return word.decode()
