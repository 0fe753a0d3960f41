"""What captured DNS messages prove by DNSSEC, offline, as of a moment that you give.

>>> import dnssec_check
>>> case = dnssec_check.Case(b"", ". IN DS 1 8 2 00", at=1795348800)
>>> case.judge("www.example.com", "AAAA")
Traceback (most recent call last):
dnssec_check.faults.Refused: refused 601 line 1
"""
from .calls import version
from .case import Case, Verifier, timeline
from .faults import Fault, Misused, OutOfMemory, Refused, Unavailable
from .timelines import Carrying, Edge, Timeline, VerdictInterval
from .verdict import Alias, Denying, Interval, Unverified, Verdict
from .verifying import verify

__all__ = [
    "Alias",
    "Carrying",
    "Case",
    "Denying",
    "Edge",
    "Fault",
    "Interval",
    "Misused",
    "OutOfMemory",
    "Refused",
    "Timeline",
    "Unavailable",
    "Unverified",
    "Verdict",
    "VerdictInterval",
    "Verifier",
    "timeline",
    "verify",
    "version",
]
