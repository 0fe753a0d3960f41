"""The readers that are tried, by name."""

from __future__ import annotations

from ..target import Target
from . import anchors, capture, compact, questions, records, transfer, verify, xml, zone

ALL = (capture, records, verify, compact, anchors, zone, xml, questions, transfer)
TARGETS: dict[str, Target] = {each.TARGET.name: each.TARGET for each in ALL}
