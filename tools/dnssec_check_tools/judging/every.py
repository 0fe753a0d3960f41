"""All that a capture can be asked: each owner and type of its RRsets, once."""
from typing import List

from ..asking.questions import Question
from ..capturing.frames import frames_of
from ..capturing.messages import HEADER_SIZE, TYPE_DS, TYPE_NSEC, TYPE_NSEC3, Labels, name_text
from ..capturing.octets import Octets, number_at
from ..capturing.splitting import RECORDS_MOST

from .evidence import Evidence, forms_rrsets

DENYING = (TYPE_NSEC, TYPE_NSEC3)
# What a capture is asked that has nothing to ask for: so it's heard whether it's refused.
NOTHING = Question(".", 6)
COUNTS = (6, 8, 10)  # where a header tells how many records the sections have (RFC 1035 4.1.1)


def can_be_asked(owner: Labels, kind: int) -> bool:
    """Whether the program takes the question (its 701)."""
    return forms_rrsets(kind) and kind not in DENYING and (kind != TYPE_DS or owner != ())


def count_of(octets: Octets) -> int:
    """How many records a message has by its header; where it has fewer, it is refused."""
    return sum(number_at(octets, place, 2) for place in COUNTS) if len(octets) >= HEADER_SIZE else 0


def has_too_many(octets: bytes) -> bool:
    """Whether a capture is refused by its number of records, so that none of them need be read."""
    return sum(map(count_of, frames_of(octets)[0])) > RECORDS_MOST


def every_question(evidence: Evidence) -> List[Question]:
    """In the order in which the RRsets come."""
    found = dict.fromkeys((rrset.owner, rrset.kind) for rrset in evidence.rrsets)
    return [Question(name_text(owner), kind) for owner, kind in found if can_be_asked(owner, kind)]
