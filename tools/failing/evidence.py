"""RRsets with a signature each by the key of `example.`, as messages, and the statements that the signatures are
good."""

from __future__ import annotations

import pathlib
import sys
from typing import NamedTuple

sys.path.insert(0, str(pathlib.Path(__file__).resolve().parent.parent / "rows"))

# pylint: disable=wrong-import-position
from dnssec_check_tools import wire
from messages import DNSKEY, KEY_TAG, TYPES, counted, labels_of, message, name, rrsig, signed

ANCHOR = b"KEY example. 256 3 13 AQID\n"
MOMENT = 1500


class Rrset(NamedTuple):
    """Its owner, its type and the RDATA of each record; who signs it, and how many labels the signature counts, which
    are the owner's where nothing is said."""

    owner: str
    rtype: str
    rdata: tuple[bytes, ...]
    signer: str = "example."
    labels: int | None = None

    def label_count(self) -> int:
        return counted(self.owner) if self.labels is None else self.labels

    def message(self) -> bytes:
        """A response of these records alone, behind its length."""
        return message(*(signed(self.owner, self.rtype, each, self.label_count(), self.signer) for each in self.rdata))

    def statement(self) -> bytes:
        """The line of statements which says that the signature is good (RFC 4034 3.1.8.1, 6.2, 6.3)."""
        owner = name(self.signed_owner())
        records = [wire.record(owner, TYPES[self.rtype], each) for each in sorted(set(self.rdata))]
        data = rrsig(self.rtype, self.label_count(), self.signer, "") + b"".join(records)
        return f"good 13 {DNSKEY[4:].hex()} {data.hex()} cc\n".encode()

    def signed_owner(self) -> str:
        """In lower case, and the wildcard where the signature counts fewer labels (RFC 4035 5.3.2)."""
        labels, count = self.owner.lower().split("."), self.label_count()
        left = len(labels_of(self.owner)) - count
        return self.owner.lower() if self.label_count() == counted(self.owner) else ".".join(["*", *labels[left:]])


def ds(digest_type: int, digest: bytes) -> bytes:
    """The RDATA of a DS record of that key (RFC 4034 5.1)."""
    return wire.ds(KEY_TAG, digest_type, digest)


KEY = Rrset("example.", "DNSKEY", (DNSKEY,))
