"""Which request an answer is for, and its MAC (TSIG, RFC 8945)."""
from typing import Any, Dict, List, NamedTuple, Optional, Tuple

from .entries import Message
from .messages import TYPE_TSIG, end_of_name, questions_of, records_of
from .octets import Incomplete, number_at

Kept = Tuple[Any, ...]


class Tsig(NamedTuple):
    mac: bytes
    identifier: int


def tsig_of(octets: bytes) -> Tsig:
    """The MAC of a message's TSIG record, and the identifier that it covers; without one no octets, and its own."""
    try:
        last = [*records_of(octets)][-1:]
        if last and last[0].kind == TYPE_TSIG:
            data = octets[last[0].front : last[0].end]
            front = end_of_name(data, 0) + 8
            end = front + 2 + number_at(data, front, 2)
            return Tsig(data[front + 2 : end], number_at(data, end, 2))
    except Incomplete:
        pass
    return Tsig(b"", number_at(octets, 0, 2))


class Requests:
    """The MACs of the requests that were met, each kept under what its answer repeats of it (RFC 5452 9.1).

    That is the question, with its name in lower case, and the identifier. A forwarder may have changed the identifier,
    in the request or in the answer; the TSIG record has the one before (RFC 8945 4.2), which counts where no request
    has that of the answer.
    """

    def __init__(self) -> None:
        self.macs: Dict[Kept, Tuple[int, bytes]] = {}
        self.number = 0

    def places(self, message: Message) -> Tuple[Kept, List[Kept]]:
        """Where the MAC is kept by the identifier, and where by any identifier that the message tells."""
        front = message.connection, questions_of(message.octets)[0]
        own = number_at(message.octets, 0, 2)
        others = {own, tsig_of(message.octets).identifier}
        return (*front, own, True), [(*front, identifier, False) for identifier in others]

    def keep(self, message: Message) -> None:
        self.number += 1
        own, others = self.places(message)
        mac = tsig_of(message.octets).mac
        self.macs.update((place, (self.number, mac)) for place in [own, *others])

    def mac_for(self, message: Message) -> Optional[bytes]:
        """The MAC of the last request so far that the message answers, None where there is no such request."""
        own, others = self.places(message)
        found = [self.macs[place] for place in ([own] if own in self.macs else others) if place in self.macs]
        return max(found)[1] if found else None
