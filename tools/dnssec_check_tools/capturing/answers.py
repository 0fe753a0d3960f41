"""Which messages a capture keeps, and what is told of the others."""
from typing import Callable, Dict, Iterable, Iterator, List, Optional, Tuple

from .entries import Entry, Message, Omission, Place, Refusal
from .frames import MESSAGES_MOST
from .messages import HEADER_SIZE, MESSAGE_SIZE_MOST, is_query, is_truncated, opcode_of
from .notes import asked_text
from .requests import Requests

MAC_SIZE = 32
QUERY = 0  # the opcode (RFC 1035 4.1.1)

Say = Callable[[str], None]


def reason_against(octets: bytes, mac: Optional[bytes], earlier: Dict[bytes, Place]) -> Optional[str]:
    """Why a message that is no query is no part of the capture file, None where it is one."""
    if len(octets) < HEADER_SIZE:
        return "too short for a message"
    if len(octets) > MESSAGE_SIZE_MOST:
        return "too long for a message"
    if opcode_of(octets) != QUERY:
        return f"a response of opcode {opcode_of(octets)}, which answers no question: {asked_text(octets)}"
    if is_truncated(octets):
        return f"truncated: {asked_text(octets)}"
    if mac is None:
        return f"its request isn't among the messages before it: {asked_text(octets)}"
    if octets[2:] in earlier:
        return f"repeats {earlier[octets[2:]]}: {asked_text(octets)}"
    return None


def macs_of(entries: List[Entry]) -> Iterator[Optional[bytes]]:
    """For each entry the MAC of the request that it answers, None where none before it is that request."""
    requests = Requests()
    for each in entries:
        mac = None
        if isinstance(each, Message) and len(each.octets) >= HEADER_SIZE:
            if is_query(each.octets):
                requests.keep(each)
            else:
                mac = requests.mac_for(each)
        yield mac


def refuse_excess(message: Message, mac: bytes, count: int) -> None:
    """Refuses what a capture file, or a file of MACs, can't have."""
    question = asked_text(message.octets)
    if count == MESSAGES_MOST:
        raise Refusal(
            f"{message.place} is message {MESSAGES_MOST + 1}, and a capture has at most {MESSAGES_MOST} "
            f"(see --split): identifier {message.octets[:2].hex()}, {question}"
        )
    if mac and len(mac) != MAC_SIZE:
        raise Refusal(
            f"{message.place}: the MAC of its request has {len(mac)} octets, and that of hmac-sha256 has "
            f"{MAC_SIZE}: {question}"
        )


class Answers:
    """The messages that are kept, with the MACs of their requests. Each other one is told by `say`, but for queries,
    which are counted; truncated ones are kept apart, since what nobody asked again by TCP costs a verdict."""

    def __init__(self, is_limited: bool, say: Say) -> None:
        self.is_limited, self.say = is_limited, say
        self.kept: List[Tuple[bytes, bytes]] = []
        self.truncated: List[bytes] = []
        self.queries = 0
        self.earlier: Dict[bytes, Place] = {}

    def take_all(self, entries: Iterable[Entry], macs: Iterable[Optional[bytes]]) -> None:
        for each, mac in zip(entries, macs):
            if isinstance(each, Omission):
                self.say(f"dropped {each.place}: {each.why}")
            else:
                self.take(each, mac)
        if self.queries:
            self.say(f"dropped {self.queries} {'query' if self.queries == 1 else 'queries'}")

    def take(self, message: Message, mac: Optional[bytes]) -> None:
        octets = message.octets
        if HEADER_SIZE <= len(octets) <= MESSAGE_SIZE_MOST and is_query(octets):
            self.queries += 1
            return
        why = reason_against(octets, mac, self.earlier)
        if mac is None or why:
            self.say(f"dropped {message.place}: {why}")
            self.keep_apart(octets)
            return
        refuse_excess(message, mac, len(self.kept) if self.is_limited else 0)
        self.kept.append((octets, mac))
        self.earlier[octets[2:]] = message.place

    def keep_apart(self, octets: bytes) -> None:
        if HEADER_SIZE <= len(octets) <= MESSAGE_SIZE_MOST and opcode_of(octets) == QUERY and is_truncated(octets):
            self.truncated.append(octets)
