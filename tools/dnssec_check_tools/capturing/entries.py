"""What a file gives: messages, what of it is dropped, and what is passed over."""
from typing import Any, Counter, Iterable, List, NamedTuple, Union


class InPacket(NamedTuple):
    """The place of what a packet made whole; that of a later packet is greater."""

    number: int
    path: str

    def __str__(self) -> str:
        return f"packet {self.number} of {self.path}"


Place = Union[str, InPacket]


class Message(NamedTuple):
    """`connection` is by which protocol it came, and between which ends; None where that isn't known."""

    octets: bytes
    place: Place
    connection: Any = None


class Omission(NamedTuple):
    """What is dropped, and why."""

    place: Place
    why: str


class PassedOver(NamedTuple):
    """What isn't looked at, counted by kind."""

    what: str
    counts: Counter[str]


class Note(NamedTuple):
    """What is to be known of messages that are taken."""

    text: str


Entry = Union[Message, Omission]
Found = Union[Message, Omission, PassedOver, Note]


def of_messages(found: Iterable[Found]) -> List[Entry]:
    """The messages, and what is dropped of them."""
    return [each for each in found if isinstance(each, (Message, Omission))]


class Refusal(Exception):
    """The input can't be made a capture file."""
