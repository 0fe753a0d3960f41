"""Messages each behind its length in two octets, as TCP carries them and capture files have them (RFC 1035 4.2.2)."""
from typing import Iterable, List, Optional, Tuple
from .messages import HEADER_SIZE, MESSAGE_SIZE_MOST, read_as_message
from .octets import Octets, number_at

MESSAGES_MOST = 64  # of a capture file
FRAME_SIZE_MOST = 2 + MESSAGE_SIZE_MOST


def frames_of(octets: Octets) -> Tuple[List[bytes], int]:
    """The messages of a stream, and the place behind the last: the end, a torn message, or one of length 0."""
    messages, place = [], 0
    while place + 2 <= len(octets):
        end = place + 2 + number_at(octets, place, 2)
        if end == place + 2 or end > len(octets):
            break
        messages.append(bytes(octets[place + 2 : end]))
        place = end
    return messages, place


def framed(messages: Iterable[bytes]) -> bytes:
    return b"".join(len(octets).to_bytes(2, "big") + octets for octets in messages)


def frame_at(octets: Octets, place: int) -> Tuple[Optional[bytes], int]:
    """The message there where it is one as a whole, with at most one question (RFC 9619), else None; and how many
    records were read to find that out."""
    front, size = place + 2, int.from_bytes(octets[place : place + 2], "big")
    message = bytes(octets[front : front + size])
    if len(message) < size or size < HEADER_SIZE or number_at(message, 4, 2) > 1:
        return None, 0
    is_whole, count = read_as_message(message)
    return message if is_whole else None, count
