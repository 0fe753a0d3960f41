"""Messages as dnstap has them: protobuf in frame streams, as name servers, resolvers and kdig write it to a file."""
import functools
import socket
import warnings
from typing import Any, Iterator, List, Optional

from ..asking.faults import lacking
from .entries import Entry, Message, Omission, Refusal
from .packets import Datagram, Segment

# A frame of length 0 is a control frame: its own length, and what it controls; a stream begins with START.
ESCAPE, CONTROL_START, CONTROL_STOP = b"\x00\x00\x00\x00", b"\x00\x00\x00\x02", b"\x00\x00\x00\x03"
CONTENT, START_MOST = b"protobuf:dnstap.Dnstap", 512
NAME = "dnstap.Dnstap"
UDP, TCP = 1, 2  # of the socket's protocols
BYTES, NUMBER, PART = 12, 13, 11  # the types of fields, as descriptors number them
# The fields that are read, by their numbers in dnstap.proto; all others are passed over.
OF_MESSAGE = (
    ("socket_protocol", 3, NUMBER),
    ("query_address", 4, BYTES),
    ("response_address", 5, BYTES),
    ("query_port", 6, NUMBER),
    ("response_port", 7, NUMBER),
    ("query_message", 10, BYTES),
    ("response_message", 14, BYTES),
)


@functools.lru_cache(None)
def reader() -> Any:
    """What reads a frame, imported where one is."""
    try:
        from google.protobuf import descriptor_pb2, descriptor_pool, message_factory
    except ImportError as fault:
        raise Refusal(str(lacking("protobuf", "dnstap", fault))) from fault
    # What is in the module is made when it is imported: pylint: disable-next=no-member
    file = descriptor_pb2.FileDescriptorProto(name="dnssec_check/dnstap.proto", package="dnstap", syntax="proto2")
    part = file.message_type.add(name="Message")
    for name, number, kind in OF_MESSAGE:
        part.field.add(name=name, number=number, type=kind, label=1)
    whole = file.message_type.add(name="Dnstap")
    whole.field.add(name="message", number=14, type=PART, label=1, type_name=".dnstap.Message")
    pool = descriptor_pool.DescriptorPool()
    pool.Add(file)
    found = pool.FindMessageTypeByName(NAME)
    if hasattr(message_factory, "GetMessageClass"):
        return message_factory.GetMessageClass(found)
    return message_factory.MessageFactory(pool).GetPrototype(found)


def is_dnstap(octets: bytes) -> bool:
    """Whether it's a frame stream of dnstap, by the frame START that it begins with."""
    is_start = octets.startswith(ESCAPE) and octets[8:12] == CONTROL_START
    return is_start and CONTENT in octets[:START_MOST]


def frames_in(octets: bytes) -> Iterator[Optional[bytes]]:
    """The frames behind START up to STOP or the end; None at last of a stream that is torn."""
    place = 0
    while place < len(octets):
        is_control = octets[place : place + 4] == ESCAPE
        front = place + 4 + 4 * is_control
        end = front + int.from_bytes(octets[front - 4 : front], "big")
        if front > len(octets) or end > len(octets):
            yield None
            return
        if not is_control:
            yield octets[front:end]
        elif octets[front : front + 4] == CONTROL_STOP:
            return
        place = end


def address_text(octets: bytes) -> str:
    """An address of IPv4 or IPv6; of what is none the octets."""
    family = {4: socket.AF_INET, 16: socket.AF_INET6}.get(len(octets))
    return socket.inet_ntop(family, octets) if family else octets.hex()


def entries_of_frame(octets: bytes, place: str) -> List[Entry]:
    """The query and the answer that it has."""
    from google.protobuf.message import DecodeError

    try:
        with warnings.catch_warnings(record=True) as warned:
            warnings.simplefilter("always")  # of what ends a group that didn't begin
            told = reader().FromString(octets).message
    except DecodeError:
        return [Omission(place, "it is no dnstap")]
    if warned:
        return [Omission(place, "it is no dnstap")]
    ends = [
        (address_text(told.query_address), told.query_port),
        (address_text(told.response_address), told.response_port),
    ]
    connection = {UDP: Datagram, TCP: Segment}.get(told.socket_protocol), frozenset(ends)
    messages = [octets for octets in (told.query_message, told.response_message) if octets]
    return [Message(octets, place, connection) for octets in messages]


def entries_of_dnstap(octets: bytes, path: str) -> Iterator[Entry]:
    if not is_dnstap(octets):
        raise Refusal(f"{path}: no frame stream of dnstap")
    reader()
    for number, frame in enumerate(frames_in(octets), 1):
        if frame is None:
            yield Omission(f"the end of {path}", "the frame stream is torn")
        else:
            yield from entries_of_frame(frame, f"frame {number} of {path}")
