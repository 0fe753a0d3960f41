"""Streams of TCP out of their segments, and the messages in them."""
import bisect
import heapq
from typing import Any, Dict, List, Optional, Tuple

from .entries import Entry, Message, Omission, Place
from .frames import frame_at, frames_of
from .packets import Segment

WINDOW = 2**30  # more than this no receiver takes ahead (RFC 7323 2.3)
TRIES = 2**14  # segments behind a gap in which a message has to begin; a transfer may have thousands before one does
RECORDS_MOST = 2**18  # of a file that are read in vain for that; of what isn't made to look like a message few are


class Search:
    """Looks for messages behind the gaps of a file, until too much was read in vain."""

    def __init__(self) -> None:
        self.left = RECORDS_MOST

    def at(self, octets: bytearray, place: int) -> Optional[bytes]:
        """The message there; None where there is none, or where that isn't looked for any more."""
        if self.left <= 0:
            return None
        message, count = frame_at(octets, place)
        self.left -= 0 if message else count
        return message


class Run:
    """Octets behind a gap that stand without one, where the segments begin that brought them, and for what is new of
    each where it begins, and the last packet up to its end."""

    def __init__(self, first: int) -> None:
        self.first, self.octets = first, bytearray()
        self.starts: List[int] = []
        self.fronts: List[int] = []
        self.places: List[Any] = []

    def add(self, number: int, octets: bytes, place: Place) -> None:
        self.starts.append(number - self.first)
        self.fronts.append(len(self.octets))
        self.places.append(max([place, *self.places[-1:]]))
        self.octets += octets

    def messages(self, search: Search) -> Tuple[List[Tuple[bytes, Place]], bool]:
        """Whole messages, from a segment on that begins with one, with where they end; and whether they are all."""
        found, end, tries = [], 0, 0
        for start in self.starts:
            if start < end or tries == TRIES:
                continue
            message, tries = search.at(self.octets, start), tries + 1
            while message:
                end, tries = start + 2 + len(message), 0
                found.append((message, self.places[bisect.bisect_left(self.fronts, end) - 1]))
                start, message = end, search.at(self.octets, end)
        return found, sum(2 + len(message) for message, _ in found) == len(self.octets)


class Stream:
    """One direction of a TCP connection; its octets are numbered on from the first segment's, past 2**32."""

    def __init__(self, segment: Segment, path: str, search: Search) -> None:
        self.search = search
        self.name = f"the TCP stream of {path} from {segment.source} to {segment.target}"
        self.ends = frozenset((segment.source, segment.target))
        self.has_beginning, self.is_closed = segment.is_syn, False
        self.first = self.next = segment.sequence + segment.is_syn
        self.buffer = bytearray()
        self.waiting: Dict[int, Tuple[bytes, Place]] = {}
        self.order: List[int] = []

    def number_of(self, sequence: int) -> int:
        return self.next + (sequence - self.next + 2**31) % 2**32 - 2**31

    def is_of(self, segment: Segment) -> bool:
        """Whether it may be a segment of this connection; else the ports were taken for another one."""
        number = self.number_of(segment.sequence + segment.is_syn)
        if segment.is_syn:
            return self.has_beginning and not self.is_closed and number == self.first
        first = self.first - 1 if self.has_beginning else self.next - WINDOW
        return not segment.octets or first <= number < self.next + WINDOW

    def take(self, segment: Segment, place: Place) -> List[Entry]:
        """Keeps a segment's octets, and answers the messages that became whole; the longer one of a place counts."""
        number = self.number_of(segment.sequence + segment.is_syn)
        self.is_closed |= segment.is_fin or segment.is_reset
        if number not in self.waiting and (segment.octets or segment.is_fin):
            heapq.heappush(self.order, number)
            self.waiting[number] = b"", place
        if segment.octets and len(segment.octets) > len(self.waiting[number][0]):
            self.waiting[number] = segment.octets, place
        if not self.has_beginning:
            return []
        while self.order and self.order[0] <= self.next:
            self.buffer += self.take_first()[0]
        messages, end = frames_of(self.buffer)
        del self.buffer[:end]
        return [Message(octets, place, (Segment, self.ends)) for octets in messages]

    def take_first(self) -> Tuple[bytes, Place]:
        """The octets of the first segment that waits but for those taken before, and where it came from."""
        number = heapq.heappop(self.order)
        octets, place = self.waiting.pop(number)
        octets = octets[max(0, self.next - number) :]
        self.next = max(self.next, number) + len(octets)
        return octets, place

    def runs(self) -> List[Run]:
        """What still waits, parted at the gaps."""
        runs: List[Run] = []
        while self.order:
            if not runs or self.order[0] > self.next:
                self.next = self.order[0]
                runs.append(Run(self.next))
            runs[-1].add(self.order[0], *self.take_first())
        return runs

    def rest(self) -> List[Entry]:
        """What is whole behind the gaps of a stream, and what is dropped of it at its end."""
        why: Optional[str] = None
        gap = "octets before its end aren't in the packet capture"
        if self.order:
            why = gap
        elif self.buffer[:2] == b"\x00\x00":
            why = "what begins with a message of length 0"
        elif self.buffer:
            why = "it ends within a message"
        found = [run.messages(self.search) for run in self.runs()]
        if not self.has_beginning:
            is_read = all(is_whole for _, is_whole in found)
            why = (gap if len(found) > 1 else None) if is_read else "its beginning isn't in the packet capture"
        messages: List[Entry] = [Message(*each, (Segment, self.ends)) for each_run, _ in found for each in each_run]
        return [*messages, Omission(self.name, why)] if why else messages


class Streams:
    """The streams of a packet capture that are open."""

    def __init__(self, path: str) -> None:
        self.path, self.search = path, Search()
        self.streams: Dict[Tuple[str, str], Stream] = {}

    def take(self, segment: Segment, place: Place) -> List[Entry]:
        """What a segment makes whole, and what is left of a stream that it ends."""
        entries: List[Entry] = []
        ends = segment.source, segment.target
        stream = self.streams.get(ends)
        if stream and not stream.is_of(segment):
            entries, stream = stream.rest(), None
        if stream is None:
            if not segment.is_syn and not segment.octets:
                return entries
            stream = self.streams[ends] = Stream(segment, self.path, self.search)
        return entries + stream.take(segment, place)

    def rest(self) -> List[Entry]:
        return [entry for stream in self.streams.values() for entry in stream.rest()]
