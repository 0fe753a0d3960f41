"""DNS messages that tshark finds in packets: it knows every encapsulation, and joins fragments and segments."""
import json
import subprocess
from typing import Any, Dict, List, Optional, Set, Tuple, Type, Union

from ..command import read, shown

from .entries import Entry, Message, Omission, Refusal
from .packets import Datagram, Segment

# ICMP quotes packets, and quotes them cut. Behind a segment that is lost tshark finds nothing more.
FILTER = "dns && !icmp && !icmpv6 || tcp.analysis.lost_segment"
LAYERS = "frame ip ipv6 udp tcp dns"
PREFERENCES = (
    "ip.defragment",
    "ipv6.defragment",
    "tcp.desegment_tcp_streams",
    "tcp.reassemble_out_of_order",
    "dns.desegment_dns_messages",
)


Pairs = List[Tuple[str, Any]]


def words_of(path: str, ports: Set[int]) -> List[str]:
    """The command line of tshark; an object of its JSON has a key as often as a packet has such a layer."""
    words = ["tshark", "-n", "-r", path, "-T", "json", "-x", "-Y", FILTER, "-j", LAYERS]
    for name in PREFERENCES:
        words += ["-o", f"{name}:TRUE"]
    for port in sorted(ports):
        words += ["-d", f"udp.port=={port},dns", "-d", f"tcp.port=={port},dns"]
    return words


def run_tshark(path: str, ports: Set[int]) -> Tuple[bytes, Optional[str]]:
    """What tshark prints, and its complaint where it ends with a fault; a path may be that of a pipe that is open."""
    given: Dict[str, Any] = {"input": read("-")} if path == "-" else {}
    try:
        done = subprocess.run(words_of(path, ports), **given, capture_output=True, check=False, close_fds=False)
    except FileNotFoundError as fault:
        raise Refusal("tshark isn't installed (Debian: tshark)") from fault
    lines = [line for line in done.stderr.decode(errors="replace").splitlines() if line.strip()]
    complaint = (lines or [f"status {done.returncode}"])[-1] if done.returncode else None
    return done.stdout, complaint and shown(complaint.replace("tshark: ", "", 1))


def layers_of(text: bytes) -> List[Pairs]:
    """The layers of each packet, pairs of a name and what it holds: objects are lists of pairs here."""
    packets = json.loads(text.decode(errors="replace"), strict=False, object_pairs_hook=lambda pairs: pairs)
    return [dict(dict(packet)["_source"])["layers"] for packet in packets]


class Reader:
    """What was met so far of a packet's layers, from outside to inside."""

    def __init__(self, path: str, ports: Set[int]) -> None:
        self.path, self.ports = path, ports
        self.frame: Dict[str, Any] = {}
        self.addresses: List[Any] = []
        self.ends: List[Tuple[Any, int]] = []
        self.raw = ""
        self.kind: Union[Type[Datagram], Type[Segment], None] = None

    def take(self, name: str, value: Any) -> List[Entry]:
        """What the layer brings; the octets of a layer stand before it, under its name with `_raw`."""
        if name == "frame":
            self.frame = dict(value)
        elif name in ("ip", "ipv6"):
            self.addresses = [dict(value).get(f"{name}.{end}") for end in ("src", "dst")]
        elif name in ("udp", "tcp"):
            numbers = [int(dict(value)[f"{name}.{end}"]) for end in ("srcport", "dstport")]
            self.ends, self.kind = [*zip(self.addresses, numbers)], Segment if name == "tcp" else Datagram
        elif name == "dns_raw":
            self.raw = value[0]
        elif name == "dns" and self.is_asked_for():
            return [self.message(dict(value))]
        return []

    def is_asked_for(self) -> bool:
        return bool(self.ports & {number for _, number in self.ends})

    def place(self) -> str:
        return f"packet {self.frame.get('frame.number')} of {self.path}"

    def message(self, layer: Dict[str, Any]) -> Entry:
        """A message over TCP stands behind its length."""
        if self.frame.get("frame.cap_len") != self.frame.get("frame.len"):
            return Omission(self.place(), "it was cut when it was captured")
        octets = bytes.fromhex(self.raw)[2 if "dns.length" in layer else 0 :]
        return Message(octets, self.place(), (self.kind, frozenset(self.ends)))


def entries_of_packet(layers: Pairs, path: str, ports: Set[int]) -> List[Entry]:
    """The messages of a packet; one without any that is there is of a stream with a gap."""
    reader = Reader(path, ports)
    entries = [entry for layer in layers for entry in reader.take(*layer)]
    if not entries and reader.is_asked_for():
        return [Omission(f"the TCP stream at {reader.place()}", "a segment before it isn't in the packet capture")]
    return entries


def entries_of_tshark(path: str, name: str, ports: Set[int]) -> List[Entry]:
    """What tshark finds in the file; `name` is how the path is told."""
    text, complaint = run_tshark(path, ports)
    entries = []
    try:
        for layers in layers_of(text):
            entries += entries_of_packet(layers, name, ports)
    except (ValueError, KeyError, TypeError, IndexError, RecursionError) as fault:
        raise Refusal(f"{name}: tshark: {complaint or 'what it prints is no JSON of packets'}") from fault
    if complaint:
        entries.append(Omission(f"the end of {name}", f"tshark: {complaint}"))
    if not entries:
        numbers = ", ".join(map(str, sorted(ports)))
        entries.append(Omission(name, f"tshark finds no message of DNS at {numbers} (--port)"))
    return entries
