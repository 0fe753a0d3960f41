"""Messages, packets and packet captures for the tests, laid out as their standards say."""
import struct

from dns.rdataclass import ANY as CLASS_ANY
from dns.rdatatype import A

from dnssec_check_tools import wire
from dnssec_check_tools.capturing import frames
from dnssec_check_tools.wire import name_octets


def message(identifier=1, name="www.example.", flags=0x8400, more=b"", additional=0):
    """A message of one question of type A, with `more` behind it."""
    return wire.header(identifier, (1, 0, 0, additional), flags) + wire.question(name_octets(name), A) + more


def record(kind, data, owner=b"\x00"):
    """A record of class ANY with TTL 0."""
    return wire.record(owner, kind, data, 0, CLASS_ANY)


def tsig(mac, identifier, algorithm="hmac-sha256."):
    """A TSIG record, signed at 1000 with a fudge of 300."""
    return wire.tsig_record(name_octets("key."), wire.tsig_rdata(mac, identifier, 1000, algorithm))


def signed(mac, identifier=1, name="www.example.", flags=0x8400, original=None):
    """A message with a TSIG record alone, which tells `original` where that is given."""
    return message(identifier, name, flags, tsig(mac, identifier if original is None else original), 1)


def framed(*messages):
    return frames.framed(messages)


# IP


CLIENT, SERVER = (b"\x7f\x00\x00\x01", 40000), (b"\x7f\x00\x00\x02", 53)
CLIENT_6, SERVER_6 = (bytes(15) + b"\x01", 40000), (bytes(15) + b"\x02", 53)


def udp(octets, source=SERVER, target=CLIENT):
    return 17, source, target, struct.pack("!4H", source[1], target[1], 8 + len(octets), 0) + octets


def tcp(octets, sequence, source=SERVER, target=CLIENT, syn=False, fin=False):
    flags = 2 if syn else 17 if fin else 16
    header = struct.pack("!2H2I2B3H", source[1], target[1], sequence, 0, 6 << 4, flags, 0, 0, 0)
    return 6, source, target, header + b"\x01\x01\x01\x00" + octets


def ipv4(carried, fragment=0, options=b"", behind=b""):
    protocol, source, target, octets = carried
    size = 20 + len(options)
    front = struct.pack("!2B3H2BH", 4 << 4 | size // 4, 0, size + len(octets), 0, fragment, 64, protocol, 0)
    return front + source[0] + target[0] + options + octets + behind


def ipv6(carried, headers=()):
    """`headers` are the extension headers' types and octets behind the first, which names what follows."""
    protocol, source, target, octets = carried
    for kind, body in reversed(headers):
        protocol, octets = kind, bytes([protocol]) + body + octets
    return struct.pack("!IHBB", 6 << 28, len(octets), protocol, 64) + source[0] + target[0] + octets


# Links


def ethernet(ip, tags=b""):
    return bytes(12) + tags + (b"\x08\x00" if ip[0] >> 4 == 4 else b"\x86\xdd") + ip


def pcap(packets, link=1, order="<", magic=0xA1B2C3D4, lost=0):
    """`lost` is how many octets of each packet weren't captured."""
    file = struct.pack(order + "I2H4I", magic, 2, 4, 0, 0, 65535, link)
    return file + b"".join(struct.pack(order + "4I", 0, 0, len(each), len(each) + lost) + each for each in packets)


def block(kind, body, order):
    body += bytes(-len(body) % 4)
    size = struct.pack(order + "I", 12 + len(body))
    return struct.pack(order + "I", kind) + size + body + size


def section(order="<"):
    return block(0x0A0D0D0A, struct.pack(order + "I2Hq", 0x1A2B3C4D, 1, 0, -1), order)


def interface(link, order="<", limit=0):
    return block(1, struct.pack(order + "2HI", link, 0, limit), order)


def enhanced(number, packet, order="<", sent=None):
    sizes = len(packet), len(packet) if sent is None else sent
    return block(6, struct.pack(order + "5I", number, 0, 0, *sizes) + packet, order)


def old(number, packet, order="<"):
    return block(2, struct.pack(order + "2H4I", number, 7, 0, 0, len(packet), len(packet)) + packet, order)


def simple(packet, order="<", sent=None):
    return block(3, struct.pack(order + "I", len(packet) if sent is None else sent) + packet, order)
