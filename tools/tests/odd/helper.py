"""Zones and links of a chain that no capture has, for what is just odd and what just isn't."""
from dnssec_check_tools.capturing.frames import framed
from dnssec_check_tools.capturing.messages import key_tag
from dnssec_check_tools.explaining.explanation import Explanation
from dnssec_check_tools.judging.evidence import Evidence
from dnssec_check_tools.odd.records import Records, Rrset, Signature
from dnssec_check_tools.odd.scene import Link, Scene, Zone
from tool import DATA

NOW, DAY, TURN = 1_796_126_400, 86400, 1 << 32
DNSKEY, DS, A, NSEC3, RRSIG = 48, 43, 1, 50, 46
ECDSA, RSA = 13, 8
ZSK, KSK, REVOKED = 256, 257, 385
CAPTURES = DATA / "odd"


def moment_of_captures():
    return (CAPTURES / "questions").read_text().split()[2]


def key(flags=ZSK, algorithm=ECDSA, public=b"key"):
    return flags.to_bytes(2, "big") + bytes([3, algorithm]) + public


def rsa(exponent, bits, is_long=False):
    """The key field of RFC 3110 2, the length of its exponent in one octet or in three."""
    octets = exponent.to_bytes((exponent.bit_length() + 7) // 8, "big")
    front = b"\0" + len(octets).to_bytes(2, "big") if is_long else bytes([len(octets)])
    return front + octets + (1 << bits - 1 | 1).to_bytes((bits + 7) // 8, "big")


def ds(tag, algorithm=ECDSA, digest_type=2, digest=b"digest"):
    return tag.to_bytes(2, "big") + bytes([algorithm, digest_type]) + digest


def nsec3(following, flags=0, iterations=0, salt=b""):
    return (bytes([1, flags]) + iterations.to_bytes(2, "big") + bytes([len(salt)]) + salt + bytes([len(following)])
            + following + b"\0\1\x40")


def signature(tag=1, algorithm=ECDSA, signer="a.", ends=30 * DAY, begins=-DAY, ttl=300, covered=A):
    """By how far its ends lie ahead."""
    return Signature(covered, algorithm, ttl, (NOW + ends) % TURN, (NOW + begins) % TURN, tag, signer)


def rrset(owner=("a",), kind=A, rdata=(), signatures=(), ttls=None, number=1, message=1):
    found = Rrset(number, message, tuple(label.encode() for label in owner), kind)
    found.rdata, found.signatures = list(rdata), list(signatures)
    found.ttls = list(ttls) if ttls is not None else [300] * len(rdata)
    return found


def zone(*keys, of_ds=None, signatures=(), entry=None):
    """The zone `a.` with these keys, the first of which leads into it."""
    keys = keys or (key(KSK),)
    held = rrset(kind=DNSKEY, rdata=keys, signatures=signatures, number=2)
    entry = entry or (key_tag(keys[0]), keys[0][3])
    return Zone("a.", held, entry, None if of_ds is None else rrset(kind=DS, rdata=of_ds, number=3))


def link(of=None, by=None, **held):
    """An RRset that its first signature carries."""
    found = rrset(signatures=[by or signature()], **held)
    return Link(found, found.signatures[0], of or zone())


def scene(*rrsets, soon=7 * DAY, value=None):
    """Over a capture that has these RRsets."""
    records = Records(Evidence(framed([])))
    records.rrsets = {number: each for number, each in enumerate(rrsets, 1)}
    records.messages = [bytes(12)]
    return Scene(records, Explanation({"moment": NOW, "why": [], **(value or {})}), soon)


def texts(found):
    return [odd.text for odd in found]


