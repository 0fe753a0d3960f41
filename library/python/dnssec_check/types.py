"""The types of records by mnemonic."""
import re
from typing import Union

from .faults import Misused

# By the registry of IANA. Left out are those that are obsolete or experimental, that stand in no zone or ask for
# several types (OPT, TSIG, ANY), and that hardly a zone has (X25, ISDN, RT, NSAP, PX, ATMA, NID, L32, L64, LP, DSYNC,
# AMTRELAY and others): they are asked for by number.
TABLE = """
A=1 NS=2 CNAME=5 SOA=6 PTR=12 HINFO=13 MX=15 TXT=16 RP=17 AFSDB=18 SIG=24 KEY=25 AAAA=28 LOC=29 SRV=33 NAPTR=35
KX=36 CERT=37 DNAME=39 APL=42 DS=43 SSHFP=44 IPSECKEY=45 RRSIG=46 NSEC=47 DNSKEY=48 DHCID=49 NSEC3=50
NSEC3PARAM=51 TLSA=52 SMIMEA=53 HIP=55 CDS=59 CDNSKEY=60 OPENPGPKEY=61 CSYNC=62 ZONEMD=63 SVCB=64 HTTPS=65
EUI48=108 EUI64=109 URI=256 CAA=257
"""
NUMBERS = {word: int(number) for word, number in (pair.split("=") for pair in TABLE.split())}
UNKNOWN = re.compile(r"(?:TYPE)?([0-9]{1,5})")  # RFC 3597 5


def type_number(kind: Union[str, int]) -> int:
    """The number of a type by its number or as people write it.

    >>> type_number("aaaa"), type_number("TYPE65"), type_number(16)
    (28, 65, 16)
    """
    number = kind if isinstance(kind, int) else number_of(kind)
    if not 0 <= number < 1 << 16:
        raise Misused("a type is a number from 0 to 65535")
    return number


def number_of(word: str) -> int:
    found = UNKNOWN.fullmatch(word.upper())
    if found:
        return int(found[1])
    try:
        return NUMBERS[word.upper()]
    except KeyError:
        raise Misused(f"{word!r} is no type that is known here: write its number, as TYPE65") from None
