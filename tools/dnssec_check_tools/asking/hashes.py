"""The hashes of names, by which NSEC3 records stand."""
from .faults import lacking

SHA_1 = 1  # the one hash algorithm of NSEC3 (RFC 5155 11)


def nsec3_hash(name: str, salt: str, iterations: int) -> str:
    """The hash as an NSEC3 record's first label has it (RFC 5155 5); the salt is in hex, `-` for none."""
    try:
        from dns import dnssec, name as names
    except ImportError as fault:
        raise lacking("dnspython", "the hash of a name", fault) from fault
    return dnssec.nsec3_hash(names.from_text(name), "" if salt == "-" else salt, iterations, SHA_1).lower()
