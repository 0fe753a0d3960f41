"""The zones and the records of the rows of dnsv_denial."""
from zones import Zone

# A delegation without DS, a wildcard, and two empty non-terminals.
SMALL = Zone(
    "example.",
    [
        ("example.", "NS SOA DNSKEY"),
        ("a.example.", "A"),
        ("sub.example.", "NS"),
        ("*.w.example.", "TXT"),
        ("x.y.example.", "A"),
    ],
)

# An alias at a wildcard, a DNAME, delegations with and without DS, and a wildcard further down.
MIXED = Zone(
    "example.",
    [
        ("example.", "NS SOA"),
        ("*.example.", "CNAME"),
        ("a.example.", "A DNAME"),
        ("sub.example.", "NS DS"),
        ("*.x.w.example.", "TXT"),
        ("y.example.", "NS"),
    ],
)

# Delegations without DS, one below an empty non-terminal that has nothing else, one below another; a delegation with
# DS, and a wildcard.
LOOSE = Zone(
    "example.",
    [
        ("example.", "NS SOA"),
        ("a.example.", "A"),
        ("sub.example.", "NS DS"),
        ("y.w.example.", "NS"),
        ("*.x.example.", "TXT"),
        ("a.y.example.", "A"),
        ("q.y.example.", "NS"),
    ],
)

APEX = "NS SOA RRSIG NSEC DNSKEY"

# NSEC records of `example.` by their names: the owner, the next name and the types.
NSECS = {
    "example>a": ("example.", "a.example.", APEX),
    "a>sub": ("a.example.", "sub.example.", "A RRSIG NSEC"),
    "sub>*.w": ("sub.example.", "*.w.example.", "NS RRSIG NSEC"),
    "*.w>x.y": ("*.w.example.", "x.y.example.", "TXT RRSIG NSEC"),
    "x.y>example": ("x.y.example.", "example.", "A RRSIG NSEC"),
    "example>ns": ("example.", "ns.example.", APEX),
    "example>example": ("example.", "example.", APEX),
    "ns>example": ("ns.example.", "example.", "A RRSIG NSEC"),
    "z>example": ("z.example.", "example.", "A RRSIG NSEC"),
    "a>x.b": ("a.example.", "x.b.example.", "A RRSIG NSEC"),
    "sub>t": ("sub.example.", "t.example.", "NS RRSIG NSEC"),
    "sub>t:ds": ("sub.example.", "t.example.", "NS DS RRSIG NSEC"),
    "sub.s>t": ("sub.s.example.", "t.example.", "NS RRSIG NSEC"),
    "b.a.sub>t": ("b.a.sub.example.", "t.example.", "NS RRSIG NSEC"),
    "d>t:dname": ("d.example.", "t.example.", "DNAME RRSIG NSEC"),
    "d>t:cname": ("d.example.", "t.example.", "CNAME RRSIG NSEC"),
    # RFC 4035 appendix A.
    "rfc4035:example": ("example.", "a.example.", "NS SOA MX RRSIG NSEC DNSKEY"),
    "rfc4035:a": ("a.example.", "ai.example.", "NS DS RRSIG NSEC"),
    "rfc4035:b": ("b.example.", "ns1.example.", "NS RRSIG NSEC"),
    "rfc4035:ns1": ("ns1.example.", "ns2.example.", "A RRSIG NSEC"),
    "rfc4035:*.w": ("*.w.example.", "x.w.example.", "MX RRSIG NSEC"),
    "rfc4035:x.y.w": ("x.y.w.example.", "xx.example.", "MX RRSIG NSEC"),
}

# The nodes of a zone, hashed.
NODES = [
    ("example.", "NS SOA RRSIG DNSKEY NSEC3PARAM"),
    ("a.example.", "A RRSIG"),
    ("w.example.", ""),
    ("*.w.example.", "TXT RRSIG"),
    ("y.example.", ""),
    ("x.y.example.", "A RRSIG"),
    ("sub.example.", "NS"),
]

# RFC 5155 appendix A, without `c.example.`, an unsigned delegation that Opt-Out leaves out.
RFC5155 = [
    ("example.", "MX DNSKEY NS SOA NSEC3PARAM RRSIG"),
    ("ns1.example.", "A RRSIG"),
    ("x.y.w.example.", "MX RRSIG"),
    ("a.example.", "NS DS RRSIG"),
    ("x.w.example.", "MX RRSIG"),
    ("ai.example.", "A HINFO AAAA RRSIG"),
    ("y.w.example.", ""),
    ("w.example.", ""),
    ("2t7b4g4vsa5smi47k61mv5bv1a22bojr.example.", "A RRSIG"),
    ("ns2.example.", "A RRSIG"),
    ("*.w.example.", "MX RRSIG"),
    ("xx.example.", "HINFO A AAAA RRSIG"),
]

# DS records with the tag 2063: of algorithm 13 by SHA-256, SHA-1 and a digest type that isn't supported, and of an
# algorithm that isn't.
DIGEST = bytes(range(32))
DS = {
    "sha256": bytes.fromhex("080f0d02") + DIGEST,
    "sha1": bytes.fromhex("080f0d01") + DIGEST[:20],
    "gost": bytes.fromhex("080f0d03aa"),
    "of-gost": bytes.fromhex("080f0c02") + DIGEST,
}
