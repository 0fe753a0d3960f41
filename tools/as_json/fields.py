"""Fields of a line, as members of its object."""
from collections.abc import Iterable, Mapping, Sequence
from typing import Any

Fields = Sequence[str]
Members = dict[str, Any]


def octets(field: str) -> str:
    """A field of hex, in which `-` stands for no octets."""
    return "" if field == "-" else field


def numbers(fields: Iterable[str], *keys: str) -> Members:
    return dict(zip(keys, map(int, fields)))


def signature(fields: Fields) -> tuple[Members, list[str]]:
    """OWNER TYPE rrset R signature S key TAG ALG zone SIGNER, and what follows."""
    owner, rtype, _, rrset, _, number, _, tag, algorithm, _, signer, *rest = fields
    return (
        {
            "owner": owner,
            **numbers((rtype, rrset, number, tag, algorithm), "type", "rrset", "signature", "tag", "algorithm"),
            "signer": signer,
        },
        rest,
    )


def options(fields: Fields, keys: Mapping[str, Sequence[str]]) -> Members:
    """Members that may be left out: each a word, and as many numbers as `keys` has for it."""
    said: Members = {}
    while fields:
        word, *fields = fields
        said |= numbers(fields, *keys[word])
        fields = fields[len(keys[word]) :]
    return said
