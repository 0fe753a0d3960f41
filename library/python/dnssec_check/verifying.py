"""A verifier: that of the tools of dnssec_check, by the package cryptography."""
from typing import Optional


def verify(algorithm: int, key: bytes, data: bytes, signature: bytes) -> Optional[bool]:
    """Whether the signature is one of the data by the key, or None where that can't be told here. The tools have to be
    importable; without the package cryptography only RSA is told."""
    from dnssec_check_tools.verifying.entries import VERIFIERS, Lacking, is_good_here

    if algorithm not in VERIFIERS:
        return None
    try:
        return is_good_here(algorithm, key, data, signature)
    except Lacking:
        return None
