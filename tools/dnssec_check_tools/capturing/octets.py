"""Numbers in octets."""
from typing import Literal, Union


Octets = Union[bytes, bytearray]


class Incomplete(Exception):
    """Octets end before what has to be in them."""


def number_at(octets: Octets, place: int, size: int, order: Literal["big", "little"] = "big") -> int:
    if place + size > len(octets):
        raise Incomplete("it ends too early")
    return int.from_bytes(octets[place : place + size], order)
