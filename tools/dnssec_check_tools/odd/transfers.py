"""Gaps in the chain of a zone that a transfer has: a record that names as the next what isn't the next."""
from typing import Any, Iterator

from ..capturing.messages import TYPE_NSEC, name_text
from ..explaining.values import owned
from ..zones.chain import ByHash, ByOrder, Chain, hex32
from .kinds import Odd


def gaps_of(chain: Chain) -> Iterator[Odd]:
    """The chain is in order, so each record has to name the one behind it, and the last one the first."""
    for number, owner in enumerate(chain.owners):
        following, wanted = following_of(chain, owner), chain.places[(number + 1) % len(chain.places)]
        if following is not None and following != wanted:
            text = f"it names {shown(chain, following)} as the next, and the next record is at {shown(chain, wanted)}"
            yield Odd("chain-gap", owned(name_text(owner), chain.kind), text)


def following_of(chain: Chain, owner: Any) -> Any:
    """The place that a record names as the next."""
    if isinstance(chain, ByOrder):
        return chain.place_of(chain.following(owner))
    return chain.read[owner].next if isinstance(chain, ByHash) else None


def shown(chain: Chain, place: Any) -> str:
    return name_text(place[::-1]) if chain.kind == TYPE_NSEC else hex32(place)
