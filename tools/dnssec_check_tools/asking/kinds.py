"""The types of records by mnemonic and by number, from the table of dnspython."""
import functools
from typing import Any, Optional
from .faults import Failure, lacking

TYPE_MOST = 65535
# What dnspython takes for a type, and isn't one of a record.
NO_TYPES = ("NONE",)


def table() -> Any:
    """Imported where it's needed, so that help and what needs no type do without it."""
    try:
        from dns import rdatatype
    except ImportError as fault:
        raise lacking("dnspython", "a type by its mnemonic", fault) from fault
    return rdatatype


def type_of(text: str) -> Optional[int]:
    """The number of a type as people write it (`AAAA`, `aaaa`, `28`, `TYPE28`), None where it's none."""
    if not text.isascii() or not text.isprintable() or not text:
        return None
    if text.isdigit():
        return int(text) if len(text) <= 5 and int(text) <= TYPE_MOST else None
    if text.upper() in NO_TYPES:
        return None
    types = table()
    try:
        return int(types.from_text(text.replace("-", "_") if text.lower() == "nsap-ptr" else text))
    except (types.UnknownRdatatype, ValueError):
        return None


@functools.lru_cache(None)  # of no more numbers than there are types
def mnemonic_of(number: int) -> str:
    return table().to_text(number).replace("_", "-")


def word_of(number: int) -> str:
    """The mnemonic; where the table isn't there, the type by its number (RFC 3597 5)."""
    try:
        return mnemonic_of(number)
    except Failure:
        return f"TYPE{number}"


def rcode_of_number(number: int) -> str:
    """The mnemonic of a response code."""
    from dns import rcode

    return rcode.to_text(rcode.Rcode(number))
