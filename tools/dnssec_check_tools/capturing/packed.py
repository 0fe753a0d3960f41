"""Files that gzip or zstd packed."""
import importlib
import zlib
from typing import Any, Callable, List, Optional, Tuple, Type

from .entries import Entry, Omission, Refusal

GZIP_MAGIC, ZSTD_MAGIC = b"\x1f\x8b\x08", b"\x28\xb5\x2f\xfd"
UNPACKED_MOST = 2**30
PIECE = 2**10  # of what is packed, so that no piece becomes too much at once


class Unpacker:
    """What was unpacked so far; `new` makes what unpacks one member of a file, and a file may have several."""

    def __init__(self, new: Callable[[], Any]) -> None:
        self.new, self.octets = new, bytearray()
        self.member: Any = None

    def take(self, piece: bytes) -> None:
        """Behind a member octets 0 may stand, which fill a block."""
        piece = piece if self.member else piece.lstrip(b"\x00")
        while piece:
            self.member = self.member or self.new()
            self.octets += self.member.decompress(piece)
            is_end = self.member.eof
            piece = self.member.unused_data.lstrip(b"\x00") if is_end else b""
            self.member = None if is_end else self.member


def is_packed(octets: bytes) -> bool:
    return octets.startswith((GZIP_MAGIC, ZSTD_MAGIC))


def zstd_library() -> Any:
    """Python's own since 3.14, or the package zstandard; None where there is neither."""
    for name in ("compression.zstd", "zstandard"):
        try:
            return importlib.import_module(name)
        except ImportError:
            pass
    return None


def way_of(octets: bytes, path: str) -> Optional[Tuple[Callable[[], Any], Type[Exception]]]:
    """What makes the unpacker of a member, and the faults that it tells; None where the file isn't packed."""
    if octets[:3] == GZIP_MAGIC:
        return lambda: zlib.decompressobj(zlib.MAX_WBITS | 16), zlib.error
    if octets[:4] != ZSTD_MAGIC:
        return None
    library = zstd_library()
    if library is None:
        raise Refusal(f"{path}: zstd: use zstdcat, and - in place of the file")
    new = library.ZstdDecompressor
    return (lambda: new().decompressobj()) if hasattr(new, "decompressobj") else new, library.ZstdError


def unpacked(octets: bytes, path: str, most: Optional[int] = None) -> Tuple[bytes, List[Entry]]:
    """What the file has, and what is told of it where it is torn; a file that isn't packed as it is. It may have as
    much as the program reads, or as is told."""
    most = UNPACKED_MOST if most is None else most
    way = way_of(octets, path)
    if way is None:
        return octets, []
    new, fault_of_way = way
    unpacker = Unpacker(new)
    for place in range(0, len(octets), PIECE):
        try:
            unpacker.take(octets[place : place + PIECE])
        except fault_of_way as fault:
            raise Refusal(f"{path}: it can't be unpacked: {fault}") from fault
        if len(unpacker.octets) > most:
            raise Refusal(f"{path}: unpacked it is longer than {most} octets")
    told: List[Entry] = [Omission(f"the end of {path}", "it is packed, and torn")] if unpacker.member else []
    return bytes(unpacker.octets), told
