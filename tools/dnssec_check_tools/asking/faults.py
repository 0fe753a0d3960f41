"""How a tool that judges stops, and how it writes what can't be shown."""
import os
import sys

DEBIAN = "/usr/bin/python3"  # which Debian's packages serve


class WrongLine(Exception):
    """The command line is wrong."""


class Refusal(Exception):
    """A file that is read is refused as a whole."""


class Failure(Exception):
    """The machine lacks something, or failed."""


def lacking(package: str, what: str, fault: Exception) -> Failure:
    """The failure for want of a Python package, with the interpreter that hasn't got it and how to get it."""
    return Failure(
        f"{what} needs the Python package {package}, which {sys.executable} lacks ({how_to_get(package)}): {fault}"
    )


def how_to_get(package: str) -> str:
    """What installs a package for the interpreter that runs: Debian's packages serve Debian's alone."""
    if os.path.realpath(sys.executable) == os.path.realpath(DEBIAN):
        return f"Debian: apt-get install python3-{package}"
    return f"{sys.executable} -m pip install {package}, or run by {DEBIAN} behind apt-get install python3-{package}"


def escaped(text: str) -> str:
    """The text with what can't be shown as `\\xNN`, and `\\uNNNN` above; a path's octets that are no UTF-8 as
    `\\xNN`."""
    if text.isprintable():
        return text
    return "".join(character if character.isprintable() else escape_of(ord(character)) for character in text)


def escape_of(code: int) -> str:
    if 0xDC80 <= code <= 0xDCFF:
        code -= 0xDC00
    return f"\\x{code:02x}" if code < 0x100 else f"\\u{code:04x}" if code < 0x10000 else f"\\U{code:08x}"
