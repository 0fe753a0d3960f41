"""The files that a tool writes: none of them is one that it reads, and each is there whole or not at all."""
import contextlib
import errno
import os
import secrets
import stat
from typing import Iterable, Optional

INPUT, OUTPUT = 0, 1  # what `-` is, by its number
BY_NUMBER = ("/dev/", "/proc/")  # where a name may be that of an open file


def state_of(path: str, standard: int) -> Optional[os.stat_result]:
    """What the system says of the file, None where it isn't there."""
    try:
        return os.fstat(standard) if path == "-" else os.stat(path)
    except (OSError, ValueError):
        return None


def is_same_file(output: str, path: str, standard: int) -> bool:
    """Whether what is written is the file with this path, whose `-` has the number; a device may be read and
    written."""
    written, other = state_of(output, OUTPUT), state_of(path, standard)
    if written and other:
        return os.path.samestat(written, other) and stat.S_ISREG(written.st_mode)
    return "-" not in (output, path) and os.path.realpath(output) == os.path.realpath(path)


def is_same_output(output: str, other: str) -> bool:
    return output == other == "-" or is_same_file(output, other, OUTPUT)


def overwritten(outputs: Iterable[str], inputs: Iterable[str]) -> Optional[str]:
    """The name of an output that is an input, and how that is named; None where there is none."""
    read = list(inputs)
    for output in outputs:
        for path in read:
            if is_same_file(output, path, INPUT):
                return told(output, path)
    return None


def told(output: str, path: str) -> str:
    if output != "-":
        return f"{output} is read, and would be written"
    name = "the standard input" if path == "-" else path
    return f"the standard output is {name}, which is read, and would be written"


def is_replaceable(path: str) -> bool:
    """Whether there is a plain file of this name, or none yet: a device, a pipe or what has it open stays the same."""
    state = state_of(path, OUTPUT)
    is_plain = state is None or stat.S_ISREG(state.st_mode)
    return is_plain and bool(os.path.basename(path)) and not os.path.abspath(path).startswith(BY_NUMBER)


def write_whole(path: str, octets: bytes) -> None:
    """Writes a file beside that of the name, or beside what the name is a link to, and then gives it the name."""
    if not is_replaceable(path):
        with open(path, "wb") as file:
            file.write(octets)
        return
    target = os.path.realpath(path)
    beside = os.path.join(os.path.dirname(target), f".dnssec_check-{secrets.token_hex(8)}")
    try:
        write_as(beside, octets, target)
        os.replace(beside, target)
    except OSError as fault:
        raise OSError(fault.errno, fault.strerror, path) from fault
    finally:
        with contextlib.suppress(OSError):  # it has its name
            os.unlink(beside)


def write_as(beside: str, octets: bytes, target: str) -> None:
    """Writes a new file with the owner and the mode of the other, where that is there and may be written."""
    old = state_of(target, OUTPUT)
    if old and not os.access(target, os.W_OK):
        raise PermissionError(errno.EACCES, os.strerror(errno.EACCES))
    with open(beside, "xb") as file:
        file.write(octets)
        if old:
            with contextlib.suppress(PermissionError):
                os.fchown(file.fileno(), old.st_uid, old.st_gid)
            os.fchmod(file.fileno(), stat.S_IMODE(old.st_mode))
