"""The command line of a tool, the files that it names, and how it ends; `-` is the standard input or output."""
import argparse
import os
import signal
import sys
from typing import Any, Callable, List, NoReturn

from .outputs import write_whole

VERSION = "0.10.0"  # of the tools and of the Debian package, and the one that the program tells
BY_SIGNAL = 128  # the status of a tool that a signal ends is so much more than the signal's number, as for shells
ENDING = {signal.SIGINT: "interrupted", signal.SIGTERM: "terminated", signal.SIGHUP: "hung up"}


class Ended(KeyboardInterrupt):
    """A signal ends the tool; what is open is closed, and what is for a time goes."""

    def __init__(self, number: int) -> None:
        super().__init__(number)
        self.number = signal.Signals(number)


def end(number: int, _: Any) -> NoReturn:
    raise Ended(number)


def run(main: Callable[[List[str]], int]) -> NoReturn:
    """Ends with the status of `main`; an end by a signal, or a fault of a file that `main` lets through, has one
    line."""
    try:
        for number in ENDING:
            if signal.getsignal(number) is not signal.SIG_IGN:  # as nohup has it
                signal.signal(number, end)
        try:
            status = main(sys.argv[1:])
        finally:
            if sys.stdout:
                sys.stdout.flush()
    except Ended as ended:
        status = BY_SIGNAL + ended.number
        tell(ENDING[ended.number])
    except OSError as fault:
        status = 1
        close_output()
        tell(fault)
    sys.exit(status)


def close_output() -> None:
    """Lets nobody try again to write what couldn't be written."""
    setattr(sys, "stdout", None)


def tell(text: Any) -> None:
    """A line on the standard error, behind the tool's name; where that is closed, nobody is left to be told."""
    if sys.stderr is None:
        return
    try:
        print(f"{os.path.basename(sys.argv[0])}: {text}", file=sys.stderr)
    except OSError:
        setattr(sys, "stderr", None)


def shown(text: Any) -> str:
    """A path, or what else a stranger wrote, as a line may have it."""
    return text if text.isprintable() else ascii(text)


def parser_of(text: Any) -> argparse.ArgumentParser:
    """A parser whose help is the tool's own description: its first line, the options, and the rest."""
    front, details = text.split("\n", 1)
    parser = argparse.ArgumentParser(
        description=front, epilog=details, formatter_class=argparse.RawDescriptionHelpFormatter, allow_abbrev=False
    )
    parser.add_argument("--version", action="version", version=f"%(prog)s {VERSION}")
    return parser


def read(path: str) -> bytes:
    if path != "-":
        with open(path, "rb") as file:
            return file.read()
    if sys.stdin is None:
        raise OSError("the standard input is closed")
    return sys.stdin.buffer.read()


def write(path: str, octets: bytes) -> None:
    """Writes it now, so that a fault is met here; what couldn't be written isn't tried again at the end."""
    if path != "-":
        write_whole(path, octets)
        return
    if sys.stdout is None:
        raise OSError("the standard output is closed")
    try:
        sys.stdout.buffer.write(octets)
        sys.stdout.buffer.flush()
    except OSError:
        close_output()
        raise
