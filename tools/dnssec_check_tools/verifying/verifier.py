"""Signatures verified within a budget of processor time, and kept, so that each is verified once in a process."""
import argparse
import hashlib
import threading
import time
from typing import Callable, Dict, NamedTuple, Optional

from .compact import Entry
from .entries import entry_of, is_verified_good

GOOD, BAD, OPEN = "good", "bad", "-"  # what is said of a signature; OPEN is an answer alone
SECONDS, OCTETS = 10, 64_000_000
SECONDS_TO_ASK = 60
KEPT_MOST = 1 << 16  # some 10 MB


class Budget(NamedTuple):
    """The most for a capture: seconds of a processor that verify, octets that are listed to be verified, and seconds
    of a processor in which its questions are asked."""

    seconds: int = SECONDS
    octets: int = OCTETS
    questions: int = SECONDS_TO_ASK


def digest_of(line: str) -> bytes:
    return hashlib.sha256(line.encode()).digest()


class Spent(Exception):
    """The time is over, so a signature isn't verified."""


class Kept:
    """By the digest of an entry whether it's good; of too many the first goes."""

    def __init__(self, most: int = KEPT_MOST) -> None:
        self.most = most
        self.found: Dict[bytes, bool] = {}
        self.lock = threading.Lock()  # a worker of a cluster has threads

    def get(self, digest: bytes) -> Optional[bool]:
        return self.found.get(digest)

    def put(self, digest: bytes, is_good: bool) -> None:
        with self.lock:
            self.found[digest] = is_good
            if len(self.found) > self.most:
                del self.found[next(iter(self.found))]


class Verifier:
    """Verifies until the thread that made it has had the seconds; what is kept is told behind them too."""

    def __init__(self, seconds: int, kept: Kept, clock: Callable[[], float] = time.thread_time) -> None:
        self.seconds, self.kept, self.clock, self.end = seconds, kept, clock, clock() + seconds

    def statement_of(self, line: str, place: str, digest: bytes) -> str:
        """The statement that answers a line with this digest; Lacking where that can't be had here, and Spent behind
        the end."""
        return self.word(digest, lambda: is_verified_good(entry_of(line, place))) + line[len("todo") :] + "\n"

    def answer_to(self, entry: Entry) -> str:
        """The answer to an entry of a compact list; Lacking and Spent likewise."""
        return self.word(entry.digest, entry.is_good)

    def word(self, digest: bytes, is_verified: Callable[[], bool]) -> str:
        """What is kept of the digest, else what is verified now."""
        is_good = self.kept.get(digest)
        if is_good is None:
            if self.clock() >= self.end:
                raise Spent(f"the {self.seconds} seconds of the budget are over; --budget SECONDS gives more")
            is_good = is_verified()
            self.kept.put(digest, is_good)
        return GOOD if is_good else BAD


def whole(text: str) -> int:
    """A number of the command line that bounds something."""
    if text.isascii() and text.isdigit() and len(text) <= 12:
        return int(text)
    raise argparse.ArgumentTypeError(f"{text!r} is no whole number of up to twelve digits")


def add_budget(parser: argparse.ArgumentParser, of: str) -> None:
    """The option of the time that verifying may take of a processor."""
    parser.add_argument(
        "--budget",
        type=whole,
        default=SECONDS,
        metavar="SECONDS",
        help=f"processor time in which the signatures {of} are verified, {SECONDS} by default; else they stay Unknown",
    )


def add_budget_octets(parser: argparse.ArgumentParser, of: str) -> None:
    """The option of how much is listed to be verified."""
    parser.add_argument(
        "--budget-octets",
        type=whole,
        default=OCTETS,
        metavar="OCTETS",
        help=f"how many octets of what is to be verified {of} are read, {OCTETS} by default",
    )


def add_budget_questions(parser: argparse.ArgumentParser, of: str) -> None:
    """The option of the time that asking may take of a processor."""
    parser.add_argument(
        "--budget-questions",
        type=whole,
        default=SECONDS_TO_ASK,
        metavar="SECONDS",
        help=f"processor time in which the questions {of} are asked, {SECONDS_TO_ASK} by default",
    )
