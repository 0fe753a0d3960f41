"""Moments as people write them, and as the program does."""
import datetime
import re
import time

from .faults import WrongLine

MOMENT_MOST = 281474976710655
YEARS_MOST = 253402300799  # the last second of the year 9999, where ISO's dates end
DATE = re.compile(r"(.+)(Z|[+-]\d\d:?\d\d)", re.ASCII | re.IGNORECASE)
DAY = re.compile(r"\d{4}-\d\d-\d\d", re.ASCII)


def seconds_of(text: str, option: str = "--at") -> int:
    """The seconds since 1970 of `now`, a number of seconds, a day or an ISO date with Z or an offset, as an option has
    it."""
    if text == "now":
        return int(time.time())
    try:
        number = int(text) if text.isascii() and text.isdigit() and len(text) <= 15 else of_date(with_time(text))
    except ValueError as fault:
        others = "`now`, a day, as 2026-11-22, and seconds since 1970 are moments too"
        raise WrongLine(f"{option}: {fault}; {others}") from fault
    if not 0 <= number <= MOMENT_MOST:
        raise WrongLine(f"{option}: {text!r} isn't from 0 to {MOMENT_MOST} seconds since 1970")
    return number


def with_time(text: str) -> str:
    """A day as the moment at which it begins, in UTC; whatever else it is as it is."""
    return f"{text}T00:00:00Z" if DAY.fullmatch(text) else text


def of_date(text: str) -> int:
    """The seconds of an ISO date; ValueError where it's none."""
    date = DATE.fullmatch(text)
    if date is None or "T" not in text.upper().replace(" ", "T"):
        raise ValueError(
            f"{text!r} is no moment: write a date and a time with Z or an offset, as 2026-11-22T12:00:00Z or "
            "2026-11-22T13:00:00+01:00"
        )
    offset = date[2].upper().replace("Z", "+00:00")
    if ":" not in offset:
        offset = f"{offset[:3]}:{offset[3:]}"
    try:
        return int(datetime.datetime.fromisoformat(date[1] + offset).timestamp() // 1)
    except (ValueError, OverflowError) as fault:
        raise ValueError(f"{text!r} is no moment: {fault}") from fault


def moment_text(seconds: int) -> str:
    """An ISO date, while there are such; the number else."""
    if seconds > YEARS_MOST:
        return str(seconds)
    date = datetime.datetime(1970, 1, 1) + datetime.timedelta(seconds=seconds)
    return date.isoformat(timespec="seconds") + "Z"
