"""The marks of sentences in colour, on a terminal alone, and not where NO_COLOR is set (https://no-color.org)."""
import os
import re
import sys

from ..explaining.said import FAIL, HOLDS, ODD, WHY

# What a terminal is told before and behind a word (ECMA-48 8.3.117): bold and red, green, bold, yellow.
COLOURS = {FAIL: "1;31", HOLDS: "32", WHY: "1", ODD: "33"}
END = "\x1b[0m"
MARKS = re.compile(rf"^( +)({'|'.join(COLOURS)})(?= )", re.MULTILINE)


def is_coloured() -> bool:
    is_terminal = sys.stdout is not None and sys.stdout.isatty()
    return is_terminal and not os.environ.get("NO_COLOR") and os.environ.get("TERM") != "dumb"


def coloured(text: str) -> str:
    """Lines whose sentences begin with marks, as they are printed."""
    if not is_coloured():
        return text
    return MARKS.sub(lambda found: f"{found[1]}\x1b[{COLOURS[found[2]]}m{found[2]}{END}", text)
