"""The rows of a table that dnssec_check-judge wrote, as they are read again."""
import json
from typing import Any, Callable, Dict, List, NamedTuple, Optional

from ..asking.faults import escaped
from ..judging.text import COLUMNS
from ..program import FROM_BEST

NUMBERS = ("moment", "status")


class Written(NamedTuple):
    """What is known of a row: whose it is, and what it says."""

    capture: str
    moment: int
    name: str
    kind: str
    status: int


class Form(NamedTuple):
    """How rows are written: what the table begins with, how a text stands in it, and how a line is read, None where it
    is no row."""

    option: str
    head: bytes
    spelled: Callable[[str], str]
    read: Callable[[bytes], Optional[Written]]


def of_tsv(line: bytes) -> Optional[Written]:
    try:
        fields = line.decode().split("\t")
        values: Dict[str, Any] = dict(zip(COLUMNS, fields))
        values.update({each: int(values[each]) for each in NUMBERS})
    except (ValueError, KeyError):
        return None
    is_row = len(fields) == len(COLUMNS) and all(map(str.isprintable, fields))
    return written(values) if is_row else None


def of_json(line: bytes) -> Optional[Written]:
    try:
        text = line.decode("ascii")
        values = json.loads(text)
    except (ValueError, RecursionError):
        return None
    if not text.isprintable() or not isinstance(values, dict) or list(values) != list(COLUMNS):
        return None
    return written(values)


def written(values: Dict[str, Any]) -> Optional[Written]:
    """The row with these values, a text or nothing, and numbers; None where they are others."""
    texts: List[str] = [values[each] or "" for each in ("capture", "name", "type")]
    numbers = [values[each] for each in NUMBERS]
    if not all(isinstance(each, str) for each in texts) or not all(isinstance(each, int) for each in numbers):
        return None
    capture, name, kind = texts
    moment, status = numbers
    return Written(capture, moment, name, kind, status) if status in FROM_BEST else None


TSV = Form("--tsv", ("\t".join(COLUMNS) + "\n").encode(), escaped, of_tsv)
JSONL = Form("--jsonl", b"", str, of_json)
