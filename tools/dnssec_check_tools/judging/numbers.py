"""The numbers of what is refused or fails, with what is wrong and what to do: the one table of them."""
import functools
from importlib import resources
from typing import Any, Dict, NamedTuple

# The words of a refusal that tell a place, as they are shown.
PLACES = ("message", "record", "line")


class Number(NamedTuple):
    number: int
    where: str
    what: str
    remedy: str


@functools.lru_cache(None)
def numbers() -> Dict[int, Number]:
    """The table by number."""
    lines = resources.files(__package__).joinpath("numbers.tsv").read_text("utf-8").splitlines()[1:]
    rows = (line.split("\t") for line in lines)
    return {int(number): Number(int(number), *texts) for number, *texts in rows}


def lowered(sentence: str) -> str:
    """A sentence as it stands within another: without its capital and its full stop."""
    is_word = sentence[:2].isupper() and sentence[:2].isalpha()
    front = sentence[0] if is_word or " " not in sentence else sentence[0].lower()
    return front + sentence[1:].rstrip(".").rstrip()


def fault_text(evidence: Dict[str, Any], paths: Dict[str, str]) -> str:
    """What is wrong, where, and what to do; `paths` has those of the caller by the names of the options."""
    row = numbers().get(evidence.get("number", -1))
    if row is None:
        return evidence.get("said") or str(evidence.get("number"))
    where = evidence.get("file", row.where)
    place = " ".join(f"{name} {evidence[name]}" for name in PLACES if name in evidence)
    path = paths.get(where)
    of = f"the {where}" + (f" {path}" if path else "")
    words = {"-": [place], "name": ["the name"], "type": ["the type"]}.get(where, [place, "of" if place else "", of])
    text = " ".join(word for word in [str(row.number), *words] if word)
    return f"{text}: {lowered(row.what)}; {lowered(row.remedy)}"
