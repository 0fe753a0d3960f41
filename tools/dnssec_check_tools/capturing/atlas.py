"""The answers that probes of RIPE Atlas got, which the results of its measurements have in base64 (`abuf`)."""
import base64
import json
import re
from typing import Any, Dict, Iterator, List

from ..command import shown
from .entries import Entry, Message, Omission, Refusal

# What a result has, by which it's told from other JSON, and how far is looked for that.
MARK, LOOKED_AT = re.compile(rb'"(?:msm_id|prb_id|abuf)"\s*:'), 4096


def is_atlas(octets: bytes) -> bool:
    return MARK.search(octets[:LOOKED_AT]) is not None


def results_of(octets: bytes, path: str) -> List[Dict[str, Any]]:
    """The results, which are a list, one of them, or one a line."""
    try:
        values = values_of(octets.decode("utf-8", "replace"))
    except (ValueError, RecursionError) as fault:
        raise Refusal(f"{path}: no results of RIPE Atlas") from fault
    results = [each for value in values for each in (value if isinstance(value, list) else [value])]
    if not all(isinstance(each, dict) for each in results):
        raise Refusal(f"{path}: no results of RIPE Atlas")
    return results


def values_of(text: str) -> List[Any]:
    """The value of JSON that the text is, or those of its lines."""
    try:
        return [json.loads(text)]
    except ValueError:
        return [json.loads(line) for line in text.splitlines() if line.strip()]


def parts_of(result: Dict[str, Any]) -> List[Any]:
    """What each server answered, of which a result may have several."""
    parts = result.get("resultset", [result])
    return parts if isinstance(parts, list) else [parts]


def entry_of(part: Any, probe: str, path: str) -> Entry:
    values = part if isinstance(part, dict) else {}
    place = f"the answer of {shown(str(values.get('dst_addr', 'a server')))} to probe {probe} of {path}"
    answer = values.get("result")
    octets = answer.get("abuf") if isinstance(answer, dict) else None
    if not isinstance(octets, str):
        return Omission(place, f"there is none: {shown(str(values.get('error', 'unknown')))}")
    try:
        return Message(base64.b64decode(octets, validate=True), place)
    except ValueError:
        return Omission(place, "it isn't base64")


def entries_of_atlas(octets: bytes, path: str) -> Iterator[Entry]:
    for result in results_of(octets, path):
        probe = shown(str(result.get("prb_id", "unknown")))
        for part in parts_of(result):
            yield entry_of(part, probe, path)
