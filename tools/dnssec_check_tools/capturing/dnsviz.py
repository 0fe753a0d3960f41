"""The answers of a `dnsviz probe`, which its JSON has in base64."""
import base64
import json
from typing import Any, Counter, Dict, Iterator, List, Tuple

from ..command import shown

from .entries import Entry, Found, Message, Omission, PassedOver, Refusal
from .messages import is_message, is_query, is_truncated, is_with_do, rcode_of

NO_ERROR, NO_SUCH_NAME = 0, 3
NO_ANSWER = 3  # the last rank


def queries_of(octets: bytes, path: str) -> Iterator[Tuple[str, List[Tuple[str, Dict[str, Any]]]]]:
    """Each question that was asked, as text, and for each server that was asked what it answered."""
    try:
        for asked in json.loads(octets).values():
            for query in asked.get("queries", ()):
                text = f"{query['qname']} {query['qtype']}"
                yield text, [
                    (server, dict(response))
                    for server, clients in query["responses"].items()
                    for response in clients.values()
                ]
    except (ValueError, KeyError, TypeError, AttributeError, RecursionError) as fault:
        raise Refusal(f"{path}: no output of dnsviz probe") from fault


def answer_of(text: str, server: str, response: Dict[str, Any], path: str) -> Entry:
    place = f"the answer of {shown(server)} to {shown(text)} of {path}"
    if not isinstance(response.get("message"), str):
        return Omission(place, f"there is none: {shown(str(response.get('error', 'unknown')))}")
    try:
        return Message(base64.b64decode(response["message"], validate=True), place)
    except ValueError:
        return Omission(place, "it isn't base64")


def rank_of(entry: Entry) -> int:
    """An answer that is whole goes before what is none, among those one without an error of the server, and among those
    one with the flag DO: where nothing came back, dnsviz asks without it, and gets no signatures."""
    if not isinstance(entry, Message) or not is_message(entry.octets):
        return NO_ANSWER
    if is_query(entry.octets) or is_truncated(entry.octets):
        return NO_ANSWER
    if rcode_of(entry.octets) not in (NO_ERROR, NO_SUCH_NAME):
        return 2
    return 0 if is_with_do(entry.octets) else 1


def entries_of_dnsviz(octets: bytes, path: str) -> List[Found]:
    """Of all answers to a question the first of the best rank."""
    questions: Dict[str, List[Entry]] = {}
    for text, responses in queries_of(octets, path):
        answers = questions.setdefault(text.lower(), [])
        answers += [answer_of(text, server, response, path) for server, response in responses]
    entries: List[Found] = []
    others: Counter[str] = Counter()
    for answers in questions.values():
        best = min(answers, key=rank_of, default=None)
        if best is None or rank_of(best) == NO_ANSWER:
            entries += answers
        else:
            entries.append(best)
            others["questions that have one"] += len(answers) - 1
    return [*entries, PassedOver(f"answers of {path}", others)] if sum(others.values()) else entries
