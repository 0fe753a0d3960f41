"""The compact lists that dnssec_check-verify answers by number."""

from __future__ import annotations

import hashlib
from typing import Optional

from dnssec_check_tools import verify
from dnssec_check_tools.verifying.compact import Entry, entries_of
from dnssec_check_tools.verifying.entries import VERIFIERS, Refusal
from dnssec_check_tools.verifying.verifier import Kept, Verifier

from ..target import EXAMPLES, Desk, Ended, Target, given, kind_of, must, refused

SECONDS = 3  # of the budget
HEX = frozenset("0123456789abcdef")
ANSWERS_LACK = 807
FRONT_LEAST = 19  # octets of an RRSIG record before the signature, where the signer is the root
CAPTURE, MOMENT = EXAMPLES / "bind-www-a" / "capture", "1795348800"


def run(octets: bytes, desk: Desk) -> Ended:
    with given(octets) as told:
        lines = verify.lines_of("-")
        wanted = second_reading(lines)
        try:
            entries = list(entries_of(lines, str))
        except Refusal as refusal:
            must(wanted is None, f"what a second reading takes is refused: {refusal}")
            return refused(refusal)
        must(wanted is not None, "what a second reading refuses is taken")
        must(list(map(text_of, entries)) == wanted, "another entry than a second reading has")
        answers = list(verify.each_said(entries, Verifier(SECONDS, Kept()).answer_to))
    must(None not in answers or any(line.startswith("left out") for line in told), "nothing tells why one is open")
    if desk.is_turn():
        check_by_program([each or "-" for each in answers], desk)
    return Ended(bool(entries), f"{sorted({str(each) for each in answers})} {sorted(map(kind_of, told))[:4]}")


def text_of(entry: Entry) -> str:
    fields = entry.key.octets, entry.data(), entry.signature.octets
    return " ".join([str(entry.key.algorithm), *(each.hex() or "-" for each in fields)])


def second_reading(lines: list[str]) -> Optional[list[str]]:
    """The entries as `list` has them, by a reading that parts each line at its blanks; None where it's no list."""
    keys: list[str] = []
    rrsets: dict[str, list[str]] = {}
    signatures: dict[tuple[str, str], str] = {}
    found: list[str] = []
    last = (0, 0)
    for line in lines:
        word, *fields = line.split(" ")
        if word == "key" and is_key(fields) and fields[0] == str(len(keys) + 1) and not rrsets and not found:
            keys.append(" ".join(fields[1:]))
        elif word == "rrset" and is_rrset(fields) and int(fields[0]) > last[0] and not found:
            last, rrsets[fields[0]] = (int(fields[0]), 0), fields[1:]
        elif word == "signature" and is_signature(fields, rrsets) and next_to(fields, last) and not found:
            last = int(fields[0]), int(fields[1])
            signatures[fields[0], fields[1]] = f"{signed(fields[2], *rrsets[fields[0]])} {fields[3]}"
        elif word == "todo" and is_todo(fields, len(found), keys, signatures):
            algorithm, key = keys[int(fields[1]) - 1].split(" ")
            found.append(f"{algorithm} {key} {signatures[fields[2], fields[3]]}")
        else:
            return None
    return found


def is_number(field: str, most: int = 9_999_999_999) -> bool:
    return field.isascii() and field.isdigit() and len(field) <= 10 and str(int(field)) == field and int(field) <= most


def is_hex(field: str) -> bool:
    return field == "-" or (bool(field) and len(field) % 2 == 0 and HEX.issuperset(field))


def is_name(field: str) -> bool:
    """Whether it's a name in wire form, to its end."""
    digits, count = field, 0
    while digits[:2] not in ("", "00") and is_hex(digits) and digits != "-":
        length = int(digits[:2], 16)
        if length > 63 or len(digits) < 2 * length + 2:
            return False
        digits, count = digits[2 * length + 2 :], count + length + 1
    return digits == "00" and count < 255


def is_key(fields: list[str]) -> bool:
    return len(fields) == 3 and fields[1] in map(str, VERIFIERS) and is_hex(fields[2])


def is_rrset(fields: list[str]) -> bool:
    if len(fields) < 4 or not is_number(fields[0]) or not is_name(fields[1]) or not is_number(fields[2], 65535):
        return False
    return all(is_hex(field) and len(field) <= 2 * 65535 for field in fields[3:])


def is_signature(fields: list[str], rrsets: dict[str, list[str]]) -> bool:
    if len(fields) != 4 or fields[0] not in rrsets or not all(map(is_number, fields[:2])):
        return False
    if not all(map(is_hex, fields[2:])) or len(fields[2]) < 2 * FRONT_LEAST:
        return False
    return int(fields[2][6:8], 16) <= len(counted(rrsets[fields[0]][0]))


def next_to(fields: list[str], last: tuple[int, int]) -> bool:
    return int(fields[0]) == last[0] and int(fields[1]) > last[1]


def is_todo(fields: list[str], count: int, keys: list[str], signatures: dict[tuple[str, str], str]) -> bool:
    if len(fields) != 4 or not all(map(is_number, fields)) or fields[0] != str(count + 1):
        return False
    return 0 < int(fields[1]) <= len(keys) and (fields[2], fields[3]) in signatures


def counted(owner: str) -> list[str]:
    """The labels that a signature counts."""
    labels = []
    while owner != "00":
        end = 2 * int(owner[:2], 16) + 2
        labels.append(owner[:end])
        owner = owner[end:]
    return labels[1:] if labels[:1] == ["012a"] else labels


def signed(front: str, owner: str, kind: str, *rdata: str) -> str:
    """The signed octets (RFC 4034 3.1.8.1)."""
    labels = counted(owner)
    left = int(front[6:8], 16)
    if left < len(labels):
        owner = "012a" + "".join(labels[len(labels) - left :]) + "00"
    fields = ["" if field == "-" else field for field in rdata]
    head = f"{owner}{int(kind):04x}0001{front[8:16]}"
    return front + "".join(f"{head}{len(field) // 2:04x}{field}" for field in fields)


def check_by_program(answers: list[str], desk: Desk) -> None:
    """The program reads the answers, of which there may be more or fewer than it has entries."""
    octets = CAPTURE.read_bytes()
    heading = f"of {hashlib.sha256(octets).hexdigest()} {MOMENT}\n"
    files = {
        "capture": octets,
        "anchors": (EXAMPLES / "anchors").read_bytes(),
        "answers": "".join([heading, *(f"{each}\n" for each in answers)]).encode(),
    }
    said = desk.ask("check", files, ["--moment", MOMENT, "--name", "www.bind.test.", "--type", "1"])
    must(said.number in (0, ANSWERS_LACK), f"dnssec_check refuses it: {said.number}")


def corpus() -> list[bytes]:
    """What `list --compact` prints of the examples."""
    paths = sorted(EXAMPLES.glob("compact-*/list-compact.stdout"))
    return [path.read_bytes() for path in paths if path.stat().st_size < 30_000]


WORDS = (b"key", b"rrset", b"signature", b"todo", b"1", b"0", b"13", b"00", b"012a", b"0130", b"-", b"65536")
TARGET = Target("compact", run, corpus, WORDS)
