"""The lines that dnssec_check-verify reads: `todo ALG KEY DATA SIG`."""

from __future__ import annotations

import hashlib
from typing import Optional

from dnssec_check_tools import verify
from dnssec_check_tools.verifying.entries import VERIFIERS, Refusal
from dnssec_check_tools.verifying.verifier import Kept, Verifier

from ..target import DATA, EXAMPLES, Desk, Ended, Target, given, kind_of, must, refused

SECONDS = 3  # of the budget
HEX = frozenset("0123456789abcdefABCDEF")
RSA = {5: "SHA1", 7: "SHA1", 8: "SHA256", 10: "SHA512"}
STATEMENT_REFUSED = 501


def run(octets: bytes, desk: Desk) -> Ended:
    with given(octets) as told:
        try:
            entries = verify.entries_of("-", passes_over=False)
        except Refusal as refusal:
            must(not all(map(is_line, lines_of(octets))), f"what a second reading takes is refused: {refusal}")
            return refused(refusal)
        lines = lines_of(octets)
        must(all(map(is_line, lines)), "what a second reading refuses is taken")
        must([each.line for each in entries] == lines, "the entries aren't the lines")
        statements = [*filter(None, verify.statements_of(entries, Verifier(SECONDS, Kept())))]
    left_out = sum(line.startswith("left out") for line in told)
    must(len(statements) == len(entries) or left_out > 0, "a line has no statement, and nothing tells why")
    answered = [line for line in statements if not left_out or line.split(" ", 1)[1][:-1] in octets.decode()]
    must(answered == statements, "a statement on no line")
    for statement in statements:
        check_statement(statement)
    if statements and desk.is_turn():
        check_by_program(statements, desk)
    words = {(line.split(" ")[0], line.split(" ")[1]) for line in statements}
    return Ended(bool(statements), f"{sorted(words)} {sorted({kind_of(line) for line in told})[:4]}")


def lines_of(octets: bytes) -> list[str]:
    lines = octets.decode("ascii", "replace").split("\n")
    return lines[:-1] if lines[-1] == "" else lines


def is_line(line: str) -> bool:
    """Whether it's one by a second reading, which parts it at each blank."""
    fields = line.split(" ")
    if len(fields) != 5 or fields[0] != "todo":
        return False
    return fields[1] in map(str, VERIFIERS) and all(map(is_hex, fields[2:]))


def is_hex(field: str) -> bool:
    return field == "-" or (bool(field) and len(field) % 2 == 0 and HEX.issuperset(field))


def check_statement(statement: str) -> None:
    """What is good by RSA is good by a library too, which the tool does without."""
    word, algorithm, *fields = statement.rstrip("\n").split(" ")
    must(word in ("good", "bad"), f"the word: {word!r}")
    key, data, signature = (b"" if field == "-" else bytes.fromhex(field) for field in fields)
    if int(algorithm) in RSA:
        is_good = is_good_by_library(RSA[int(algorithm)], key, data, signature)
        must(is_good in (None, word == "good"), f"a library says otherwise: {statement[:60]}")


def is_good_by_library(name: str, key: bytes, data: bytes, signature: bytes) -> Optional[bool]:
    """None where the library takes no such key."""
    from cryptography.exceptions import InvalidSignature, UnsupportedAlgorithm
    from cryptography.hazmat.primitives import hashes
    from cryptography.hazmat.primitives.asymmetric import padding, rsa

    size, front = (int.from_bytes(key[:1], "big"), 1) if key[:1] != b"\0" else (int.from_bytes(key[1:3], "big"), 3)
    exponent, modulus = (int.from_bytes(each, "big") for each in (key[front : front + size], key[front + size :]))
    try:
        public = rsa.RSAPublicNumbers(exponent, modulus).public_key()
        public.verify(signature, data, padding.PKCS1v15(), getattr(hashes, name)())
    except InvalidSignature:
        return False
    except (ValueError, UnsupportedAlgorithm, OverflowError):
        return None
    return True


def check_by_program(statements: list[str], desk: Desk) -> None:
    """The program reads what is written as statements, where no two of them contradict."""
    given_files = {
        "capture": (EXAMPLES / "bind-www-a" / "capture").read_bytes(),
        "statements": "".join(statements).encode(),
    }
    said = desk.ask("list", given_files, ["--moment", "1795348800"])
    must(said.number == 0, f"dnssec_check refuses it: {said.number}")


def corpus() -> list[bytes]:
    """What `list` prints of the examples, and what the tests of the verifier have."""
    paths = [DATA / "todo", *sorted(EXAMPLES.glob("*/list.stdout"))]
    found = [path.read_bytes() for path in paths if path.stat().st_size < 30_000]
    unique = {hashlib.sha256(octets).digest(): octets for octets in found if octets}
    return [*unique.values(), *[line + b"\n" for octets in found[:3] for line in octets.splitlines()]]


WORDS = (b"todo", b"good", b"bad", *(str(number).encode() for number in (*VERIFIERS, 1, 6, 12, 17, 255)), b"08", b"-")
TARGET = Target("verify", run, corpus, WORDS)
