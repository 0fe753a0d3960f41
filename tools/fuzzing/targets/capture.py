"""What dnssec_check-capture reads: packets, streams, hex, probes of dnsviz, what is packed, and what tshark prints."""

from __future__ import annotations

import gzip
import itertools
from typing import Iterable, Optional, Sequence

from dnssec_check_tools.asking import captures
from dnssec_check_tools.asking.questions import Question, question_of_line
from dnssec_check_tools.capturing import packed, tshark
from dnssec_check_tools.capturing.answers import MAC_SIZE, Answers, macs_of
from dnssec_check_tools.capturing.entries import Entry, Found, Message, Refusal, of_messages
from dnssec_check_tools.capturing.frames import MESSAGES_MOST, framed, frames_of
from dnssec_check_tools.capturing.messages import is_query, is_truncated, name_text, opcode_of
from dnssec_check_tools.capturing.notes import notes_of
from dnssec_check_tools.capturing.pcap import is_packet_capture
from dnssec_check_tools.capturing.sources import entries_of, other_kind_of
from dnssec_check_tools.capturing.splitting import RECORDS_MOST, Parts, file_name, part_of
from dnssec_check_tools.command import tell

from ..changes import Draw, lines_of
from ..target import DATA, EXAMPLES, Desk, Ended, Target, given, kind_of, must, refused

PORTS = {53, 5300, 5391, 15301}
KINDS = (None, "stream", "hex", "dnsviz", "pcap", "dig", "atlas", "dnstap")
UNPACKED_MOST = 1 << 20  # in place of a GiB
NAME_MOST = 255  # octets of a file's name
WRONG_FRAMES = (208, 209)


def parts_of(octets: bytes) -> list[bytes]:
    """A packet capture's header and its packets, a stream's messages, or lines."""
    if is_packet_capture(octets):
        return packets_of(octets)
    messages, end = frames_of(octets)
    return [*(framed([each]) for each in messages), octets[end:]] if len(messages) > 1 else lines_of(octets)


def packets_of(octets: bytes) -> list[bytes]:
    """The pieces of a pcap or a pcapng of this machine's order, as long as they say; the rest is one."""
    is_pcapng, place = octets[:4] == b"\n\r\r\n", 0
    parts = [] if is_pcapng else [octets[:24]]
    place = sum(map(len, parts))
    while place < len(octets):
        at, more = (place + 4, 0) if is_pcapng else (place + 8, 16)
        size = int.from_bytes(octets[at : at + 4], "little") + more
        end = place + size if 12 <= size <= len(octets) - place else len(octets)
        parts.append(octets[place:end])
        place = end
    return parts


def packed_again(octets: bytes, draw: Draw) -> bytes:
    """Packed by gzip, torn at times or with something behind."""
    if draw.random() > 0.03:
        return octets
    whole = gzip.compress(octets, 1, mtime=0)
    return draw.choice((whole, whole, whole[: draw.randrange(len(whole))], whole + bytes(9), whole + whole))


def found_by_tshark(octets: bytes) -> Sequence[Found]:
    """What is read where tshark prints this."""
    tshark.run_tshark = lambda *_: (octets, None)
    return entries_of("tshark", "-", PORTS)


def found_in(octets: bytes, kind: Optional[str]) -> Sequence[Found]:
    packed.UNPACKED_MOST = captures.OTHER_MOST = UNPACKED_MOST
    return found_by_tshark(octets) if kind == "tshark" else entries_of(kind, "-", PORTS)


def run(octets: bytes, desk: Desk) -> Ended:
    """By each kind; it's taken where one takes it."""
    kinds = (*KINDS, "tshark") if octets[:1] == b"[" else KINDS
    ends = [ended_of(octets, kind, desk) for kind in kinds]
    return Ended(any(end.is_taken for end in ends), "; ".join(end.how for end in ends))


def ended_of(octets: bytes, kind: Optional[str], desk: Desk) -> Ended:
    with given(octets) as told:
        try:
            found = found_in(octets, kind)
            kept = kept_of(of_messages(found))
        except Refusal as refusal:
            return refused(refusal)
        if kind is None:
            check_judged(octets, kept[0])
    for messages in kept:
        check_kept(messages)
        check_split(messages)
    if any(kept) and desk.is_turn():
        check_by_program(kept[0] or kept[1], desk)
    whys = sorted({kind_of(line) for line in told})
    return Ended(any(map(any, kept)), f"{list(map(bool, kept))} {whys[:6]}")


def kept_of(entries: list[Entry]) -> list[list[bytes]]:
    """The messages that are kept of a file as it is, and where the MACs of the requests are asked for."""
    return [answers_of(entries, itertools.repeat(b"")), answers_of(entries, macs_of(entries))]


def answers_of(entries: list[Entry], macs: Iterable[Optional[bytes]]) -> list[bytes]:
    answers = Answers(False, tell)
    try:
        answers.take_all(entries, macs)
    except Refusal as refusal:
        must("has " in str(refusal), f"a refusal of answers: {refusal}")
        return []
    must(all(len(mac) in (0, MAC_SIZE) for _, mac in answers.kept), "a MAC of another length")
    messages = [octets for octets, _ in answers.kept]
    for note in notes_of(messages, answers.truncated):
        must(note.isprintable(), f"a note that can't be shown: {note!r}")
    return messages


def check_judged(octets: bytes, messages: list[bytes]) -> None:
    """What judge makes of a file of another kind is the same capture, if it's one."""
    kind, captures.PORTS = other_kind_of(octets), PORTS
    if kind is None:
        return
    try:
        made = captures.capture_of(octets, kind, "-")
    except captures.Unmade as refusal:
        must(not 0 < len(messages) <= MESSAGES_MOST, f"judge refuses what is a capture: {refusal}")
    else:
        must(made == framed(messages), "judge makes another capture of it")


def check_kept(messages: list[bytes]) -> None:
    """Each is a whole answer to a question, and none is there twice; written and read again they are the same."""
    must(frames_of(framed(messages)) == (messages, len(framed(messages))), "written and read again they differ")
    must(len({each[2:] for each in messages}) == len(messages), "one is there twice")
    for each in messages:
        must(12 <= len(each) <= 65535, f"a message of {len(each)} octets")
        must(not is_query(each) and not is_truncated(each) and opcode_of(each) == 0, "it answers no question")
    again = [Message(each, "again") for each in messages]
    must(answers_of(list(again), itertools.repeat(b"")) == messages, "of what is kept something is dropped")


def check_split(messages: list[bytes]) -> None:
    """Each message is in a capture, and each capture and its name are within their limits; what lists its question is
    read as that."""
    seen: set[bytes] = set()
    left_out = 0
    for number, (question, answers, more) in enumerate(Parts(messages).captures(), 1):
        seen.update(answers)
        left_out += more
        must(0 < len(answers) <= MESSAGES_MOST, f"a capture of {len(answers)} messages")
        records = sum(part_of(each).records for each in answers)
        must(len(answers) == 1 or records <= RECORDS_MOST, f"a capture of {records} records")
        name = file_name(number, question)
        must(
            "/" not in name and name.isprintable() and len(name + ".cap") <= NAME_MOST, f"the name of a file: {name!r}"
        )
        text = name_text(question.name)
        must(
            question_of_line(f"{text} {question.kind}") == Question(text, question.kind),
            f"the question of a capture: {text!r}",
        )
    must(left_out > 0 or seen == set(messages), "a message is in no capture")
    must(seen <= set(messages), "a capture has a message that wasn't given")


def check_by_program(messages: list[bytes], desk: Desk) -> None:
    """To the program it's a file of messages, whatever it says of each."""
    said = desk.ask("show", {"capture": framed(messages[:MESSAGES_MOST])})
    must(said.number not in WRONG_FRAMES, f"dnssec_check refuses it: {said.number}")


def corpus() -> list[bytes]:
    """The packets, probes and streams of the tools' tests, and the captures of the examples."""
    paths = [
        *sorted((DATA / "packets").glob("*.*")),
        *sorted(DATA.glob("signed.*")),
        DATA / "dnsviz" / "probe.json",
        *sorted((DATA / "dig").glob("*.txt")),
        *sorted((DATA / "dnstap").glob("*.tap")),
        DATA / "atlas" / "results.json",
        *sorted(EXAMPLES.glob("*/capture")),
    ]
    return [path.read_bytes() for path in paths if path.is_file() and path.stat().st_size < 30_000]


WORDS = (
    *(b'"queries"', b'"qname"', b'"qtype"', b'"responses"', b'"message"', b'"error"', b"null", b"true", b"[]", b"{}"),
    *(b'"resultset"', b'"result"', b'"abuf"', b'"prb_id"', b'"dst_addr"', b";; ->>HEADER<<- opcode: QUERY, status: "),
    *(
        b"NXDOMAIN",
        b"BADVERS",
        b";; ANSWER SECTION:",
        b";; flags: qr aa; QUERY: 1",
        b"IN",
        b"TYPE65280 \\# 2 0102",
        b"(",
    ),
    *(b'"_source"', b'"layers"', b'"frame"', b'"dns"', b'"dns_raw"', b'"udp"', b'"tcp"', b'"ip"', b'"frame.number"'),
    *(b"NaN", b"[" * 2000, b'{"a":' * 2000, b'"\\ud800"', b'"\\u0000"', b"0000", b"c00c", b"c0ff", b": ", b"#", b";"),
    *(
        b"\xc0\x0c",
        b"\xc0\x00",
        b"\x00\x30\x00\x01",
        b"\x00\x2e\x00\x01",
        b"\x00\xfa\x00\xff",
        b"\x84\x00",
        b"\x01\x00",
    ),
    *(b"\x08\x00\x45\x00", b"\x86\xdd\x60", b"\x81\x00", b"\xd4\xc3\xb2\xa1", b"\x0a\x0d\x0d\x0a", b"\x1f\x8b\x08"),
)
TARGET = Target("capture", run, corpus, WORDS, parts_of, (packed_again,))
