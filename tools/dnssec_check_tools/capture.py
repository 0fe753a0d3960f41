"""Makes a capture file for dnssec_check from answers as people have them.

A capture file has DNS messages, each after its length in two octets, as TCP carries them (RFC 1035 4.2.2). The
answers are taken in the order of the command line and of each file; `-` is the standard input. Of a file that is named
alone the octets tell the kind: a packet capture, dnstap, the JSON of dnsviz or of RIPE Atlas, what dig prints, text in
hex, else a stream. What gzip packed is unpacked, and what zstd packed where Python has a library for it, but for a file
of --stream.

A file of --stream has what a server sent over TCP, octet by octet. A file of --pcap is a pcap or a pcapng of DNS over
UDP and TCP; segments of TCP are put in order, and those that were sent again are taken once. After a gap the messages
are kept that begin with a segment and are whole. A file of --hex has a message a line; spaces and colons between octets
are ignored, and so are lines that are empty or begin with `#` or `;`.

A file of --tshark is any packet capture that tshark reads; tshark takes the messages out, and so also those of
fragments and of every encapsulation that it knows. A file of --dnsviz is the output of `dnsviz probe`; of several
servers' answers to a question the first is kept that is whole, without an error, and to a query with the flag DO; else
one that lacks the last of these, or the last two. A file of --atlas has results of RIPE Atlas, with `abuf`.
A file of --dnstap is a frame stream, as servers and `kdig -E` write it; it needs the package protobuf (Debian:
python3-protobuf).

A file of --dig is what dig, kdig or drill printed with its head (`->>HEADER<<-`), of one answer or of several. Messages
are written anew from it, which a note says: with the same records, and in other octets than those of the server. It
needs the package dnspython (Debian: python3-dnspython).

Dropped, each with a line on the standard error that says which and why, are responses to what is no question (NOTIFY,
UPDATE), truncated answers (the flag TC), repeats (only the identifier differs from an earlier message), what is too
short or too long for a message, and what a packet capture doesn't have whole. Queries are dropped too, and counted in
one line. Packets of other ports than those of --port, and of what isn't UDP or TCP straight over IP, are passed over,
and a line counts and names them. Last come the notes, of what costs a verdict: answers that are truncated and weren't
asked again by TCP; signatures, or the DNSKEY records of a signer, that aren't there; and which answers are SERVFAIL, as
a resolver that validates answers where a name is Bogus: with the flag CD (`delv +cd`) it hands out what it has. With
--quiet only notes and refusals are printed.

With --macs, what `dnssec_check check --macs` reads is written too: for each message of the capture file a line with the
MAC of the request that it answers (TSIG, RFC 8945), in hex, or `-` where the request wasn't signed. The request is the
last one before the answer with the same questions and the same identifier, else with an identifier that either TSIG
record has; in packets, of the same protocol, addresses and ports too. Messages of other files have no connection: so
name the file of what the client sent before that of what the server sent. An answer is dropped where its request isn't
there.

With --split, a folder gets a capture for each question, as many as there are: its answers, those to the questions that
its aliases lead to, and the DNSKEY and DS answers of the zones at and above their names. They are numbered and named by
the question, as `0001-www.example.-1.cap`; the file `questions` beside them has a line for each, with the file's name
before `.cap`, and the name and type of the question.

exit status: 0, the files were written; 1, something was refused, which the standard error names, and nothing was
written: a 65th message without --split, a stream that ends within a message or has one of length 0, a line that isn't
hex, a file that can't be read, a MAC that isn't one of 32 octets, or that no answer was left; or writing failed; 2, the
command line is wrong, or an output is a file that is read; 130, 143, 129, it was interrupted, or ended by SIGTERM or
SIGHUP.
"""
import argparse
import itertools
from typing import Any, Iterable, List, Optional

from .capturing.answers import Answers, macs_of
from .capturing.entries import Note, PassedOver, Refusal, of_messages
from .capturing.frames import framed
from .capturing.notes import notes_of
from .capturing.sources import entries_of
from .capturing.splitting import write_captures
from .command import parser_of, run, shown, tell, write
from .outputs import is_same_output, overwritten


def passed_over_text(entry: PassedOver) -> str:
    kinds = ", ".join(f"{count} of {kind}" for kind, count in entry.counts.most_common())
    return f"passed over {entry.what}: {kinds}"


# The command line


def port(text: str) -> int:
    if text.isascii() and text.isdigit() and 1 <= int(text) <= 65535:
        return int(text)
    raise argparse.ArgumentTypeError(f"{text!r} is no number from 1 to 65535")


WITHOUT_VALUE = ("--help", "--version", "--quiet")


class Source(argparse.Action):
    """Keeps the files of all kinds in the order of the command line."""

    def __call__(
        self, parser: argparse.ArgumentParser, namespace: argparse.Namespace, value: Any, option: Optional[str] = None
    ) -> None:
        namespace.sources = [*namespace.sources, (None if self.dest == "file" else self.dest, value)]


def with_options(words: List[str]) -> List[str]:
    """The words with an option at each file that is named alone; each option but some has a value."""
    given: List[str] = []
    left = iter(words)
    for word in left:
        if word == "--":
            return given + [f"--file={name}" for name in left]
        is_file = word == "-" or not word.startswith("-")
        given.append(f"--file={word}" if is_file else word)
        if word.startswith("--") and "=" not in word and word not in WITHOUT_VALUE:
            given += itertools.islice(left, 1)
    return given


def command_line() -> argparse.ArgumentParser:
    parser = parser_of(__doc__)
    parser.usage = "%(prog)s [OPTION ..] FILE .."
    parser.add_argument("--file", action=Source, help=argparse.SUPPRESS)
    parser.add_argument("--stream", action=Source, metavar="FILE", help="messages, each after its length")
    parser.add_argument("--pcap", action=Source, metavar="FILE", help="packets, as tcpdump and tshark write them")
    parser.add_argument("--hex", action=Source, metavar="FILE", help="a message a line")
    parser.add_argument("--tshark", action=Source, metavar="FILE", help="packets, as tshark reads them")
    parser.add_argument("--dnsviz", action=Source, metavar="FILE", help="the output of `dnsviz probe`")
    parser.add_argument("--dig", action=Source, metavar="FILE", help="text, as dig, kdig and drill print it")
    parser.add_argument("--atlas", action=Source, metavar="FILE", help="results of RIPE Atlas")
    parser.add_argument("--dnstap", action=Source, metavar="FILE", help="a frame stream of dnstap")
    parser.add_argument("--port", action="append", type=port, metavar="N", help="a port of DNS; 53 where none is given")
    parser.add_argument("--output", metavar="FILE", help="the capture file; the standard output by default")
    parser.add_argument("--macs", metavar="FILE", help="also write the MACs of the requests, a line for each message")
    parser.add_argument("--split", metavar="FOLDER", help="write a capture for each question into a new folder")
    parser.add_argument("--quiet", action="store_true", help="print only what costs a verdict, and what is refused")
    parser.set_defaults(sources=[])
    return parser


def output_of(options: argparse.Namespace) -> str:
    return "-" if options.output is None else options.output


def fault_of(options: argparse.Namespace) -> Optional[str]:
    """What is wrong with the command line as a whole, None where it is none."""
    paths, output = [path for _, path in options.sources], output_of(options)
    if not paths:
        return "no file is named"
    if paths.count("-") > 1:
        return "the standard input is named twice"
    if options.split is not None and (options.output, options.macs) != (None, None):
        return "--split writes into its folder, and goes without --output and --macs"
    if options.macs is not None and is_same_output(options.macs, output):
        return f"--macs and --output would both be {'the standard output' if output == '-' else shown(output)}"
    clash = overwritten([output] if options.macs is None else [output, options.macs], paths)
    return clash and shown(clash)


def silent(_: str) -> None:
    """What is told of what costs no verdict, where --quiet is given."""


def make(options: argparse.Namespace) -> Optional[str]:
    """Reads, tells and writes; answers what was kept, None where that isn't told."""
    ports, say = set(options.port or [53]), silent if options.quiet else tell
    found = [each for kind, path in options.sources for each in entries_of(kind, path, ports)]
    entries = of_messages(found)
    macs: Iterable[Optional[bytes]] = itertools.repeat(b"") if options.macs is None else macs_of(entries)
    answers = Answers(options.split is None, say)
    answers.take_all(entries, macs)
    for each in found:
        if isinstance(each, PassedOver):
            say(passed_over_text(each))
    messages = [octets for octets, _ in answers.kept]
    for text in [each.text for each in found if isinstance(each, Note)] + notes_of(messages, answers.truncated):
        tell(f"note: {text}")
    if not messages:
        raise Refusal("no answer was left")
    kept = f"kept {len(messages)} of {len(entries)}" + written(options, answers)
    return None if options.quiet else kept


def written(options: argparse.Namespace, answers: Answers) -> str:
    """Writes the captures; answers what is to be said of that behind what was kept."""
    messages = [octets for octets, _ in answers.kept]
    if options.split is not None:
        return f", in {write_captures(options.split, messages)} captures"
    write(output_of(options), framed(messages))
    if options.macs is not None:
        write(options.macs, "".join((mac.hex() or "-") + "\n" for _, mac in answers.kept).encode())
    return ""


def main(words: List[str]) -> int:
    parser = command_line()
    options = parser.parse_args(with_options(words))
    fault = fault_of(options)
    if fault:
        parser.error(fault)

    try:
        kept = make(options)
        if kept:
            tell(kept)
    except (Refusal, OSError) as fault:
        tell(f"refused: {fault}")
        return 1
    return 0


def start() -> None:
    """Runs the tool by the words of the command line."""
    run(main)


if __name__ == "__main__":
    start()
