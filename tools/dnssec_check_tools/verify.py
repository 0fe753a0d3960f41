"""Verifies the signatures that dnssec_check asks about.

Each line `todo ALG KEY DATA SIG`, as `dnssec_check list` and a Pending verdict print it, gives one line on the
standard output: `good ALG KEY DATA SIG` where SIG is a signature of DATA by KEY, else `bad ALG KEY DATA SIG`.
The lines come in the order of the files and of each file, and are a file of statements for `--statements`. A FILE `-`
is the standard input.

With --compact the FILE is the list of `dnssec_check list --compact` for the CAPTURE at the MOMENT. Then the standard
output has a file of answers for `--answers`: a line `of DIGEST MOMENT`, DIGEST being the SHA-256 of the capture, and a
line for each entry of the list in its order, `good` or `bad`, and `-` for what else would be left out. With --from and
--to in place of --moment the list is that of the range, and the line is `of DIGEST FROM TO`.

ALG is a DNSSEC algorithm in decimal. KEY is the key field of a DNSKEY record, without flags, protocol and
algorithm; DATA the signed octets; SIG the signature field of an RRSIG record: each in hex, `-` for no octets.

algorithms:
  5, 7    RSA with SHA-1 (RFC 3110, RFC 5155)
  8, 10   RSA with SHA-256, SHA-512 (RFC 5702)
  13, 14  ECDSA P-256 with SHA-256, P-384 with SHA-384 (RFC 6605)
  15, 16  Ed25519, Ed448 (RFC 8080)

A malformed key or signature is bad. A key of RSA is malformed where its modulus or its exponent begins with a zero
octet or has more than 4096 bits (RFC 3110 2), where its modulus has fewer than 512 bits, with algorithm 10 than 1024
(RFC 5702 2.1, 2.2), where either is even, or where the exponent is below 3 or not below the modulus (RFC 8017 3.1).

A key of EdDSA that is a point of small order, which no secret gives, is malformed too. Where the exponent of a key of
RSA has more than 64 bits, its lines are left out, each with a note.

What is verified within --budget SECONDS of processor time is answered, the rest left out, with one note for all.

Curves need the package cryptography (Debian: python3-cryptography). Where that lacks an algorithm, the lines of this
algorithm are left out, each with a note on the standard error.

exit status: 0, every line was answered, also where some are bad; 1, lines were left out, or answered by `-`, and all
others were written; or a line was refused, which the standard error names, and nothing was written; or reading or
writing failed; 2, the command line is wrong, or the standard output is a file that is read; 130, 143, 129, it was
interrupted or ended by SIGTERM or SIGHUP, and nothing was written.
"""
import argparse
from typing import Any, Callable, Iterable, Iterator, List, Optional, Tuple
from .asking.moments import MOMENT_MOST
from .command import parser_of, read, run, shown, tell, write
from .outputs import overwritten
from .verifying import compact
from .verifying.entries import Entry, Lacking, Refusal, entry_of
from .verifying.verifier import OPEN, Kept, Spent, Verifier, add_budget, digest_of


def moment(text: str) -> int:
    if text.isascii() and text.isdigit() and int(text) <= MOMENT_MOST:
        return int(text)
    raise argparse.ArgumentTypeError(f"{text!r} is no moment in seconds since 1970, from 0 to {MOMENT_MOST}")


def lines_of(path: str) -> List[str]:
    # An octet that is no ASCII becomes a character that no field takes.
    lines = read(path).decode("ascii", "replace").split("\n")
    if lines[-1] == "":
        lines.pop()
    return lines


def place_in(path: str, number: int) -> str:
    return f"line {number} of {shown(path)}"


def entries_of(path: str, passes_over: bool) -> List[Entry]:
    """The entry of each line of a file; with `passes_over`, lines whose first word isn't `todo` have none."""
    return [
        entry_of(line, place_in(path, number))
        for number, line in enumerate(lines_of(path), 1)
        if not passes_over or line.split(" ")[0] == "todo"
    ]


def each_said(entries: Iterable[Any], say: Callable[[Any], str]) -> Iterator[Optional[str]]:
    """What is said of each entry; None of those that can't be verified here, or not within the budget, which are
    told."""
    late: List[str] = []
    for entry in entries:
        try:
            yield say(entry)
        except (Lacking, Spent) as why:
            yield None
            if isinstance(why, Lacking):
                tell(f"left out {entry.place}: {why}")
            else:
                late.append(f"{entry.place}: {why}")
    if late:
        behind = f"{len(late) - 1} more and " if len(late) > 1 else ""
        tell(f"left out {behind}{late[0]}")


def statements_of(entries: Iterable[Entry], verifier: Verifier) -> Iterator[Optional[str]]:
    """The statement on each entry, or None."""
    return each_said(entries, lambda each: verifier.statement_of(each.line, each.place, digest_of(each.line)))


def statements_to(options: argparse.Namespace) -> Tuple[str, bool]:
    """The lines that answer those of the files, and whether all are answered."""
    entries = [entry for path in options.files for entry in entries_of(path, options.from_check)]
    said = list(statements_of(entries, Verifier(options.budget, Kept())))
    return "".join(filter(None, said)), None not in said


def answers_to(options: argparse.Namespace) -> Tuple[str, bool]:
    """The file of answers to a compact list, and whether all of its entries are answered."""
    (path,) = options.files
    heading = compact.heading(compact.digest_of_capture(read(options.capture)), *moments_of(options))
    entries = list(compact.entries_of(lines_of(path), lambda number: place_in(path, number)))
    said = list(each_said(entries, Verifier(options.budget, Kept()).answer_to))
    return heading + "".join(f"{each or OPEN}\n" for each in said), None not in said


def moments_of(options: argparse.Namespace) -> List[int]:
    """The moment of the list, or the first and the last of its range, as they are given."""
    return [each for each in (options.moment, options.first, options.last) if each is not None]


def options_of(words: List[str]) -> argparse.Namespace:
    parser = parser_of(__doc__)
    parser.add_argument(
        "files", nargs="*", default=["-"], metavar="FILE", help="the lines; the standard input by default"
    )
    parser.add_argument("--from-check", action="store_true", help="ignore lines whose first word isn't `todo`")
    parser.add_argument("--compact", action="store_true", help="answer a compact list by number")
    parser.add_argument("--capture", metavar="CAPTURE", help="what the compact list is of")
    parser.add_argument("--moment", type=moment, metavar="MOMENT", help="that of the list, in seconds since 1970")
    parser.add_argument(
        "--from", dest="first", type=moment, metavar="MOMENT", help="the first of the range of the list"
    )
    parser.add_argument("--to", dest="last", type=moment, metavar="MOMENT", help="the last of it")
    add_budget(parser, "of all lines")
    options = parser.parse_args(words)
    fault = fault_of(options)
    if fault:
        parser.error(fault)
    return options


def fault_of(options: argparse.Namespace) -> Optional[str]:
    """What is wrong with the options together."""
    has_range = options.first is not None and options.last is not None
    given = [options.capture is not None, options.moment is not None or has_range]
    if (options.first is None) != (options.last is None) or (has_range and options.moment is not None):
        return "--compact takes --moment, or both of --from and --to"
    if not all(given) if options.compact else any(given):
        return "--compact, --capture and --moment go together, or --from and --to in its place"
    if options.compact and (options.from_check or len(options.files) > 1):
        return "--compact takes one FILE, and no --from-check"
    read_here = [*options.files, *([options.capture] if options.compact else [])]
    if options.compact and read_here.count("-") > 1:
        return "the list and the capture can't both be the standard input"
    clash = overwritten(["-"], read_here)
    return shown(clash) if clash else None


def main(words: List[str]) -> int:
    options = options_of(words)
    try:
        said, is_whole = answers_to(options) if options.compact else statements_to(options)
        write("-", said.encode())
    except (Refusal, OSError) as fault:
        tell(fault)
        return 1
    return 0 if is_whole else 1


def start() -> None:
    """Runs the tool by the words of the command line."""
    run(main)


if __name__ == "__main__":
    start()
