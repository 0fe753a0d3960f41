"""The options of dnssec_check-judge, and what is wrong with them together."""
import argparse
from typing import Any, List, Optional

from .asking.anchors import ROOT
from .command import parser_of
from .judging.cluster import WAIT_SECONDS
from .judging.skew import skew_of
from .odd.options import add_odd
from .program import NAME
from .timelines.options import add_timeline, fault_of_timeline
from .verifying.verifier import add_budget, add_budget_octets, add_budget_questions
from .zones.audit import port

INPUTS = ("anchors", "keys", "macs", "questions", "resume")  # the options that name a file to read


def whole_number(text: str) -> int:
    if text.isascii() and text.isdigit() and 0 < int(text) < 10000:
        return int(text)
    raise ValueError


def command_line(text: Optional[str]) -> argparse.ArgumentParser:
    parser = parser_of(text)
    parser.usage = "%(prog)s [OPTION ..] WORD ..\n       %(prog)s --records CAPTURE .."
    parser.add_argument("words", nargs="*", metavar="WORD", help="a question NAME/TYPE, a capture, or a folder of them")
    parser.add_argument(
        "--at",
        action="append",
        metavar="MOMENT",
        help="`now`, seconds since 1970, 2026-11-22T12:00:00Z, or a day, 2026-11-22, for 0:00 in UTC; once for each "
        "moment; now by default",
    )
    add_timeline(parser)
    parser.add_argument("--skew", type=skew_of, default=0, metavar="SECONDS", help="say what differs so long around it")
    parser.add_argument(
        "--anchors",
        action="append",
        metavar="FILE",
        help=f"lines DS and KEY, DS and DNSKEY records of a zone file, or IANA's XML; {ROOT} by default",
    )
    parser.add_argument("--keys", action="append", metavar="FILE", help="TSIG keys, as the program reads them")
    parser.add_argument("--macs", action="append", metavar="FILE", help="the MACs of the requests of one capture")
    parser.add_argument(
        "--questions",
        action="append",
        default=[],
        metavar="FILE",
        help="a question a line, NAME/TYPE or NAME TYPE; what follows # is ignored",
    )
    parser.add_argument(
        "--every", action="store_true", help="ask each capture for all that it has, and sum up; without questions"
    )
    parser.add_argument(
        "--zone", action="store_true", help="ask a zone, whose transfer is in the files, for all that it has and denies"
    )
    parser.add_argument(
        "--port", action="append", type=port, metavar="N", help="of --zone: a port of DNS in packets; 53"
    )
    parser.add_argument("--tsv", action="store_true", help="a table, its fields separated by tabs")
    parser.add_argument("--jsonl", action="store_true", help="an object of JSON for each question")
    parser.add_argument(
        "--resume",
        action="append",
        metavar="TABLE",
        help="take the rows of captures that are whole in this table of an earlier run, and judge the others",
    )
    parser.add_argument(
        "--html",
        action="append",
        metavar="FILE",
        help="write a page with the sentences, a picture of each chain, and the records; needs Graphviz",
    )
    add_odd(parser)
    parser.add_argument("--records", action="store_true", help="print the records of the captures, with their numbers")
    add_budget(parser, "of a capture")
    add_budget_octets(parser, "of a capture")
    add_budget_questions(parser, "of a capture")
    parser.add_argument(
        "--jobs", type=whole_number, metavar="N", help="processes at once; as many as processors by default"
    )
    parser.add_argument("--scheduler", action="append", metavar="ADDRESS", help="the address of a Dask scheduler")
    parser.add_argument(
        "--wait",
        type=whole_number,
        metavar="SECONDS",
        help=f"how long to wait for a scheduler, and for a worker of it; {WAIT_SECONDS} where it isn't given",
    )
    parser.add_argument("--program", action="append", metavar="FILE", help=f"where {NAME} is, if not on the path")
    return parser


def fault_of(options: argparse.Namespace) -> Optional[str]:
    """What is wrong with the words and options together, None where nothing is."""
    inputs = [path for name in INPUTS for path in getattr(options, name) or ()]
    if (options.words + inputs).count("-") > 1:
        return "the standard input is named twice"
    for name in ("anchors", "keys", "macs", "resume", "scheduler", "program", "html"):
        if len(getattr(options, name) or ()) > 1:
            return f"--{name} is given twice"
    if options.tsv and options.jsonl:
        return "--tsv and --jsonl exclude each other"
    if options.macs and not options.keys:
        return "--macs needs --keys: without keys no MAC is checked"
    if options.scheduler and (options.program or options.jobs):
        return "--scheduler goes without --program and --jobs: its workers have their own"
    if options.wait and not options.scheduler:
        return "--wait goes with --scheduler"
    if options.port and not options.zone:
        return "--port goes with --zone"
    if options.zone and (options.every or options.keys or options.html):
        return "--zone goes without --every, --keys and --html"
    if options.resume:
        return fault_of_resume(options)
    return fault_of_timeline(options)


def fault_of_resume(options: argparse.Namespace) -> Optional[str]:
    if not options.tsv and not options.jsonl:
        return "--resume goes with --tsv or --jsonl, as which the table was written"
    if options.zone or options.html:
        return "--resume goes without --zone and --html, which need all that was judged"
    return fault_of_timeline(options)


def once(values: Optional[List[Any]]) -> Any:
    return values[0] if values else None
