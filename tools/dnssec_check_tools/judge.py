"""Judges questions by captured DNS messages, in one command: what dnssec_check lists is verified, and each is asked.

Each WORD is a question, a capture or a folder. A question is NAME/TYPE, as www.example.com/AAAA: what follows its
last `/` is a type, by mnemonic or by number, it doesn't begin with `/`, and there is no file of that name. Every other
word is a capture file, or what dnssec_check-capture makes one of; `-` for the standard input; or a folder: its files
that are called `capture` or end with `.cap`, and those of all folders in it. A missing last dot of a name is added; no
other search is made. After `--` a word may begin with `-`.

Each question is put to each capture, at each moment; signatures are verified once for a capture. Where no question is
given, each capture of a folder that `dnssec_check-capture --split` wrote is asked its own. With --every each capture is
asked for all that it has, and a line counts the verdicts, above the lines of those that aren't secure. With --zone the
files have the transfer of a zone (AXFR), which is asked for all that it has and denies.

Without options a line is printed for each question, with the verdict, until when the signatures that carry it are
valid, and what the aliases on the way lead to, or what is refused and what to do. Below it, where it isn't secure,
stands why: what fails first (FAIL) with its extended DNS error [EDE N], and after that what is missing only since
nobody asked; what the zone has beside what is wanted (HAS), what follows (THEN), and how far the chain holds (HOLDS);
where something may be unsigned, why (WHY). --tsv has a first line with the columns: capture, moment (in seconds since
1970), name, type, status, verdict, evidence, until, reason, ede, reasons, odd; --jsonl has the values by these names.
The verdict is the program's word, or `refused` or `fault`. What can't be shown is `\\xNN`. --html writes a page that
loads nothing.

With --warn lines ODD say what is odd of what is proved, with the RFC that says so: an opinion that changes no verdict.
The manual page has its kinds, by the words of the column odd, which --fail-on takes.

With --from and --to, or --timeline, a line is printed for each interval in which a verdict stands, from its first to
its last moment; between them the signatures that end (ENDS) and begin (BEGINS) there, and below what is proved now what
ends next (NEXT). --timeline takes all moments from the first time in the signatures of each capture to the last.

What isn't verified of a capture within --budget and --budget-octets stays Unknown, so that a verdict is Pending that
hangs on it. A line on the standard error says so, and how to give more. With --skew another says what a verdict is by a
clock that is so many seconds late, or ahead, where it's another one.

With --resume TABLE, the rows of captures that are whole in a table of --tsv or --jsonl, which an earlier run wrote
until it was interrupted, are printed as they stand there, and the others are judged: what comes out, somewhere else
than in TABLE, is what a run without it prints. Without --at the moments are those of the table. What the machine failed
at is judged again, and so is the last capture of the table with --every.

With --scheduler, captures go as octets to the workers of a Dask scheduler. A worker needs Python with the packages
distributed and cryptography, and `dnssec_check` on its own path; the tools' modules are sent to it. Captures of a
worker that is lost are judged by others; one by which two are lost, as by which two processes are on this machine, has
a row that says so. Keys of TSIG go to the scheduler's machine and the workers'.

Types by mnemonic, zone files of anchors and --records need the package dnspython (Debian: python3-dnspython),
signatures on curves cryptography (python3-cryptography), --scheduler distributed (python3-distributed), and the bar of
progress, which only a terminal gets, rich (python3-rich). --html needs jinja2 (python3-jinja2), and for its pictures
Graphviz (graphviz).

exit status: that of the worst verdict, as `dnssec_check check` has it. From the best to the worst: 0, secure; 8,
secure, with something odd that --fail-on names; 3, Insecure; 4, Pending; 5, Bogus; 6, Indeterminate; 7, an input is
refused; 1, the machine failed. 2, the command line is wrong, or an output is a file that is read, and nothing was
judged; 130, 143, 129, it was interrupted, or ended by SIGTERM or SIGHUP.
"""
import argparse
import os
import sys
from contextlib import closing
from typing import Dict, Iterable, List, Mapping, Optional

from .asking.anchors import ROOT, anchors_of
from .asking.captures import all_of, captures_of, told_apart, without_questions
from .asking.faults import Failure, Refusal, WrongLine, escaped
from .asking.questions import LIST
from .asking.kinds import table
from .asking.moments import seconds_of
from .command import read, run, tell, write
from .in_process import asked_by
from .judge_options import INPUTS, command_line, fault_of, once
from .judging.cluster import WAIT_SECONDS, by_workers
from .judging.page import Page
from .judging.processes import in_processes
from .judging.progress import progress
from .judging.records import texts_of
from .judging.report import Report, Text
from .judging.skew import around
from .judging.spread import Results, Task
from .judging.tasks import readable, tasks_of
from .judging.text import Lines, Sums, json_line, rows_text, tsv_head, tsv_line
from .judging.work import Common
from .odd.options import wish_of
from .outputs import is_same_output, overwritten
from .program import FAILED, FROM_BEST, REFUSED, WRONG
from .resuming.rows import JSONL, TSV
from .resuming.table import Kept, Table
from .started import processors
from .timelines import text as timelines
from .timelines.options import span_of
from .timelines.page import TimelinePage
from .verifying.verifier import Budget
from .zones.audit import audit_of
from .zones.told import ZoneText


def paths_of(options: argparse.Namespace) -> Dict[str, str]:
    """The files that are the same for all captures, by the names of their options."""
    paths = {"anchors": once(options.anchors) or ROOT, "keys": once(options.keys), "macs": once(options.macs)}
    return {name: path for name, path in paths.items() if path}


def text_of(options: argparse.Namespace, has_captures: bool, common: Common) -> Text:
    if common.span:
        return timeline_text(options, has_captures, common.moments[0])
    has_moments = len(common.moments) > 1
    lines = (Sums if options.every else Lines)(has_captures, has_moments, paths_of(options))
    lines.is_odd_told, lines.failing = options.warn, options.fail_on or frozenset()
    return table_text(options) or lines.text


def timeline_text(options: argparse.Namespace, has_captures: bool, now: int) -> Text:
    if options.jsonl or options.tsv:
        return rows_text(timelines.json_line if options.jsonl else timelines.tsv_line)
    lines = timelines.TimelineSums if options.every else timelines.TimelineLines
    return lines(has_captures, now, paths_of(options)).text


def table_text(options: argparse.Namespace) -> Optional[Text]:
    """The rows of a table, where one is asked for."""
    return rows_text(json_line if options.jsonl else tsv_line) if options.jsonl or options.tsv else None


def results_of(tasks: Iterable[Task], common: Common, options: argparse.Namespace, count: int) -> Results:
    if options.scheduler:
        return by_workers(tasks, common, once(options.scheduler), options.wait or WAIT_SECONDS)
    program = asked_by(once(options.program), sys.argv[0])
    return in_processes(tasks, common, program, options.jobs or processors(), count)


def judge(options: argparse.Namespace) -> int:
    """Judges all, and answers the worst status."""
    table()  # each line has a type: without dnspython, that's told before anything is judged
    if options.zone:
        return audit(options)
    given = options.words, options.questions
    asked = without_questions(*given, "--every") if options.every else all_of(*given)
    if options.macs and len(asked) > 1:
        raise WrongLine("--macs is of one capture, and there are more")
    resumed = resumed_of(options)
    common = common_of(options, resumed.moments if resumed else [])
    page = page_of(options, common) if options.html else None
    text = text_of(options, len(asked) > 1, common)
    report = Report(text, [path for path, _ in asked], page)
    kept = resumed.all_kept(asked, common.moments) if resumed else {}
    tasks = tasks_of(asked, page, bool(options.scheduler), kept)
    judge_tasks(readable(tasks, report, common), report, common, options, kept)
    if page:
        write(once(options.html), page.octets())
    return report.worst


def page_of(options: argparse.Namespace, common: Common) -> Page:
    return TimelinePage(paths_of(options), common.moments[0]) if common.span else Page(paths_of(options))


def audit(options: argparse.Namespace) -> int:
    """Judges a zone by its transfer, and answers the worst status."""
    common = common_of(options)
    paths = [path for path, _ in without_questions(options.words, options.questions, "--zone")]
    zone = audit_of(paths, set(options.port or [53]))
    lines = ZoneText(zone, len(common.moments) > 1, paths_of(options))
    lines.is_odd_told, lines.failing = options.warn, options.fail_on or frozenset()
    report = Report(table_text(options) or lines.text, zone.labels, None)
    judge_tasks(zone.tasks(), report, common, options, {})
    if not table_text(options):
        write("-", lines.sums().encode())
    return max(report.worst, lines.worst, key=FROM_BEST.index)


def resumed_of(options: argparse.Namespace) -> Optional[Table]:
    """The table of an earlier run, where one is told."""
    return Table(once(options.resume), JSONL if options.jsonl else TSV) if options.resume else None


def common_of(options: argparse.Namespace, written: Iterable[int] = ()) -> Common:
    """What is the same for all captures; the moments are those of a table that is written, where none are told."""
    told = map(seconds_of, options.at or ())
    moments = list(dict.fromkeys(told)) or list(written) or [seconds_of("now")]
    keys, macs = (read(path[0]) if path else None for path in (options.keys, options.macs))
    budget = Budget(options.budget, options.budget_octets, options.budget_questions)
    anchors = anchors_of(once(options.anchors), around(moments, options.skew))
    wishes = wish_of(options), span_of(options)
    return Common(anchors, keys, macs, moments, budget, bool(options.html), options.skew, *wishes)


def judge_tasks(
    tasks: Iterable[Task], report: Report, common: Common, options: argparse.Namespace, kept: Mapping[int, Kept]
) -> None:
    count = len(report.paths) - len(kept)
    if options.tsv:
        write("-", ((timelines.tsv_head if common.span else tsv_head)() + "\n").encode())
    for number, each in kept.items():
        report.copy(number, each.octets, each.worst)
    with progress(count) as advance, closing(results_of(tasks, common, options, count)) as results:
        for number, found in results:
            report.take(number, found)
            advance()


def inputs_of(options: argparse.Namespace) -> List[str]:
    """The files that are read, and the program."""
    words, questions = told_apart(options.words)
    paths = [each.path for each in captures_of(words)]
    lists = [] if questions or options.questions else {os.path.join(os.path.dirname(path), LIST) for path in paths}
    named = [path for name in (*INPUTS, "program") for path in getattr(options, name) or ()]
    return [*paths, *lists, *named, *([] if options.anchors else [ROOT])]


def refuse_overwriting(options: argparse.Namespace) -> None:
    """Refuses what is read and would be written, or would be written twice, before anything is read."""
    pages = options.html or []
    clash = overwritten(["-", *pages], inputs_of(options))
    if clash:
        raise WrongLine(escaped(clash))
    if any(page != "-" and is_same_output(page, "-") for page in pages):
        raise WrongLine(f"--html and the standard output would both be {escaped(pages[0])}")


def print_records(options: argparse.Namespace) -> int:
    for text in texts_of(options.words):
        write("-", text.encode())
    return 0


def options_of(parser: argparse.ArgumentParser, words: List[str]) -> argparse.Namespace:
    """The options, and among them the words, which behind `--` are all that stands there."""
    place = words.index("--") if "--" in words else len(words)
    options = parser.parse_intermixed_args(words[:place])
    options.words += words[place + 1 :]
    return options


def main(words: List[str]) -> int:
    parser = command_line(__doc__)
    options = options_of(parser, words)
    fault = fault_of(options)
    if fault:
        parser.error(fault)
    try:
        refuse_overwriting(options)
        return print_records(options) if options.records else judge(options)
    except WrongLine as fault:
        parser.error(str(fault))
        return WRONG  # which `error` ends with
    except Refusal as fault:
        tell(f"refused: {fault}")
        return REFUSED
    except Failure as fault:
        tell(fault)
        return FAILED


def start() -> None:
    """Runs the tool by the words of the command line."""
    run(main)


if __name__ == "__main__":
    start()
