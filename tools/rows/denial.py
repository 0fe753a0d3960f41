#!/usr/bin/env python3
"""Prints what the rows of dnsv_denial need besides those that are written by hand.

It needs PYTHONPATH=tools. The parts:

    evidence    the rows that name messages of evidence
    questions   rows that ask of every name of small zones to a depth of three labels
    answers     what has to come for these, by looking the names up
    limits      what has to come for the hand-written rows of the largest evidence

exit status: 0, all is printed; 1, it couldn't be written; 2, the command line is wrong; 130, it was interrupted.
"""

from __future__ import annotations

import denial_evidence
import denial_limits
import denial_questions

from dnssec_check_tools.command import parser_of, run

PARTS = {
    "evidence": [denial_evidence.lines, denial_limits.lines],
    "questions": [denial_questions.rows, denial_questions.open_rows],
    "answers": [denial_questions.answers, denial_questions.open_answers],
    "limits": [denial_limits.answers],
}


def main(words: list[str]) -> int:
    parser = parser_of(__doc__)
    parser.add_argument("part", metavar="PART", choices=PARTS, help="one of the parts below")
    for lines in PARTS[parser.parse_args(words).part]:
        for line in lines():
            print(line)
    return 0


if __name__ == "__main__":
    run(main)
