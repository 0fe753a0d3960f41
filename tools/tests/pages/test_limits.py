"""Tests of the limits that the pages tell: they are those of the tools."""
import re
import unittest

from dnssec_check_tools import listed, program
from dnssec_check_tools.asking import captures
from dnssec_check_tools.capturing import frames, messages, splitting
from dnssec_check_tools.judging import cluster, workers
from dnssec_check_tools.verifying import rsa, verifier
from tool import TOOLS

DOCS = TOOLS.parent / "docs"
BUDGET = verifier.Budget()
TIMES = {4: "four", 8: "eight"}
SECONDS = {10: "ten"}.get(BUDGET.seconds, str(BUDGET.seconds))


def text_of(name):
    """A page without macros and line ends."""
    text = (DOCS / name).read_text()
    text = re.sub(r"(?m)^\.(?:Ql|Nm|Fl|Cm|Ar|Xr) ?-?", "", text) if name.endswith(".1") else text
    return " ".join(text.replace("\\&", "").split())


# By page what it says of a limit, with the number that the tools have.
TOLD = {
    "dnssec_check-verify.1": [
        f"all lines together may take; {SECONDS} seconds, where it isn't given",
        f"whose exponent has more than {rsa.EXPONENT_BITS_MOST} bits isn't verified",
        "The time that it takes grows with the exponent's bits, and small exponents are recommended for the DNS (RFC 3110 4)",
        f"has more than {rsa.BITS_MOST} bits (RFC 3110 2)",
    ],
    "dnssec_check-judge.1": [
        f"the signatures of a capture may take; {SECONDS} seconds, where it isn't given",
        f"of a capture are read; {BUDGET.octets:,} where it isn't given",
        f"the questions of a capture may take; {BUDGET.questions} seconds, where it isn't given",
        f"whose exponent has more than {rsa.EXPONENT_BITS_MOST} bits isn't verified, and stays Unknown",
        "those of keys for the DNS are recommended to be small (RFC 3110 4)",
        f"are verified for {SECONDS} seconds of processor time, budget , where dnssec_check list --compact prints at most {BUDGET.octets:,} octets",
        f"Of a capture of more than {listed.LISTS_LITTLE:,} octets it gets as much memory as these octets and "
        f"{listed.MEMORY_BESIDES:,} more",
        "a line on the standard error says what wasn't verified, and how to raise the budget",
        f"among the last {verifier.KEPT_MOST:,} of the process",
        f"The questions of a capture are asked for {BUDGET.questions} seconds of processor time",
        f"as the octets of budget-octets and {listed.MEMORY_BESIDES:,} more, and {TIMES.get(program.OF_FILES)} times those of the "
        "files besides the capture",
        f"{frames.MESSAGES_MOST} messages of {messages.MESSAGE_SIZE_MOST:,} octets, and one message more",
        f"A file of another kind may have twice as much, {captures.OTHER_MOST:,} octets, and no more once it is unpacked",
        "FIFOs, sockets and devices in a folder are passed over, each with a note",
        f"at the beginning and later on; {cluster.WAIT_SECONDS} where it isn't given",
    ],
    "dnssec_check.1": [f"The capture would pass a limit with it: {splitting.MESSAGES_MOST} messages, {splitting.RECORDS_MOST} records"],
    "STRANGERS.md": [
        f"where `list --compact` prints at most `--budget-octets` octets ({SECONDS} and {BUDGET.octets:,})",
        f"takes no file of another kind that has more than {captures.OTHER_MOST:,} octets",
    ],
    "AUDITING.md": [
        f"stops verifying after {SECONDS} seconds of processor time (`--budget`), and verifies nothing where the compact list has more than "
        f"{BUDGET.octets:,} octets (`--budget-octets`)",
        f"Its questions are asked for {BUDGET.questions} seconds of a processor (`--budget-questions`)",
        f"or no worker of it, for {cluster.WAIT_SECONDS} seconds (`--wait`)",
        "With `--keys` the octets include the keys of TSIG: they go to the scheduler's machine and from there to those of the workers",
    ],
    "decisions/TOOLS.md": [
        f"An exponent of more than {rsa.EXPONENT_BITS_MOST} bits isn't raised to",
        f"verifies for {SECONDS} seconds of processor time a capture whose compact list has at most {BUDGET.octets // 1_000_000} MB",
        f"where the capture has at most {listed.LISTS_LITTLE:,} octets",
        "by RFC 8032 5.1.5 a secret is a multiple of eight",
    ],
}


class Limits(unittest.TestCase):
    def test_the_pages_tell_those_of_the_tools(self):
        for name, told in TOLD.items():
            text = text_of(name).lower()
            for each in told:
                with self.subTest(name, told=each):
                    self.assertIn(each.lower(), text)

    def test_what_a_signal_waits_for_is_over_within_two_seconds(self):
        """Processes that don't heed it are killed behind the first time, and none waits longer for a scheduler's end."""
        self.assertIn("end `dnssec_check-judge` with one line within two seconds", (TOOLS.parent / "CHANGELOG.md").read_text())
        self.assertLess(workers.SECONDS_TO_END, 1.5)
        self.assertLess(cluster.SECONDS_TO_CLOSE, 1.5)


if __name__ == "__main__":
    unittest.main()
