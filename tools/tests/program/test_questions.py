"""Many questions over one capture: more than anyone asks by hand, the examples, refusals, and a full disk."""
import pathlib
import unittest

from cases import examples
from dnssec_check_tools import wire
from dnssec_check_tools.capturing.frames import framed
from messages import DNSKEY, TYPES, name, rrsig
from tool import PROGRAM, run_program

from .desk import ANCHOR, GOOD_HOST, GOOD_KEYS, HOST, KEYS, MOMENT, Desk

ALONE = ("--name", "--type")
# An alias of two targets, as the row `two-targets` of dnsv_rows has it.
OWNER, TARGETS = name("c.example."), (name("d.example."), name("e.example."))
ALIASES = b"".join(wire.record(OWNER, TYPES["CNAME"], target) for target in TARGETS)
TWO_TARGETS = framed([wire.header(1, (0, 3, 0, 0)) + ALIASES
                      + wire.record(OWNER, TYPES["RRSIG"], rrsig("CNAME", 2, "example."))])
SIGNED = rrsig("CNAME", 2, "example.", "") + ALIASES
GOOD_ALIASES = f"good 13 {DNSKEY[4:].hex()} {SIGNED.hex()} cc\n".encode()
# 4,096 octets may be written to a file, and then no more; the signal that says so is ignored.
SMALL_DISK = "trap '' XFSZ; ulimit -f 8; exec \"$0\" \"$@\""


def asked(words):
    """The question of a command line, as a line of a file of questions, and the words without it."""
    pairs = dict(zip(words, words[1:]))
    rest = list(words)
    for option in ALONE:
        place = rest.index(option)
        del rest[place:place + 2]
    return f"{pairs['--name']} {pairs['--type']}\n", tuple(rest)


def together():
    """The examples of one question that has an answer, those whose words and files are the same in one list."""
    told = [example for example in examples()
            if example.words[0] in ("check", "explain") and example.output and set(ALONE) <= set(example.words)]
    found = {}
    for example in told:
        files = {option: path.read_bytes() for option, path in example.files.items()}
        moment = dict(zip(example.words, example.words[1:]))["--moment"]
        key = (example.words[0], example.is_json, moment, *sorted(files.items()))
        found.setdefault(key, []).append(example)
    return found.values()


def refused_by_themselves():
    """The examples of one question that is refused as it is followed, with the number."""
    for example in examples():
        if example.words[0] in ("check", "explain") and example.errors.startswith(b"refused 70"):
            yield example, int(example.errors.split()[1])


class Many(Desk):
    GIVEN = {"capture": KEYS + HOST, "anchors": ANCHOR, "statements": GOOD_KEYS + GOOD_HOST}

    def answers(self, questions, subcommand="check", *words):
        return self.told(subcommand, "--moment", MOMENT, *words, **self.GIVEN, questions=questions)

    def test_of_100_000_each_is_answered(self):
        status, output, errors = self.answers(b"host.example. 1\nother. 1\n" * 50_000)
        self.assertEqual((status, errors), (6, ""))
        self.assertEqual(output, "SecureAnswer host.example. 1\nrrset 2 signature 1\nIndeterminate other. 1\n" * 50_000)

    def test_a_fault_of_the_last_line_is_told(self):
        for last in (b"", b" A", b" 01", b" 65536", b" 1\r"):
            last = b"host.example." + last
            told = self.answers(b"host.example. 1\n" * 10_000 + last)
            self.assertEqual(told, (7, "", "refused 803 line 10001\n"))

    def test_none_is_asked(self):
        for questions in (b"", b"\n\n", b"# host.example. 1\n"):
            self.assertEqual(self.answers(questions), (0, "", ""))

    def test_a_full_disk_is_told(self):
        (self.room / "questions").write_bytes(b"host.example. 1\n" * 10_000)
        for option, octets in self.GIVEN.items():
            (self.room / option).write_bytes(octets)
        words = [word for option in (*self.GIVEN, "questions") for word in (f"--{option}", self.room / option)]
        with pathlib.Path("/dev/full").open("wb") as full:
            status, _, errors = run_program(PROGRAM, "check", "--moment", MOMENT, *words, output=full)
        self.assertEqual((status, errors), (1, "fault 812\n"))

    def test_a_disk_that_fills_has_a_beginning(self):
        (self.room / "questions").write_bytes(b"host.example. 1\n" * 10_000)
        for option, octets in self.GIVEN.items():
            (self.room / option).write_bytes(octets)
        words = [word for option in (*self.GIVEN, "questions") for word in (f"--{option}", self.room / option)]
        with (self.room / "output").open("wb") as file:
            status, _, errors = run_program(
                "/bin/sh", "-c", SMALL_DISK, PROGRAM, "check", "--moment", MOMENT, *words, output=file)
        written = (self.room / "output").read_bytes()
        whole = b"SecureAnswer host.example. 1\nrrset 2 signature 1\n" * 10_000
        self.assertEqual((status, errors), (1, "fault 812\n"))
        self.assertEqual((written, 0 < len(written) < len(whole)), (whole[:len(written)], True))

    def test_what_is_refused_is_told_among_others(self):
        """The examples, whose zone above has keys that are proved; each question gets the text that it gets alone."""
        told = set()
        for example, number in refused_by_themselves():
            line, words = asked(example.words)
            status, keys, _ = run_program(PROGRAM, *words, "--name", "test.", "--type", "48", folder=example.folder)
            (self.room / "questions").write_text(f"test. 48\n{line}test. 48\n")
            many = run_program(PROGRAM, *words, "--questions", self.room / "questions", folder=example.folder)
            with self.subTest(example.name):
                self.assertEqual((status, keys.split(b"\n")[0]), (0, b"SecureAnswer test. 48"))
                self.assertEqual(many, (7, keys + f"refused {number} {line}".encode() + keys, ""))
            told.add((example.words[0], number))
        self.assertEqual(told, {(word, number) for word in ("check", "explain") for number in (702, 703)})

    def test_an_alias_of_two_targets_is_told_among_others(self):
        given = {**self.GIVEN, "capture": KEYS + HOST + TWO_TARGETS,
                 "statements": GOOD_KEYS + GOOD_HOST + GOOD_ALIASES}
        questions = b"host.example. 1\nc.example. 1\nc.example. 5\nhost.example. 1\n"
        host, alias = "SecureAnswer host.example. 1\nrrset 2 signature 1\n", "SecureAnswer c.example. 5\nrrset 3 signature 1\n"
        told = self.told("check", "--moment", MOMENT, **given, questions=questions)
        self.assertEqual(told, (7, f"{host}refused 704 c.example. 1\n{alias}{host}", ""))
        status, output, errors = self.told("explain", "--moment", MOMENT, **given, questions=questions)
        self.assertEqual((status, errors), (7, ""))
        self.assertIn("\nrefused 704 c.example. 1\nSecureAnswer c.example. 5\n", output)
        status, output, errors = self.told("check", "--json", "--moment", MOMENT, **given, questions=questions)
        refused = '{"command":"check","name":"c.example.","type":1,"moment":1500,"refused":704,"status":7}'
        self.assertEqual((status, output.split("\n")[1], errors), (7, refused, ""))

    def test_examples_of_the_same_files_are_answered_together_as_alone(self):
        for group in together():
            (self.room / "questions").write_text("".join(asked(example.words)[0] for example in group) * 2)
            words = asked(group[0].words)[1]
            told = run_program(PROGRAM, *words, "--questions", self.room / "questions", folder=group[0].folder)
            joined = b"".join(example.output for example in group)
            with self.subTest(", ".join(example.name for example in group)):
                self.assertEqual(told, (max(example.status for example in group), joined * 2, ""))


if __name__ == "__main__":
    unittest.main()
