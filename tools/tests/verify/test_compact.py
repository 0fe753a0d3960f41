"""Tests of tools/verify by compact lists: what is put together of them, and what is answered."""
import unittest
from unittest import mock

from tool import TOOLS, run, run_program
from cases import examples
from dnssec_check_tools.verifying import compact, entries, verifier
from verify.lists import FRONT, LIST, OWNER, Room

# Made-up signatures, of which the case says that they are good.
MADE_UP = {"answers-empty-rdata-and-wildcards"}


def texts_of(listed):
    """The lines of `list` that a compact list's entries are."""
    hexes = ([each.hex() or "-" for each in (entry.key.octets, entry.data(), entry.signature.octets)] for entry in listed)
    return [f"todo {entry.key.algorithm} {' '.join(fields)}" for entry, fields in zip(listed, hexes)]


def entries_of(lines):
    return list(compact.entries_of(lines, lambda number: f"line {number}"))


def moments_of(example):
    """The options that say for which moment something is listed, or for which range."""
    pairs = zip(example.words, example.words[1:])
    return tuple(word for pair in pairs if pair[0] in ("--moment", "--from", "--to") for word in pair)


def plain_and_compact():
    """The examples of `list`, with and without `--compact`, of one capture at one moment or for one range."""
    found = {}
    for example in examples():
        if example.stem in ("list", "list-compact") and not example.is_json and "statements" not in example.files:
            found.setdefault((example.files["capture"], moments_of(example)), {})[example.stem] = example
    return [(each["list"], each["list-compact"]) for each in found.values() if len(each) == 2]


def answered():
    """The examples of `check` and `timeline` with answers to a whole list, each with the compact list."""
    lists = {example.folder.name: example for example in examples() if example.name.endswith("/list-compact")}
    for example in examples():
        name = example.folder.name
        name = name if name in lists else name.replace("answers-", "compact-")
        if example.name.endswith(("/check", "/timeline")) and "answers" in example.files and name in lists:
            yield example, lists[name]


class Examples(unittest.TestCase):
    def test_the_signed_octets_are_those_of_the_list(self):
        pairs = plain_and_compact()
        self.assertGreaterEqual(len(pairs), 12)
        for plain, short in pairs:
            with self.subTest(short.name):
                told = texts_of(entries_of(short.output.decode().splitlines()))
                self.assertEqual(told, plain.output.decode().splitlines())

    def test_each_list_gets_the_answers_of_its_check(self):
        count = 0
        for example, listed in answered():
            with self.subTest(example.name):
                words = "--compact", "--capture", listed.files["capture"], *moments_of(example)
                told = run("verify", *words, given=listed.output)
                if example.folder.name not in MADE_UP:
                    self.assertEqual(told, (0, example.files["answers"].read_bytes(), ""))
                    count += 1
        self.assertEqual(count, 15)

    def test_the_program_itself(self):
        example, listed = next(each for each in answered() if each[0].folder.name == "answers-bind-www-a")
        words = "--compact", "--capture", listed.files["capture"], *moments_of(example), listed.output_file
        self.assertEqual(run_program(TOOLS / "verify", *words), (0, example.files["answers"].read_bytes(), ""))


class SignedOctets(unittest.TestCase):
    """RFC 4034 3.1.8.1 and RFC 4035 5.3.2, by hand."""

    RDATA = [b"\x05\x06", b""]

    def signed(self, owner, labels, rdata=()):
        front = bytes([0, 1, 13, labels]) + b"\0\0\0\x0a" + bytes(10) + b"\0"
        rrset = compact.Rrset(owner, compact.labels_of(owner), 0x0102, list(rdata), b"")
        data = compact.signed_octets(rrset, front)
        self.assertTrue(data.startswith(front))
        return data[len(front):]

    def test_each_record_behind_the_front(self):
        head = b"\x01a\0" + b"\x01\x02" + b"\0\x01" + b"\0\0\0\x0a"
        self.assertEqual(self.signed(b"\x01a\0", 1, self.RDATA), head + b"\0\x02\x05\x06" + head + b"\0\0")
        self.assertEqual(self.signed(b"\x01a\0", 1), b"")

    def test_the_owner_is_the_wildcard_where_fewer_labels_are_signed(self):
        rows = (
            (b"\x01c\x01b\x01a\0", 3, b"\x01c\x01b\x01a\0"),
            (b"\x01c\x01b\x01a\0", 2, b"\x01*\x01b\x01a\0"),
            (b"\x01c\x01b\x01a\0", 0, b"\x01*\0"),
            (b"\x01*\x01b\x01a\0", 2, b"\x01*\x01b\x01a\0"),
            (b"\x01*\x01b\x01a\0", 1, b"\x01*\x01a\0"),
            (b"\x01c\x01*\x01a\0", 2, b"\x01*\x01*\x01a\0"),
            (b"\x02*b\x01a\0", 2, b"\x02*b\x01a\0"),
            (b"\x02*b\x01a\0", 1, b"\x01*\x01a\0"),
            (b"\0", 0, b"\0"),
        )
        for owner, labels, wanted in rows:
            with self.subTest(owner, labels=labels):
                self.assertEqual(self.signed(owner, labels, [b"\x09"])[:len(wanted) + 2], wanted + b"\x01\x02")


class Answers(Room):
    def test_nothing_listed_leaves_the_heading(self):
        empty = "e3b0c44298fc1c149afbf4c8996fb92427ae41e4649b934ca495991b7852b855"
        self.assertEqual(self.verify([]), (0, f"of {empty} 7\n".encode(), ""))

    def told(self, *words):
        status, output, errors = self.verify(LIST, *words)
        heading, *lines = output.decode().splitlines()
        self.assertTrue(heading.startswith("of ") and heading.endswith(" 7"))
        return status, lines, errors

    def test_an_answer_an_entry(self):
        self.assertEqual(self.told(), (0, ["bad"] * 3, ""))
        with mock.patch.object(entries, "is_good", lambda algorithm, *parts: algorithm == 15):
            self.assertEqual(self.told(), (0, ["bad", "good", "bad"], ""))

    def test_what_is_verified(self):
        asked = []
        with mock.patch.object(entries, "is_good", lambda *parts: not asked.append(parts)):
            self.told()
        front, head = bytes.fromhex(FRONT), bytes.fromhex(OWNER) + b"\0\x01\0\x01\0\0\0\x0a\0\x04"
        data = front + head + bytes.fromhex("c0000201") + head + bytes.fromhex("c0000202")
        self.assertEqual(asked[:2], [(13, b"\x02", data, b"\x0a\x0b"), (15, b"", data, b"")])

    def test_what_is_not_verified_stays_open(self):
        why = "line 8 of -: the 0 seconds of the budget are over; --budget SECONDS gives more"
        self.assertEqual(self.told("--budget", "0"), (1, ["-"] * 3, f"verify: left out 2 more and {why}\n"))

    def test_what_cannot_be_told_here_stays_open(self):
        def is_good(algorithm, *_):
            if algorithm == 15:
                raise NotImplementedError("none here")
            return True

        why = "line 9 of -: the package cryptography lacks algorithm 15: none here"
        with mock.patch.object(entries, "is_good", is_good):
            self.assertEqual(self.told(), (1, ["good", "-", "good"], f"verify: left out {why}\n"))

    def test_one_entry_is_verified_once_wherever_it_stands(self):
        """By what is verified, not by the numbers in a list."""
        first, other = entries_of(LIST), entries_of([
            "key 1 15 -", "key 2 13 02", f"rrset 9 {OWNER} 1 c0000201 c0000202", f"signature 9 9 {FRONT} 0a0b", "todo 1 2 9 9"])
        self.assertEqual(other[0].digest, first[0].digest)
        self.assertEqual(len({each.digest for each in first}), 3)
        within = verifier.Verifier(9, verifier.Kept())
        with mock.patch.object(entries, "is_good", mock.Mock(return_value=True)) as is_good:
            self.assertEqual([within.answer_to(each) for each in [*first, *other]], ["good"] * 4)
        self.assertEqual(is_good.call_count, 3)

    def test_each_field_makes_another_digest(self):
        changes = {
            0: ["key 1 14 02", "key 1 13 0202", "key 1 13 -"],
            2: [f"rrset 2 0178{OWNER} 1 c0000201 c0000202", f"rrset 2 {OWNER} 2 c0000201 c0000202", f"rrset 2 {OWNER} 1 c0000201",
                f"rrset 2 {OWNER} 1 c0000201c0000202", f"rrset 2 {OWNER} 1 c0000202 c0000201"],
            3: [f"signature 2 1 {FRONT} 0a0c", f"signature 2 1 {FRONT.replace('0000000a', '0000000b')} 0a0b"],
        }
        first = entries_of(LIST)[0].digest
        for number, lines in changes.items():
            for line in lines:
                with self.subTest(line):
                    self.assertNotEqual(entries_of([*LIST[:number], line, *LIST[number + 1:]])[0].digest, first)


if __name__ == "__main__":
    unittest.main()
