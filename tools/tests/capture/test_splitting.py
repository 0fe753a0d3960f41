"""Tests of tools/capture --split, and of what is told that a capture lacks."""
import pathlib
import tempfile
import time
import unittest
from unittest import mock

from dnssec_check_tools import wire
from dnssec_check_tools.asking import kinds
from dnssec_check_tools.asking.faults import Failure
from dnssec_check_tools.capturing.messages import DO, TYPE_OPT
from dnssec_check_tools.capturing.notes import notes_of
from dnssec_check_tools.capturing.splitting import Parts
from tool import PROGRAM, DATA, run, run_program

from .build import framed, message, name_octets, record
from .cases import QUERY

TYPES = {"A": 1, "AAAA": 28, "NS": 2, "CNAME": 5, "SOA": 6, "TXT": 16, "DS": 43, "RRSIG": 46, "NSEC": 47, "DNSKEY": 48,
         "NSEC3": 50}


def answer(name, kind, *records, flags=0x8400, identifier=1, counts=None):
    """An answer to a question of this type, with records of an owner, a type and RDATA, all in its answer section."""
    octets = message(identifier, name, flags).replace(b"\x00\x01\x00\x01", TYPES[kind].to_bytes(2, "big") + b"\x00\x01")
    counts = counts or (len(records), 0, 0)
    header = octets[:6] + b"".join(count.to_bytes(2, "big") for count in counts)
    return header + octets[12:] + b"".join(record(TYPES[of], data, name_octets(owner)) for owner, of, data in records)


def key(name, **more):
    signature = name, "RRSIG", bytes(18) + name_octets(name)
    return answer(name, "DNSKEY", (name, "DNSKEY", b"\x01\x01\x03\x0d"), signature, **more)


def ds(name, **more):
    return answer(name, "DS", (name, "DS", b"\x00\x01\x0d\x02"), **more)


def plain(name, kind="A", *others, **more):
    return answer(name, kind, (name, kind, b"\x7f\x00\x00\x01"), *others, **more)


class Room(unittest.TestCase):
    def setUp(self):
        room = tempfile.TemporaryDirectory()
        self.addCleanup(room.cleanup)
        self.room = pathlib.Path(room.name)
        self.folder = self.room / "new" / "folder"

    def split(self, *messages):
        """The captures by their names, and what was told."""
        status, output, errors = run("capture", "--stream", "-", "--split", self.folder, given=framed(*messages))
        self.assertEqual((status, output), (0, b""), errors)
        captures = {path.name: path.read_bytes() for path in self.folder.iterdir()}
        return captures.pop("questions").decode(), captures, errors


class Split(Room):
    def test_each_question_gets_a_capture_with_what_leads_to_it(self):
        root, top, zone, other = key("."), key("test."), key("zone.test."), key("other.test.")
        root_ds, zone_ds, other_ds = ds("test."), ds("zone.test."), ds("other.test.")
        first, again, second = plain("www.zone.test."), plain("WWW.zone.test."), plain("other.test.", "TXT")
        listed, captures, errors = self.split(first, root, QUERY, zone_ds, top, other, root_ds, second, zone, other_ds,
                                              again)
        self.assertEqual(captures, {
            "0001-www.zone.test.-1.cap": framed(first, root, zone_ds, top, root_ds, zone, again),
            "0002-other.test.-16.cap": framed(root, top, other, root_ds, second, other_ds)})
        self.assertEqual(listed, "0001-www.zone.test.-1 www.zone.test. 1\n0002-other.test.-16 other.test. 16\n")
        self.assertIn("1 query", errors)
        self.assertIn("capture: kept 10 of 11, in 2 captures\n", errors)

    def test_more_than_64_messages_are_split(self):
        many = [plain(f"n{number}.test.") for number in range(100)]
        listed, captures, _ = self.split(key("test."), *many)
        self.assertEqual((len(captures), len(listed.splitlines())), (100, 100))
        self.assertEqual(captures["0100-n99.test.-1.cap"], framed(key("test."), many[99]))

    def test_no_answer_is_lost(self):
        lone = key("lone.test.")
        _, captures, _ = self.split(plain("www.zone.test."), lone, ds("lone.test."))
        self.assertEqual(captures, {"0001-www.zone.test.-1.cap": framed(plain("www.zone.test.")),
                                    "0002-lone.test.-48.cap": framed(lone, ds("lone.test."))})

    def test_the_names_of_an_answer_are_those_of_its_records_too(self):
        alias = plain("alias.one.test.", "A", ("www.two.test.", "A", b"\x7f\x00\x00\x01"))
        keys = [key(name) for name in ("one.test.", "two.test.", "www.two.test.", "three.test.")]
        self.assertEqual(self.split(alias, *keys)[1]["0001-alias.one.test.-1.cap"], framed(alias, *keys[:3]))

    def test_aliases_are_followed_to_the_answers_that_they_lead_to(self):
        def alias(name, target):
            return answer(name, "A", (name, "CNAME", name_octets(target)))

        first, second, last = alias("a.one.test.", "B.two.test."), alias("b.two.test.", "c.test."), plain("c.test.")
        other, two = plain("c.test.", "TXT"), key("two.test.")
        captures = self.split(last, first, other, two, second)[1]
        self.assertEqual(captures["0002-a.one.test.-1.cap"], framed(last, first, two, second))
        self.assertEqual(captures["0001-c.test.-1.cap"], framed(last))
        keys = key("test."), key("one.test."), ds("two.test."), ds("three.test.")
        self.folder = self.room / "without the last answer"
        self.assertEqual(self.split(first, *keys)[1]["0001-a.one.test.-1.cap"], framed(first, *keys[:3]))
        circle = alias("x.test.", "y.test."), alias("y.test.", "x.test.")
        self.folder = self.room / "circle"
        self.assertEqual(self.split(*circle)[1]["0001-x.test.-1.cap"], framed(*circle))

    def test_a_referral_leads_down(self):
        referral = answer("zone.test.", "A", ("zone.test.", "NS", b"\x01n\x00"), flags=0x8000, counts=(0, 1, 0))
        with_ds = answer("zone.test.", "NS", ("zone.test.", "DS", b"\x00\x01"), flags=0x8000, counts=(0, 1, 0))
        other = plain("zone.test.", "TXT")
        _, captures, _ = self.split(referral, with_ds, other, plain("www.zone.test."))
        self.assertEqual(captures["0004-www.zone.test.-1.cap"], framed(referral, with_ds, plain("www.zone.test.")))

    def referral(self, name, kind, counts=(0, 2, 0)):
        """The referral to zone.test. that a question for the name brought, with a record of this type."""
        return answer(name, "A", ("zone.test.", kind, bytes(4)), ("zone.test.", "NS", b"\x01n\x00"), flags=0x8000,
                      counts=counts)

    def test_a_referral_leads_down_to_its_zone_whoever_was_asked_for(self):
        others = key("test."), plain("other.test."), plain("mail.zone.test.")
        for kind, answers, leads in (("DS", 0, True), ("NSEC", 0, True), ("NSEC3", 0, True), ("TXT", 0, False),
                                     ("DS", 1, True), ("NSEC", 1, False)):
            referral = self.referral("www.zone.test.", kind, (answers, 2 - answers, 0))
            self.folder = self.room / f"{kind} {answers}"
            captures = self.split(referral, *others)[1]
            self.assertEqual(captures["0003-mail.zone.test.-1.cap"], framed(*[referral] * leads, others[0], others[2]))
            self.assertEqual(captures["0002-other.test.-1.cap"], framed(*others[:2]))

    def test_many_referrals_to_a_zone_do_not_go_before_its_keys(self):
        referrals = [self.referral(f"n{number}.zone.test.", "DS") for number in range(80)]
        own = plain("mail.zone.test.")
        captures = self.split(*referrals, key("zone.test."), own, key("test."))[1]
        self.assertEqual(captures["0081-mail.zone.test.-1.cap"],
                         framed(*referrals[:61], key("zone.test."), own, key("test.")))

    def test_a_capture_has_at_most_64_messages_and_one_of_each_question_first(self):
        many = [plain("www.test.", "TXT", ("x.", "A", bytes([number]))) for number in range(80)]
        listed, captures, errors = self.split(*many, key("test."), ds("test."))
        self.assertEqual(captures["0001-www.test.-16.cap"], framed(*many[:62], key("test."), ds("test.")))
        self.assertIn("0001-www.test.-16.cap has 64 answers, and there are 18 more", errors)

    def test_a_capture_has_at_most_4096_records(self):
        for each, taken in ((64, 63), (65, 62), (1000, 4), (4095, 1), (4096, 1), (4097, 1)):
            many = [plain("www.test.", "TXT", *[("x.", "A", bytes([number]))] * (each - 1))
                    for number in range(taken + 2)]
            self.folder = self.room / str(each)
            _, captures, errors = self.split(*many, key("."))
            keys = [key(".")] * (taken * each + 2 <= 4096)
            self.assertEqual(captures["0001-www.test.-16.cap"], framed(*many[:taken], *keys))
            self.assertIn(f"0001-www.test.-16.cap has {taken + len(keys)} answers", errors)

    def test_many_answers_that_lead_to_many_questions_take_no_time(self):
        asked = [plain(f"n{number}.zone.test.") for number in range(8000)]
        referrals = [self.referral(f"x{number}.zone.test.", "DS") for number in range(8000)]
        for leads in ([key("zone.test.")] * 8000, referrals):
            start = time.process_time()
            found = [each for each in Parts(leads + asked).captures() if asked[-1] in each[1]]
            self.assertLess(time.process_time() - start, 6)
            self.assertEqual([each[1:] for each in found], [([*leads[:63], asked[-1]], 7937)])

    def test_the_answers_to_the_question_go_before_those_that_lead_to_it(self):
        above = [key("a." * count) for count in range(1, 71)]
        own = plain("a." * 71)
        _, captures, errors = self.split(*above, own)
        self.assertEqual(captures[f"0001-{'a.' * 71}-1.cap"], framed(*above[:63], own))
        self.assertIn("has 64 answers, and there are 7 more", errors)

    def test_the_names_of_files(self):
        odd = plain("*.a/b\\ c.test.")
        long = plain(".".join(["x" * 60] * 3 + ["test."]))
        listed, captures, _ = self.split(odd, plain("."), long, message()[:4] + bytes(8))
        self.assertEqual(sorted(captures), ["0001-%2A.a%2Fb%5C%20c.test.-1.cap", "0002-.-1.cap",
                                            f"0003-{'x' * 60}.{'x' * 60}.{'x' * 28}..-1.cap", "0004-.-0.cap"])
        self.assertEqual(listed.splitlines()[0], r"0001-%2A.a%2Fb%5C%20c.test.-1 *.a/b\\\032c.test. 1")
        self.assertEqual(len(listed.splitlines()), 3)

    def test_a_folder_that_is_not_empty_is_refused(self):
        (self.folder / "x").mkdir(parents=True)
        done = run("capture", "--stream", "-", "--split", self.folder, given=framed(plain("www.test.")))
        self.assertEqual(done[:2], (1, b""))
        self.assertIn(f"refused: {self.folder}: the folder isn't empty", done[2])
        self.assertEqual([path.name for path in self.folder.iterdir()], ["x"])

    def test_it_goes_without_output_and_macs(self):
        for option in ("--output", "--macs"):
            words = "--stream", "-", "--split", self.folder, option, self.room / "x"
            self.assertEqual(run("capture", *words, given=framed(plain("www.test.")))[:2], (2, b""))
            self.assertFalse(self.folder.exists())

    @unittest.skipUnless(PROGRAM.exists(), "needs the built program")
    def test_each_capture_of_a_real_probe_has_its_chain(self):
        words = "--dnsviz", DATA / "dnsviz" / "probe.json", "--split", self.folder
        self.assertEqual(run("capture", *words)[0], 0)
        shown = run_program(PROGRAM, "show", "--capture", self.folder / "0003-www.sub.example.test.-1.cap")[1].decode()
        questions = [line for line in shown.splitlines() if line.startswith("question ")]
        self.assertEqual(questions, ["question example.test. 48 1", "question sub.example.test. 43 1",
                                     "question sub.example.test. 48 1", "question www.sub.example.test. 1 1"])


class Notes(unittest.TestCase):
    def told(self, *messages):
        """What is noted of an input of these messages."""
        status, _, errors = run("capture", "--stream", "-", given=framed(*messages))
        self.assertEqual(status, 0)
        return [line.removeprefix("capture: note: ") for line in errors.splitlines() if "note:" in line]

    def test_answers_without_signatures(self):
        unsigned = "no answer has a signature (RRSIG): were they asked without the flag DO (dig +dnssec)?"
        self.assertEqual(self.told(plain("www.test.")), [unsigned])
        self.assertEqual(self.told(plain("www.test."), key("test.")), [])
        query = answer("www.test.", "A", ("www.test.", "RRSIG", bytes(18) + b"\x00"), flags=0x0100)
        self.assertEqual(self.told(query, plain("www.test.")), [unsigned])

    def test_answers_without_signatures_though_they_were_asked_for(self):
        edns = wire.record(b"\x00", TYPE_OPT, b"", DO, 1232)
        asked = wire.header(1, (1, 0, 0, 1)) + wire.question(wire.name_octets("www.test."), 1) + edns
        told = notes_of([asked])
        self.assertEqual(told, ["no answer has a signature (RRSIG), though they were asked with the flag DO: no zone is signed, or "
                                "a server left signatures out"])

    def test_a_truncated_answer_that_was_not_asked_again(self):
        short = answer("big.test.", "DNSKEY", flags=0x8600)
        said = "the answer for big.test. DNSKEY is truncated, and wasn't asked again by TCP"
        whole = [key("big.test."), plain("www.test.")]
        self.assertEqual(self.told(whole[1], short, short, key("test."))[-1:], [said])
        for messages in ([short, *whole], [*whole, short]):
            self.assertEqual(self.told(*messages), [])
        status, _, errors = run("capture", "--stream", "-", given=framed(short))
        self.assertEqual((status, errors.splitlines()[1:]), (1, [f"capture: note: {said}", "capture: refused: no answer was left"]))

    def test_quiet_tells_notes_alone(self):
        short, query = answer("big.test.", "DNSKEY", flags=0x8600), answer("www.test.", "A", flags=0x0100)
        status, output, errors = run("capture", "--stream", "-", "--quiet", given=framed(query, short, key("test.")))
        self.assertEqual((status, output), (0, framed(key("test."))))
        self.assertEqual(errors, "capture: note: the answer for big.test. DNSKEY is truncated, and wasn't asked again by TCP\n")
        status, output, errors = run("capture", "--quiet", "--stream", "-", given=framed(query))
        self.assertEqual((status, output, errors), (1, b"", "capture: refused: no answer was left\n"))

    def test_a_zone_on_the_way_without_its_keys(self):
        signed = plain("www.test.", "A", ("www.test.", "RRSIG", bytes(18) + b"\x01z\x04TEST\x00"))
        lacks = "no answer has the DNSKEY records of {}, a zone on the way"
        self.assertEqual(self.told(signed), [lacks.format("z.test.")])
        self.assertEqual(self.told(signed, key("test.")), [lacks.format("z.test.")])
        self.assertEqual(self.told(signed, key("Z.test.")), [])
        self.assertEqual(self.told(ds("z.test."), plain("www.z.test."), key("test.")), [lacks.format("z.test.")])
        self.assertEqual(self.told(ds("z.test."), plain("www.test."), key("test.")), [])

    def test_a_resolver_that_holds_back_what_is_bogus(self):
        said = "the answer for www.stale.test. A is SERVFAIL"
        failed = answer("www.stale.test.", "A", flags=0x8182)
        self.assertEqual(self.told(failed), [f"{said}: ask with CD (delv +cd)"])
        self.assertEqual(self.told(failed, answer("www.stale.test.", "A", flags=0x8183)),
                         ["no answer has a signature (RRSIG): were they asked without the flag DO (dig +dnssec)?",
                          f"{said}: ask with CD (delv +cd)"])
        self.assertEqual(self.told(failed, answer("www.Stale.test.", "A", flags=0x8582)), [f"{said}: ask with CD (delv +cd)"])

    def test_a_failure_that_CD_does_not_mend(self):
        for flags, remedy in ((0x8192, ": ask the servers of the zone"), (0x8402, ""), (0x8412, "")):
            self.assertEqual(self.told(answer("www.stale.test.", "AAAA", flags=flags)),
                             [f"the answer for www.stale.test. AAAA is SERVFAIL{remedy}"])

    def test_a_failure_is_told_without_dnspython(self):
        with mock.patch("dnssec_check_tools.asking.kinds.table", side_effect=Failure("no dnspython")):
            kinds.mnemonic_of.cache_clear()
            self.assertEqual(self.told(answer("www.stale.test.", "AAAA", flags=0x8402)),
                             ["the answer for www.stale.test. TYPE28 is SERVFAIL"])

    def test_many_delegations_take_no_time(self):
        messages = [ds(f"z{number}.test.") for number in range(8000)]
        messages += [plain(f"www.y{number}.test.") for number in range(8000)]
        start = time.process_time()
        self.assertEqual(len(notes_of([*messages, plain("www.z7.test.")])), 2)
        self.assertLess(time.process_time() - start, 4)
