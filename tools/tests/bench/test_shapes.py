"""The shapes that the bench measures have what they say, and their captures are messages within the limits."""
import hashlib
import unittest
from collections import namedtuple

from dnssec_check_tools.capturing.frames import frames_of
from dnssec_check_tools.capturing.messages import (TYPE_DNSKEY, TYPE_DS, TYPE_RRSIG, end_of_name, is_message, lower, name_at, name_text,
                                records_of)
from dnssec_check_tools.timelines.spans import times_of
from dnssec_check_tools.verifying import rsa
from shapes import SHAPES, denials, files, keys, signatures, timelines
from wire import key_tag

A, CNAME, TXT, NSEC, NSEC3 = 1, 5, 16, 47, 50
OF_MESSAGES = ("long-data", "pairs", "exponents", "digests", "alike", "key-sets", "key-sets-apart",
               "key-sets-aliases", "key-anchors", "keys-to-check", "expanded-nsec", "expanded-nsec3", "hashes", "question-hashes", "aliases",
               "alias-hashes", "timeline-transfer", "timeline-bystanders", "timeline-hashes", "timeline-ends")

Record = namedtuple("Record", "owner rtype rdata")


def capture_of(shape):
    return b"".join(shape.files["capture"])


def messages_of(shape):
    """The records of each message."""
    return [[Record(lower(name_at(octets, each.name)), each.kind, octets[each.front:each.end])
             for each in records_of(octets)] for octets in frames_of(capture_of(shape))[0]]


def of_type(messages, rtype):
    return [each for records in messages for each in records if each.rtype == rtype]


class Captures(unittest.TestCase):
    def test_each_is_of_whole_messages_within_the_limits(self):
        for name in OF_MESSAGES:
            make, size = SHAPES[name]
            for shape in (make(size), make(4 * size)):
                octets = capture_of(shape)
                messages, end = frames_of(octets)
                with self.subTest(name):
                    self.assertEqual((end, all(map(is_message, messages))), (len(octets), True))
                    self.assertLessEqual(len(messages), 64)
                    self.assertLessEqual(sum(len(list(records_of(each))) for each in messages), 4096)

    def test_each_is_the_same_again(self):
        for name in OF_MESSAGES:
            make, size = SHAPES[name]
            self.assertEqual(capture_of(make(size)), capture_of(make(size)), name)

    def test_each_other_has_an_empty_one_or_frames_of_one_octet(self):
        for name in set(SHAPES) - set(OF_MESSAGES) - {"frames"}:
            self.assertEqual(SHAPES[name][0](1).files["capture"], [], name)
        self.assertEqual(frames_of(capture_of(files.frames(1_000))), ([b"\x00"] * 1_000, 3_000))


class Timelines(unittest.TestCase):
    """How many moments there are at which a signature begins or ends."""

    def changes(self, shape):
        times = times_of(capture_of(shape))
        return len({first for first, _ in times} | {last + 1 for _, last in times}), len(times)

    def test_of_the_transfer_few_are(self):
        self.assertEqual(self.changes(timelines.transfer(60))[0], 6)

    def test_of_bystanders_each_has_times_of_its_own(self):
        count, signatures_there = self.changes(timelines.bystanders(1000))
        self.assertEqual(signatures_there, 1000)
        self.assertGreater(count, 1900)
        www = [each for records in messages_of(timelines.bystanders(1000)) for each in records
               if each.rtype == TYPE_RRSIG and name_text(each.owner) == "www.bench.example."]
        self.assertEqual(len(www), timelines.USED)

    def test_of_hashes_each_has_times_of_its_own_and_nobody_signed_an_nsec3_record(self):
        shape = timelines.hashes(100)
        count, signatures_there = self.changes(shape)
        self.assertEqual(signatures_there, 100)
        self.assertGreater(count, 150)
        messages = messages_of(shape)
        salts = {each.rdata[5:5 + each.rdata[4]] for each in of_type(messages, NSEC3)}
        covered = {int.from_bytes(each.rdata[:2], "big") for each in of_type(messages, TYPE_RRSIG)}
        self.assertEqual((len(salts), {len(each) for each in salts}, covered), (8, {255}, {A, TYPE_DNSKEY}))
        name = shape.words[shape.words.index("--name") + 1]
        self.assertEqual(name.count("."), timelines.DEEP)
        self.assertNotIn(name, {name_text(each.owner) for records in messages for each in records})

    def test_of_ends_all_are_over_one_name(self):
        shape = timelines.ends(3024)
        self.assertEqual(self.changes(shape), (3024 + 3, 3024 + 1))
        owners = {name_text(each.owner) for each in of_type(messages_of(shape), A)}
        self.assertEqual((owners, len(of_type(messages_of(shape), A))), ({"www.bench.example."}, 189))


class Signatures(unittest.TestCase):
    def assert_keys_of_one_tag(self, messages, count):
        rdata = {each.rdata for each in of_type(messages, TYPE_DNSKEY)}
        tags = {key_tag(each) for each in rdata}
        self.assertEqual((len(rdata), len(tags)), (count, 1))
        named = {int.from_bytes(each.rdata[16:18], "big") for each in of_type(messages, TYPE_RRSIG)}
        self.assertEqual(named, tags)

    def test_long_data_has_few_long_rrsets_and_keys_of_one_tag(self):
        shape = signatures.long_data(24)
        messages = messages_of(shape)
        self.assert_keys_of_one_tag(messages, 24)
        self.assertEqual([len(each.rdata) for each in of_type(messages, TXT)], [57_088] * 3)
        self.assertEqual(len({each.rdata for each in of_type(messages, TYPE_RRSIG)}), 3 * 16)
        self.assertEqual(shape.pairs, 24 * 3 * 16)

    def test_pairs_has_as_many_signatures_as_keys_of_one_tag(self):
        shape = signatures.pairs(48)
        messages = messages_of(shape)
        self.assert_keys_of_one_tag(messages, 48)
        self.assertEqual(len({each.rdata for each in of_type(messages, TYPE_RRSIG)}), 48)
        self.assertEqual(shape.pairs, 48 * 48)


    def test_exponents_has_keys_of_rsa_whose_numbers_are_as_long_as_they_may_be(self):
        """None of them is malformed, and none is tried: its exponent is too long (tools/verify)."""
        shape = signatures.exponents(2)
        messages = messages_of(shape)
        self.assert_keys_of_one_tag(messages, 32)
        for each in of_type(messages, TYPE_DNSKEY):
            modulus, exponent = rsa.rsa_key(each.rdata[4:], 512)
            self.assertEqual((modulus.bit_length(), exponent.bit_length()), (4096, 4096))
        for each in of_type(messages, TYPE_RRSIG):
            self.assertEqual(len(each.rdata), 18 + len(b"\x05bench\x07example\x00") + 512)
        self.assertEqual((len(of_type(messages, TYPE_RRSIG)), shape.pairs), (10, 32 * 10))


class Keys(unittest.TestCase):
    def test_digests_has_keys_that_ds_records_name_and_do_not_match(self):
        messages = messages_of(keys.digests(4))
        owner = (b"sub", b"bench", b"example")
        delegated = of_type(messages, TYPE_DS)
        below = [each.rdata for each in of_type(messages, TYPE_DNSKEY) if each.owner == owner]
        self.assertEqual(([each.owner for each in delegated], len(set(below))), ([owner] * 4, 64))
        tags = {int.from_bytes(each.rdata[:2], "big") for each in delegated}
        self.assertEqual(tags, {key_tag(each) for each in below})
        made = {hashlib.sha256(b"\x03sub\x05bench\x07example\x00" + each).digest() for each in below}
        self.assertFalse(made & {each.rdata[4:] for each in delegated})

    def test_alike_has_a_trusted_key_and_long_ones_that_begin_alike(self):
        messages = messages_of(keys.alike(4))
        rdata = [each.rdata for each in of_type(messages, TYPE_DNSKEY)]
        others = {each for each in rdata if each != keys.KEY}
        self.assertEqual((rdata.count(keys.KEY), len(others)), (4, 60))
        self.assertEqual(len({each[:4_000] for each in others}), 1)
        self.assertNotIn(key_tag(keys.KEY), {key_tag(each) for each in others})


class Denials(unittest.TestCase):
    def assert_expanded(self, messages):
        signed = [each for each in of_type(messages, TYPE_RRSIG) if int.from_bytes(each.rdata[:2], "big") in (A, CNAME)]
        self.assertEqual((len(messages), len(signed)), (8, 8 * 96))
        for each in signed:
            self.assertEqual(len(each.owner), 127)
            self.assertLess(each.rdata[3], 127)

    def test_expanded_nsec_has_records_that_say_nothing_of_the_name(self):
        messages = messages_of(denials.expanded_nsec(8))
        self.assert_expanded(messages)
        records = of_type(messages, NSEC)
        self.assertEqual(len({each.rdata for each in records}), 8 * 112)
        for each in records:
            following = name_at(each.rdata, 0)
            self.assertEqual((end_of_name(each.rdata, 0), len(each.owner)), (len(each.rdata) - 8, 120))
            self.assertEqual(each.owner[1:], following[1:])
            # The name's label at this place comes before both.
            self.assertLess(b"a", each.owner[0])
            self.assertLess(each.owner[0], following[0])

    def test_expanded_nsec3_has_records_whose_gaps_go_over_the_end(self):
        messages = messages_of(denials.expanded_nsec3(8))
        self.assert_expanded(messages)
        records = of_type(messages, NSEC3)
        self.assertEqual(len({each.rdata for each in records}), 8 * 120)
        self.assertEqual(len({each.rdata[5:6] for each in records}), 8)
        self.assertEqual({each.owner for each in records}, {(b"v" * 32,)})
        self.assertTrue(all(each.rdata[7:25] == bytes(18) for each in records))

    def test_hashes_has_the_most_expensive_parameters_and_no_signature(self):
        shape = denials.hashes(3)
        messages = messages_of(shape)
        self.assertEqual(of_type(messages, TYPE_RRSIG), [])
        self.assertEqual({(each.rdata[:5], len(each.rdata)) for each in of_type(messages, NSEC3)},
                         {(b"\x01\x00\x01\xf4\xff", 5 + 255 + 21)})
        self.assertEqual(len({each.rdata for each in of_type(messages, NSEC3)}), 8)
        self.assertIn("a.a.a.", shape.words)
        self.assertEqual(name_text(name_at(denials.DEEP, 0)), "a." * 127)


class Aliases(unittest.TestCase):
    def assert_a_way_of_nine_names(self, messages, labels):
        links = of_type(messages, CNAME)
        names = [each.owner for each in links] + [lower(name_at(links[-1].rdata, 0))]
        self.assertEqual((len(set(names)), {len(name) for name in names}), (9, {labels}))
        self.assertEqual([lower(name_at(each.rdata, 0)) for each in links], names[1:])

    def test_aliases_lead_over_eight_names_beside_records_that_say_nothing_of_them(self):
        messages = messages_of(denials.aliases(4))
        self.assert_a_way_of_nine_names(messages, 127)
        self.assertEqual(len(of_type(messages, NSEC)), 3 * 112)

    def test_alias_hashes_has_a_way_and_the_records_of_hashes(self):
        messages = messages_of(denials.alias_hashes(3))
        self.assert_a_way_of_nine_names(messages, 3)
        self.assertEqual(messages[1:], messages_of(denials.hashes(3)))


class Files(unittest.TestCase):
    def test_a_key_file_has_lines_of_15_octets_and_names_of_their_own(self):
        lines = list(files.key_file(100).files["keys"])
        self.assertEqual((len(set(lines)), {len(line) for line in lines}), (100, {15}))

    def test_statements_have_23_or_399_octets_and_differ(self):
        for octets, shapes in ((23, (files.statements, files.scattered)), (399, (files.long_statements, files.long_scattered))):
            rising, scattered = (list(make(1_000).files["statements"]) for make in shapes)
            for lines in (rising, scattered):
                self.assertEqual((len(set(lines)), {len(line) for line in lines}), (1_000, {octets}))
            self.assertEqual(rising, sorted(rising))
            self.assertNotEqual(scattered, sorted(scattered))

    def test_questions_have_names_of_their_own(self):
        lines = b"".join(files.questions(100).files["questions"]).splitlines()
        self.assertEqual((len(set(lines)), {line[8:] for line in lines}), (100, {b".example. 1"}))

    def test_zeros_are_as_many_as_it_says(self):
        self.assertEqual(b"".join(files.zeros(2**22).files["anchors"]), bytes(2**22))


if __name__ == "__main__":
    unittest.main()
