"""Tests of tools/verify: the vectors of the RFCs, lines of real zones, and what is malformed or refused."""
import pathlib
import sys
import tempfile
import unittest
from unittest import mock

from cryptography.exceptions import UnsupportedAlgorithm

from tool import DATA, TOOLS, run, run_program
from cases import examples
from dnssec_check_tools.verifying import entries

P256_ORDER = 0xFFFFFFFF00000000FFFFFFFFFFFFFFFFBCE6FAADA7179E84F3B9CAC2FC632551


def vectors():
    """Each vector's name and its line."""
    lines = (DATA / "vectors").read_text().splitlines()
    return zip(lines[::2], lines[1::2])


def parts_of(line):
    """The algorithm, the key, the signed octets and the signature of a line."""
    _, algorithm, *fields = line.split(" ")
    return (int(algorithm), *map(entries.octets_of, fields))


def with_bit_changed(octets, place):
    changed = bytearray(octets)
    changed[place] ^= 1
    return bytes(changed)


class Vectors(unittest.TestCase):
    def test_each_vector_is_good(self):
        for name, line in vectors():
            with self.subTest(name):
                self.assertTrue(entries.is_good(*parts_of(line)))

    def test_no_vector_is_good_with_a_bit_changed(self):
        for name, line in vectors():
            algorithm, *fields = parts_of(line)
            for field, place in ((0, -1), (1, 0), (1, -1), (2, 0), (2, -1)):
                with self.subTest(name, field=field, place=place):
                    changed = list(fields)
                    changed[field] = with_bit_changed(fields[field], place)
                    self.assertFalse(entries.is_good(algorithm, *changed))

    def test_every_algorithm_has_a_vector_or_a_real_line(self):
        lines = [line for _, line in vectors()] + (DATA / "todo").read_text().splitlines()
        self.assertEqual({parts_of(line)[0] for line in lines}, {5, 7, 8, 10, 13, 14, 15, 16})

    def test_no_vector_is_good_by_another_algorithm(self):
        for name, line in vectors():
            algorithm, *fields = parts_of(line)
            for other in set(entries.VERIFIERS) - {algorithm} - ({5, 7} if algorithm in (5, 7) else set()):
                with self.subTest(name, other=other):
                    self.assertFalse(entries.is_good(other, *fields))


def encoded(y, size, sign=0):
    """A point of EdDSA (RFC 8032 5.1.2, 5.2.2)."""
    return (y | sign << (8 * size - 1)).to_bytes(size, "little")


class SmallOrders(unittest.TestCase):
    """Keys that no secret gives: with S zero the equation of RFC 8032 5.1.7 holds for whichever data whose hash the
    order divides, so one of few data has such a signature by each of them."""

    PRIMES = {15: 2**255 - 19, 16: 2**448 - 2**224 - 1}
    ORDER_8 = (0x05FC536D880238B13933C6D305ACDFD5F098EFF289F4C345B027B2C28F95E826,
               0x7A03AC9277FDC74EC6CC392CFA53202A0F67100D760B3CBA4FD84D3D706A17C7)

    def keys(self):
        """Of Ed25519 all, with the sign and with the prime added where that fits; of Ed448 the same."""
        for algorithm, prime in self.PRIMES.items():
            size = 32 if algorithm == 15 else 57
            for y in (0, 1, prime - 1, *(self.ORDER_8 if algorithm == 15 else ()), prime, prime + 1):
                for sign in (0, 1):
                    yield algorithm, encoded(y, size, sign)

    def test_the_point_of_order_8_is_one(self):
        """By the curve: y of a point whose double has y = 0, so that x^2 = -y^2 with 2 y^2 = 1 - d y^4 (RFC 8032 5.1)."""
        prime = self.PRIMES[15]
        d = -121665 * pow(121666, -1, prime) % prime
        for y in self.ORDER_8:
            self.assertEqual((d * pow(y, 4, prime) + 2 * y * y - 1) % prime, 0)

    def test_keys_of_small_order_are_malformed(self):
        for algorithm, key in self.keys():
            with self.subTest(algorithm, key=key.hex()):
                for end in (encoded(1, len(key)), encoded(0, len(key)), encoded(self.PRIMES[algorithm] - 1, len(key))):
                    signature = end + bytes(len(key))
                    self.assertFalse(any(entries.is_good(algorithm, key, b"%d" % number, signature) for number in range(32)))


class RealLines(unittest.TestCase):
    def test_real_lines_get_the_statements_that_were_made_for_them(self):
        status, output, errors = run("verify", DATA / "todo")
        self.assertEqual((status, errors), (0, ""))
        self.assertEqual(output, (DATA / "statements").read_bytes())

    def test_the_program_itself(self):
        given = (DATA / "todo").read_bytes()
        self.assertEqual(run_program(TOOLS / "verify", given=given), (0, (DATA / "statements").read_bytes(), ""))
        self.assertEqual(run_program(TOOLS / "verify", given=b"x")[:2], (1, b""))

    def test_a_write_that_fails(self):
        with open("/dev/full", "wb") as full:
            status, errors = run_program(TOOLS / "verify", DATA / "todo", output=full)[::2]
        self.assertEqual((status, errors.count("\n")), (1, 1))

    def test_the_standard_input_is_read_where_no_file_is_named(self):
        given = (DATA / "todo").read_bytes()
        self.assertEqual(run("verify", given=given), run("verify", DATA / "todo"))
        self.assertEqual(run("verify", "-", given=given), run("verify", DATA / "todo"))

    def test_the_last_newline_may_be_missing(self):
        given = (DATA / "todo").read_bytes()
        self.assertEqual(run("verify", given=given[:-1]), run("verify", given=given))


class Examples(unittest.TestCase):
    """What has to be verified of each real capture, and what was said of it."""

    def test_the_lists_of_the_examples_get_the_statements_of_their_checks(self):
        there = {example.name: example for example in examples()}
        pairs = [(there[f"{check.folder.name}/list"], check) for name, check in there.items()
                 if name.endswith("/check") and f"{check.folder.name}/list" in there]
        for listed, check in pairs:
            with self.subTest(check.name):
                wanted = (0, check.files["statements"].read_bytes(), "")
                self.assertEqual(run("verify", given=listed.output), wanted)
        self.assertGreater(len(pairs), 30)


class CurveKeys(unittest.TestCase):
    def test_keys_and_signatures_of_another_length_are_bad(self):
        for name, line in vectors():
            algorithm, key, data, signature = parts_of(line)
            if algorithm < 13:
                continue
            size = len(signature) // 2
            for bad_key, bad_signature in ((b"", signature), (key[1:], signature), (key + b"\x00", signature),
                                           (key, b""), (key, signature[1:]), (key, signature + b"\x00"),
                                           (key, signature[:size] + b"\x00" + signature[size:])):
                with self.subTest(name, key=len(bad_key), signature=len(bad_signature)):
                    self.assertFalse(entries.is_good(algorithm, bad_key, data, bad_signature))

    def test_a_point_off_the_curve_is_bad(self):
        self.assertFalse(entries.is_good(13, bytes(64), b"data", bytes(63) + b"\x01"))

    def test_numbers_of_ecdsa_out_of_range_are_bad(self):
        line = next(line for name, line in vectors() if "P-256" in name)
        algorithm, key, data, signature = parts_of(line)
        for half in (bytes(32), P256_ORDER.to_bytes(32, "big"), b"\xff" * 32):
            self.assertFalse(entries.is_good(algorithm, key, data, half + signature[32:]))
            self.assertFalse(entries.is_good(algorithm, key, data, signature[:32] + half))


class Files(unittest.TestCase):
    def setUp(self):
        room = tempfile.TemporaryDirectory()
        self.addCleanup(room.cleanup)
        self.room = pathlib.Path(room.name)

    def file(self, name, octets):
        path = self.room / name
        path.write_bytes(octets)
        return path

    def test_several_files_give_the_statements_of_each_in_turn(self):
        todo, statements = ((DATA / name).read_bytes() for name in ("todo", "statements"))
        front, back = self.file("front", b"todo 13 01 02 03\n"), self.file("back", b"todo 8 01 02 03")
        wanted = b"bad 13 01 02 03\n" + statements + b"bad 8 01 02 03\n"
        self.assertEqual(run("verify", front, "-", back, given=todo), (0, wanted, ""))
        self.assertEqual(run("verify", "--from-check", front, DATA / "todo", back), (0, wanted, ""))

    def test_a_line_that_is_refused_has_its_file_and_nothing_is_written(self):
        bad = self.file("bad;name", b"todo 13 01 02 03\nx\n")
        told = f"verify: line 2 of {bad}: no line `todo ALG KEY DATA SIG`\n"
        self.assertEqual(run("verify", DATA / "todo", bad), (1, b"", told))

    def test_a_file_that_is_not_there(self):
        status, output, errors = run("verify", DATA / "todo", DATA / "no-such-file")
        self.assertEqual((status, output, errors.count("\n")), (1, b"", 1))
        self.assertIn("no-such-file", errors)

    def test_a_name_that_is_no_text_is_told_in_one_line(self):
        for name in ("a\nb", "a\x1b[2Jb", "a\udcffb"):
            with self.subTest(name):
                status, output, errors = run("verify", self.file(name, b"x\n"))
                self.assertEqual((status, output, errors.count("\n")), (1, b"", 1))
                self.assertNotIn("\x1b", errors)


class Lacking(unittest.TestCase):
    """Where the package, or the library below it, lacks an algorithm, the other lines are written all the same."""

    GIVEN = b"todo 16 01 02 03\n" + (DATA / "todo").read_bytes() + b"todo 16 01 02 04\n"

    def left_out(self, lines):
        status, output, errors = run("verify", given=self.GIVEN)
        wanted = [line for number, line in enumerate(self.answered(), 1) if number not in lines]
        self.assertEqual((status, output), (1, b"".join(wanted)))
        told = errors.splitlines()
        self.assertEqual(len(told), len(lines))
        for number, text in zip(lines, told):
            self.assertIn(f"left out line {number} of -: the package cryptography lacks algorithm 1", text)

    def answered(self):
        statements = (DATA / "statements").read_bytes()
        return (b"bad 16 01 02 03\n" + statements + b"bad 16 01 02 04\n").splitlines(keepends=True)

    def test_what_the_library_lacks_is_left_out(self):
        class Ed448:
            """As the package has the class where its library was built without this curve."""

            @staticmethod
            def from_public_bytes(_):
                raise UnsupportedAlgorithm("ed448 is not supported by this version of OpenSSL.")

        lines = self.GIVEN.decode().splitlines()
        with mock.patch.dict(entries.curves().EDDSA, {"Ed448": Ed448}):
            self.left_out([number for number, line in enumerate(lines, 1) if line.startswith("todo 16 ")])

    def test_without_the_package_rsa_is_verified(self):
        lines = self.GIVEN.decode().splitlines()
        with mock.patch.dict(sys.modules, {"dnssec_check_tools.verifying.curves": None}):
            self.left_out([number for number, line in enumerate(lines, 1) if line.startswith("todo 1")
                           and not line.startswith("todo 10 ")])


class Lines(unittest.TestCase):
    def refused(self, given, line, *words):
        status, output, errors = run("verify", *words, given=given)
        self.assertEqual((status, output), (1, b""))
        self.assertEqual(errors.count("\n"), 1)
        self.assertIn(f"line {line} of -: ", errors)

    def test_what_is_no_line_to_verify_is_refused_by_its_number(self):
        for text in (b"", b"# note", b"Pending a. 1", b"todo", b"todo 13 01 02", b"todo 13 01 02 03 04",
                     b"todo 13  01 02 03", b"todo 013 01 02 03", b"todo 13 0 02 03", b"todo 13 0g 02 03",
                     b"good 13 01 02 03", b" todo 13 01 02 03", b"todo 13 01 02 03 ", b"todo 13 01 02 03\r",
                     b"todo 13 01 02 \xff"):
            with self.subTest(text):
                self.refused(b"todo 13 01 02 03\n" + text + b"\n", 2)

    def test_an_algorithm_that_is_not_known_is_refused(self):
        for number in (0, 1, 3, 6, 12, 17, 253, 999):
            self.refused(b"todo %d 01 02 03\n" % number, 1)
            self.refused(b"todo %d 01 02 03\n" % number, 1, "--from-check")

    def test_other_lines_of_a_verdict_are_passed_over_where_that_is_asked(self):
        name, line = next(iter(vectors()))
        given = f"Pending www.example.net. 1\nalias a. rrset 2 signature 1\n\n{line}\n".encode()
        self.refused(given, 1)
        wanted = ("good" + line[4:] + "\n").encode()
        self.assertEqual(run("verify", "--from-check", given=given), (0, wanted, ""))

    def test_a_torn_line_is_refused_also_there(self):
        self.refused(b"Pending a. 1\ntodo 13 01\n", 2, "--from-check")
        self.refused(b"Pending a. 1\ntodo\n", 2, "--from-check")

    def test_fields_are_kept_as_they_are_spelled(self):
        self.assertEqual(run("verify", given=b"todo 13 AbCd - EF\n"), (0, b"bad 13 AbCd - EF\n", ""))

    def test_nothing_gives_nothing(self):
        self.assertEqual(run("verify", given=b""), (0, b"", ""))

    def test_help(self):
        status, output, _ = run("verify", "--help")
        self.assertEqual(status, 0)
        for word in (b"todo ALG KEY DATA SIG", b"--from-check", b"RFC 8080", b"exit status"):
            self.assertIn(word, output)

    def test_another_option_is_a_wrong_command_line(self):
        self.assertEqual(run("verify", "--from")[0], 2)


if __name__ == "__main__":
    unittest.main()
