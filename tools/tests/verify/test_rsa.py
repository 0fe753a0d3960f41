"""Tests of tools/verify with keys of RSA: what is good, and what is malformed."""
import hashlib
import math
import unittest

from cryptography.hazmat.primitives import hashes
from cryptography.hazmat.primitives.asymmetric import padding, rsa

from dnssec_check_tools.verifying import entries, rsa as keys

HASHES = {5: "sha1", 7: "sha1", 8: "sha256", 10: "sha512"}
SIZES = [(5, 511, False), (5, 512, True), (7, 511, False), (7, 512, True), (8, 504, False), (8, 511, False),
         (8, 512, True), (10, 1016, False), (10, 1023, False), (10, 1024, True)]


def octets_of_number(number):
    return number.to_bytes((number.bit_length() + 7) // 8, "big")


def key_field(modulus, exponent):
    """RFC 3110 2."""
    e = octets_of_number(exponent)
    front = bytes([len(e)]) if len(e) < 256 else b"\x00" + len(e).to_bytes(2, "big")
    return front + e + octets_of_number(modulus)


def prime_from(number):
    """A number from `number` on that the test of Fermat takes for a prime."""
    number |= 1
    while pow(2, number - 1, number) != 1:
        number += 2
    return number


def small_key_and_signature(algorithm, bits):
    """A key field of a modulus of so many bits, and its signature of b"data"."""
    half = bits // 2
    p, q = prime_from(3 << (half - 2)), prime_from(13 << (bits - half - 4))
    name = HASHES[algorithm]
    end = b"\x00" + keys.DIGEST_INFO[name] + hashlib.new(name, b"data").digest()
    size = (bits + 7) // 8
    message = b"\x00\x01".ljust(size - len(end), b"\xff") + end
    secret = pow(65537, -1, (p - 1) * (q - 1))
    signature = pow(int.from_bytes(message, "big"), secret, p * q).to_bytes(size, "big")
    assert (p * q).bit_length() == bits
    return key_field(p * q, 65537), signature


class Keys(unittest.TestCase):
    """Keys that the package makes, and numbers that a key or a signature may not have."""

    @classmethod
    def setUpClass(cls):
        cls.private = rsa.generate_private_key(65537, 2050)
        numbers = cls.private.private_numbers()
        cls.modulus, cls.phi = numbers.public_numbers.n, (numbers.p - 1) * (numbers.q - 1)
        cls.size = (cls.modulus.bit_length() + 7) // 8

    def signed(self, message, exponent=65537):
        """What the private key makes of the padded message."""
        secret = pow(exponent, -1, self.phi)
        return pow(int.from_bytes(message, "big"), secret, self.modulus).to_bytes(self.size, "big")

    def padded(self, info, digest, behind=b"", octets=None):
        end = b"\x00" + info + digest + behind
        count = self.size - 2 - len(end) if octets is None else octets
        return (b"\x00\x01" + b"\xff" * count + end).ljust(self.size, b"\x00")

    def is_good(self, signature, exponent=65537, key=None, algorithm=8):
        return entries.is_good(algorithm, key or key_field(self.modulus, exponent), b"data", signature)

    def test_what_the_package_signs_is_good(self):
        kinds = {5: hashes.SHA1(), 7: hashes.SHA1(), 8: hashes.SHA256(), 10: hashes.SHA512()}
        for algorithm, kind in kinds.items():
            with self.subTest(algorithm):
                signature = self.private.sign(b"data", padding.PKCS1v15(), kind)
                self.assertTrue(self.is_good(signature, algorithm=algorithm))

    def test_an_exponent_of_more_than_255_octets(self):
        exponent = self.phi - 1
        self.assertGreater(len(octets_of_number(exponent)), 255)
        self.assertEqual(keys.rsa_key(key_field(self.modulus, exponent), 512), (self.modulus, exponent))

    def test_exponents_above_64_bits_are_not_verified(self):
        """Neither good nor bad is said of them, but of what is malformed bad all the same."""
        message = self.padded(keys.DIGEST_INFO["sha256"], hashlib.sha256(b"data").digest())
        rows = ((1 << 63) + 29, True), ((1 << 64) - 1, True), ((1 << 64) + 13, False), (self.phi - 1, False)
        for exponent, is_verified in rows:
            if is_verified and math.gcd(exponent, self.phi) == 1:
                self.assertTrue(self.is_good(self.signed(message, exponent), exponent))
            elif is_verified:
                self.assertFalse(self.is_good(message, exponent))
            else:
                with self.assertRaisesRegex(keys.LongExponent, "has more than 64 bits"):
                    self.is_good(message, exponent)
            self.assertFalse(self.is_good(message[1:], exponent))
            self.assertFalse(self.is_good(message, exponent + 1))

    def test_other_padding_is_bad(self):
        info, digest = keys.DIGEST_INFO["sha256"], hashlib.sha256(b"data").digest()
        without_null = bytes.fromhex("302f300b0609608648016503040201") + bytes.fromhex("0420")
        good = self.padded(info, digest)
        self.assertTrue(self.is_good(self.signed(good)))
        others = {
            "octets behind the hash": self.padded(info, digest, behind=b"\x00" * 40),
            "eight octets of padding": self.padded(info, digest, octets=8),
            "no parameters of the hash": self.padded(without_null, digest),
            "block type 2": b"\x00\x02" + good[2:],
            "another hash's name": self.padded(keys.DIGEST_INFO["sha1"], digest),
        }
        for name, message in others.items():
            with self.subTest(name):
                self.assertFalse(self.is_good(self.signed(message)))

    def test_malformed_keys_are_bad(self):
        signature = self.private.sign(b"data", padding.PKCS1v15(), hashes.SHA256())
        n, e = octets_of_number(self.modulus), b"\x01\x00\x01"
        self.assertTrue(self.is_good(signature, key=b"\x03" + e + n))
        keys = {
            "the exponent begins with 0": b"\x04\x00" + e + n,
            "the modulus begins with 0": b"\x03" + e + b"\x00" + n,
            "a short length in two octets": b"\x00\x00\x03" + e + n,
            "no modulus": b"\x03" + e,
            "an exponent that isn't whole": b"\xff" + e + n,
            "a length that isn't whole": b"\x00\x01",
        }
        for name, key in keys.items():
            with self.subTest(name):
                self.assertFalse(self.is_good(signature, key=key))

    def test_numbers_that_no_key_has_are_bad(self):
        """Each of these would make the padded message its own signature, or let anyone sign."""
        message = self.padded(keys.DIGEST_INFO["sha256"], hashlib.sha256(b"data").digest())
        self.assertFalse(self.is_good(message, exponent=1))
        self.assertFalse(self.is_good(self.signed(message), exponent=65537 + 2 * self.phi))
        self.assertFalse(self.is_good(message, key=key_field(self.modulus + 1, 65537)))

    def test_a_number_of_more_than_4096_bits_is_bad(self):
        long_modulus = (1 << 4097) + 1
        self.assertFalse(self.is_good(bytes(513), key=key_field(long_modulus, 3)))
        with self.assertRaises(keys.Malformed):
            keys.rsa_key(key_field(long_modulus, 3), 512)
        self.assertEqual(keys.rsa_key(key_field((1 << 4095) + 1, 3), 512), ((1 << 4095) + 1, 3))

    def test_a_signature_has_the_length_of_the_modulus_and_is_below_it(self):
        signature = self.private.sign(b"data", padding.PKCS1v15(), hashes.SHA256())
        higher = int.from_bytes(signature, "big") + self.modulus
        self.assertFalse(self.is_good(b"\x00" + signature))
        self.assertFalse(self.is_good(signature[:-1]))
        self.assertFalse(self.is_good(b""))
        self.assertFalse(self.is_good(higher.to_bytes(self.size, "big")))

    def test_a_key_has_the_bits_that_its_algorithm_asks_for(self):
        """RFC 5702 2.1 and 2.2; signatures of RSA with SHA-1 have the former's limit too."""
        for algorithm, bits, is_good in SIZES:
            with self.subTest(algorithm, bits=bits):
                key, signature = small_key_and_signature(algorithm, bits)
                self.assertEqual(entries.is_good(algorithm, key, b"data", signature), is_good)

    def test_even_numbers_are_malformed(self):
        for modulus, exponent in ((self.modulus + 1, 65537), (self.modulus, 65536)):
            with self.assertRaises(keys.Malformed):
                keys.rsa_key(key_field(modulus, exponent), 512)


if __name__ == "__main__":
    unittest.main()
