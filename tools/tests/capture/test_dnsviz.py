"""Tests of tools/capture --dnsviz: which answers of a probe are kept."""
import base64
import json
import unittest

from tool import DATA, run

from .build import framed, message
from .cases import ONE, QUERY, TWO

PROBE = DATA / "dnsviz" / "probe.json"
TRUNCATED, FAILED, REFUSED = (message(7, "one.", flags) for flags in (0x8600, 0x8402, 0x8005))


def response(octets):
    return {"message": base64.b64encode(octets).decode(), "msg_size": len(octets), "history": []}


def probe(*queries):
    """A probe of these queries, each a name and what each server answered."""
    asked = [{"qname": name, "qclass": "IN", "qtype": "A", "options": {"flags": 0}, "responses": {
        f"192.0.2.{number}": {"192.0.2.99": answer if isinstance(answer, dict) else response(answer)}
        for number, answer in enumerate(answers, 1)}} for name, *answers in queries]
    return json.dumps({"one.": {"type": "stub", "queries": asked}, "_meta._dnsviz.": {"version": 1.2}}).encode()


class Probe(unittest.TestCase):
    def takes(self, given, messages, *told):
        status, output, errors = run("capture", "--dnsviz", "-", given=given)
        self.assertEqual((status, output), (0, framed(*messages)), errors)
        lines = [line for line in errors.splitlines() if "capture: note:" not in line]
        self.assertEqual(len(lines), len(told) + 1, errors)
        for line, text in zip(lines, told):
            self.assertIn(text, line)

    def test_a_real_probe(self):
        asked = json.loads(PROBE.read_bytes())
        places = (("example.test.", 0), ("example.test.", 1), ("sub.example.test.", 0), ("sub.example.test.", 1),
                  ("sub.example.test.", 2), ("www.sub.example.test.", 0))
        answers = [asked[name]["queries"][number]["responses"]["127.0.0.2"]["127.0.0.1"] for name, number in places]
        wanted = [base64.b64decode(answer["message"]) for answer in answers]
        for words in (["--dnsviz", PROBE], [PROBE]):
            status, output, errors = run("capture", *words)
            self.assertEqual((status, output), (0, framed(*wanted)), errors)
            self.assertEqual(errors, f"capture: passed over answers of {PROBE}: 5 of questions that have one\n"
                                     "capture: kept 6 of 6\n")

    def test_of_several_answers_the_first_whole_one_is_kept(self):
        other = message(9, "ONE.")
        lost = {"message": None, "error": "TIMEOUT", "history": []}
        torn, odd = response(ONE[:-1]), {"message": "!", "history": []}
        told = "passed over answers of -: 1 of questions that have one"
        for worse in (TRUNCATED, FAILED, REFUSED, QUERY, lost, torn, odd):
            self.takes(probe(("one.", worse, ONE)), [ONE], told)
            self.takes(probe(("one.", ONE, worse)), [ONE], told)
        self.takes(probe(("one.", ONE, other)), [ONE], told)
        self.takes(probe(("one.", other, ONE)), [other], told)
        self.takes(probe(("one.", TRUNCATED), ("ONE.", ONE), ("two.", TWO)), [ONE, TWO], told)
        self.takes(probe(("one.", message(9, "one.", 0x8403), ONE)), [message(9, "one.", 0x8403)], told)

    def test_an_error_may_be_told_by_an_opt_record(self):
        told = "passed over answers of -: 1 of questions that have one"
        for low, upper, kept in ((0, 1, TWO), (3, 1, TWO), (7, 1, TWO), (0, 255, TWO), (0, 0, None), (3, 0, None)):
            opt = b"\x00\x00\x29\x04\xd0" + bytes([upper]) + b"\x00\x80\x00\x00\x00"
            first = message(8, "two.", 0x8400 | low, opt, 1)
            self.takes(probe(("two.", first, TWO)), [kept or first], told)
        refused = message(8, "two.", 0x8405, b"\x00\x00\x29\x04\xd0" + bytes(6), 1)
        self.takes(probe(("two.", refused, TWO)), [TWO], told)

    def test_an_answer_to_a_query_with_the_flag_do_goes_before_one_without(self):
        def edns(flags, low=0):
            return message(8, "two.", 0x8400 | low, b"\x00\x00\x29\x04\xd0\x00\x00" + flags + b"\x00\x00", 1)

        told = "passed over answers of -: 1 of questions that have one"
        signed, plain = edns(b"\x80\x00"), edns(b"\x7f\xff")
        for first in (plain, TWO, TRUNCATED, edns(b"\x80\x00", 2)):
            self.takes(probe(("two.", first, signed)), [signed], told)
            self.takes(probe(("two.", signed, first)), [signed], told)
        self.takes(probe(("two.", edns(b"\x80\x00", 2), plain)), [plain], told)
        self.takes(probe(("two.", plain, TWO)), [plain], told)

    def test_a_question_without_a_whole_answer_is_told(self):
        lost = {"message": None, "error": "TIMEOUT", "history": []}
        self.takes(probe(("two.", lost, {"message": "!"}, TRUNCATED), ("one.", ONE)), [ONE],
                   "dropped the answer of 192.0.2.1 to two. A of -: there is none: TIMEOUT",
                   "dropped the answer of 192.0.2.2 to two. A of -: it isn't base64",
                   "dropped the answer of 192.0.2.3 to two. A of -: truncated: one. A")
        self.takes(probe(("two.", FAILED, lost), ("one.", ONE)), [FAILED, ONE], "passed over")

    def test_what_a_terminal_would_obey_is_escaped(self):
        for odd in ("\x1b[2J", "a\nb", "\r", "\x9b1m", "\u202e", "\udcff"):
            lost = {"message": None, "error": odd, "history": []}
            given = probe((odd, lost), ("one.", ONE)).replace(b"192.0.2.1", json.dumps(odd)[1:-1].encode())
            told = f"the answer of {ascii(odd)} to {ascii(odd + ' A')} of -: there is none: {ascii(odd)}"
            self.takes(given, [ONE], told)

    def test_what_is_no_probe_is_refused(self):
        texts = (b"", b"{", b"[]", b"7", b'{"a": 7}', b'{"a": {"queries": 7}}', b'{"a": {"queries": [7]}}',
                 b'{"a": {"queries": [{"qname": "a."}]}}', b"{" * 100000, b"\xff\xfe", b'{"a":' * 100000,
                 b'{"a": {"queries": [{"qname": "a.", "qtype": "A", "responses": {"s": {"c": "x"}}}]}}')
        for text in texts:
            with self.subTest(text[:60]):
                status, output, errors = run("capture", "--dnsviz", "-", given=text)
                self.assertEqual((status, output, errors), (1, b"", "capture: refused: -: no output of dnsviz probe\n"))
