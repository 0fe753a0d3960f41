"""Tests of tools/capture on what dig, kdig and drill print, and on results of RIPE Atlas; data/ has how they were made."""
import base64
import json
import unittest

from dnssec_check_tools.capturing.atlas import entries_of_atlas
from dnssec_check_tools.capturing.entries import Message, Refusal, of_messages
from dnssec_check_tools.capturing.frames import frames_of
from dnssec_check_tools.capturing.messages import flags_of, is_query, name_at, question_of, rcode_of, records_of
from dnssec_check_tools.capturing.printed import entries_of_printed
from dnssec_check_tools.capturing.sources import entries_of_pcap
from judge.helper import needs_dns
from tool import DATA, run

from .build import framed

DIG = DATA / "dig"
HEAD = ";; ->>HEADER<<- opcode: QUERY, status: NOERROR, id: 7\n;; flags: qr aa; QUERY: 1, ANSWER: 1, AUTHORITY: 0, ADDITIONAL: 0\n"
QUESTION = ";; QUESTION SECTION:\n;a.test.\tIN\tTXT\n\n;; ANSWER SECTION:\n"


def served():
    """The answers as the servers sent them, in their order."""
    entries = entries_of_pcap((DIG / "all.pcap").read_bytes(), "all.pcap", {53})
    return [each.octets for each in entries if isinstance(each, Message) and not is_query(each.octets)]


def without_pointers(octets, record):
    """The RDATA; of NS the name, which may be compressed, and of SOA its numbers."""
    if record.kind == 2:
        return b".".join(name_at(octets, record.front))
    rdata = octets[record.front:record.end]
    return rdata[-20:] if record.kind == 6 else rdata


def told(octets):
    """What a message says: its flags, its question, and its records with their TTL, by section."""
    records = sorted((each.section, name_at(octets, each.name), each.kind, octets[each.front - 8:each.front - 2],
                      without_pointers(octets, each)) for each in records_of(octets) if each.kind != 41)
    return flags_of(octets), rcode_of(octets), question_of(octets), records


@needs_dns
class Printed(unittest.TestCase):
    def test_what_is_printed_says_what_the_server_sent(self):
        sent = served()
        for name, messages in (("dig", sent[:5]), ("kdig", sent[5:7]), ("drill", sent[7:])):
            status, output, errors = run("capture", DIG / f"{name}.txt")
            written = frames_of(output)[0]
            self.assertEqual((status, [told(each) for each in written]), (0, [told(each) for each in messages]), name)
            self.assertIn("are written anew from text, so their octets aren't the server's\n", errors)
            self.assertEqual([each[:2] for each in written], [each[:2] for each in messages])

    def test_it_is_known_by_its_beginning_and_by_its_option(self):
        text = (DIG / "dig.txt").read_bytes()
        self.assertEqual(run("capture", "-", given=text)[1], run("capture", "--dig", "-", given=text)[1])

    def message(self, text):
        message, = of_messages(entries_of_printed(text.encode(), "x"))
        return message.octets

    def test_forms_of_records(self):
        plain = self.message(f'{HEAD}{QUESTION}a.test. 300 IN TXT "b;(c" ; (\n')
        for line in ('a.test.\t5M IN TXT ( "b;(c"\n\t) ; ) "', "a.test. 300 CLASS1 TYPE16 \\# 5 04623b2863", 'a.test. 300 IN TXT b\\;\\(c'):
            self.assertEqual(self.message(f"{HEAD}{QUESTION}{line}\n"), plain)

    def test_a_response_code_above_15(self):
        octets = self.message(HEAD.replace("NOERROR", "BADVERS"))
        self.assertEqual(rcode_of(octets), 16)

    def test_what_dig_does_not_print_is_refused_with_its_line(self):
        lines = ("a.test. 300 IN TXT", "a 300 IN TXT b", "a.test. IN TXT b", "a.test. 300 IN A x", "a.test. 300 XX TXT b", "Transfer failed.",
                 "a.test. 300 IN DNSKEY 256 3 13 [key id = 7]", 'a.test. 300 IN TXT "b', "a.test. 300 IN TXT \u00e9", "a.test. 300 IN TXT ( b")
        for line in lines:
            status, output, errors = run("capture", "-", given=f"{HEAD}{QUESTION}{line}\n".encode())
            self.assertEqual((status, output), (1, b""), line)
            self.assertIn("refused: -: line 7 is nothing that dig prints of an answer\n", errors)
        for old, new in (("NOERROR", "NOSUCH"), ("QUERY, st", "NOSUCH, st"), ("id: 7", "id: 70000"), ("qr aa", "qr xx")):
            with self.assertRaisesRegex(Refusal, "line 1 is nothing"):
                self.message(HEAD.replace(old, new))

    def test_text_without_an_answer(self):
        status, _, errors = run("capture", "--dig", "-", given=b"; <<>> DiG 9.18 <<>> x\n")
        self.assertEqual((status, errors), (1, "capture: refused: -: no answer as dig prints it\n"))


class Atlas(unittest.TestCase):
    def results(self):
        return json.loads((DATA / "atlas" / "results.json").read_text())

    def test_each_answer_is_taken_and_each_error_told(self):
        sent = served()
        text = "\n".join(map(json.dumps, self.results())).encode()
        for given in ((DATA / "atlas" / "results.json").read_bytes(), text):
            status, output, errors = run("capture", "-", given=given)
            self.assertEqual((status, output), (0, framed(sent[0], sent[3])))
            self.assertIn("dropped the answer of 127.0.77.4 to probe 102 of -: there is none: {'timeout': 5000}\n", errors)

    def test_one_result_alone(self):
        self.assertEqual(len(of_messages(entries_of_atlas(json.dumps(self.results()[0]).encode(), "x"))), 1)

    def test_what_is_not_base64_is_told(self):
        result = {"prb_id": 7, "result": {"abuf": base64.b64encode(b"octets").decode() + "*"}}
        entry, = entries_of_atlas(json.dumps(result).encode(), "x")
        self.assertEqual(entry, ("the answer of a server to probe 7 of x", "it isn't base64"))

    def test_what_is_no_result_is_refused(self):
        for text in ('{"prb_id": 1', '[{"prb_id": 1}, 7]', "7", '{"abuf": 1}\n{'):
            status, _, errors = run("capture", "--atlas", "-", given=text.encode())
            self.assertEqual((status, errors), (1, "capture: refused: -: no results of RIPE Atlas\n"), text)


if __name__ == "__main__":
    unittest.main()
