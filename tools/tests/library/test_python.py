"""The library from Python: verdicts, a verifier, faults, docstrings and threads."""
import doctest
import importlib
import os
import pickle
import pkgutil
import subprocess
import sys
import time
import unittest
from concurrent.futures import ThreadPoolExecutor
from unittest import mock

from tool import TOOLS
from . import LIBRARY, SHARED

EXAMPLES = TOOLS.parent / "examples"
CASE = EXAMPLES / "bind-www-a"
MOMENT = 1795348800
THREADS = 8


def octets(path):
    return path.read_bytes()


@unittest.skipUnless(SHARED.exists(), "needs the library that `make library` builds")
class InPython(unittest.TestCase):
    def setUp(self):
        import dnssec_check

        self.module = dnssec_check

    def case(self, folder=CASE, **words):
        words = {"at": MOMENT, **words}
        return self.module.Case(octets(folder / "capture"), octets(EXAMPLES / "anchors"), **words)

    def test_a_verdict_is_an_object(self):
        found = self.case(statements=octets(CASE / "statements")).judge("www.bind.test", "A")
        told = (found.name, found.type, found.moment, found.verdict, found.status, found.rrset, found.signature, found.is_secure)
        self.assertEqual(told, ("www.bind.test.", 1, MOMENT, "SecureAnswer", 0, 6, 1, True))
        self.assertIsNone(found.why)

    def test_an_explanation_has_what_it_stands_on(self):
        found = self.case(statements=octets(CASE / "statements")).explain("www.bind.test.", 1)
        self.assertEqual(found.holds, [self.module.Interval(1793491200, 1803859200)])
        self.assertEqual([each["owner"] for each in found.rrsets][-1], "www.bind.test.")
        self.assertEqual(found.reasons, [])

    def test_what_fails_has_reasons(self):
        gone = EXAMPLES / "roll-gone"
        case = self.module.Case(octets(gone / "capture"), octets(gone / "anchors"), at=1795556700, statements=octets(gone / "statements"))
        found = case.explain("www.shop.example.test")
        self.assertEqual([each["word"] for each in found.reasons], ["key-missing"])

    def test_a_verifier_is_asked_of_each_signature_once(self):
        asked = []

        def says(*entry):
            asked.append(entry)
            return self.module.verify(*entry)

        case = self.case(verifier=says)
        for name in ("www.bind.test", "www.bind.test"):
            self.assertEqual(case.judge(name).verdict, "SecureAnswer")
        self.assertEqual(len(asked), len(set(asked)))
        self.assertEqual(self.case(verifier=lambda *entry: None).judge("www.bind.test").verdict, "Pending")
        self.assertEqual(self.case(verifier=lambda *entry: False).judge("www.bind.test").verdict, "Bogus")

    def test_the_verifier_answers_none_where_it_can_not_tell(self):
        self.assertIsNone(self.module.verify(1, b"", b"", b""))
        self.assertIs(self.module.verify(13, b"", b"", b""), False)
        with mock.patch.dict(sys.modules, {"dnssec_check_tools.verifying.curves": None}):
            self.assertIsNone(self.module.verify(13, b"", b"", b""))
            self.assertIs(self.module.verify(8, b"", b"", b""), False)

    def test_without_statements_it_says_what_is_to_be_verified(self):
        case = self.case()
        self.assertEqual(set(case.judge("www.bind.test").todo) - set(case.todo()), set())
        lines = octets(CASE / "list.stdout").decode().splitlines()
        told = [f"todo {each.algorithm} {each.key.hex()} {each.data.hex()} {each.signature.hex()}" for each in case.todo()]
        self.assertEqual(told, lines)

    def test_answers_by_number_say_what_was_verified(self):
        answers = octets(EXAMPLES / "answers-bind-www-a" / "answers")
        case = self.case(answers=answers)
        self.assertEqual(case.judge("www.bind.test").verdict, "SecureAnswer")
        self.assertEqual(len(case.todo()), answers.count(b"good"))
        for words in ({"statements": b""}, {"verifier": self.module.verify}):
            self.assertRaises(self.module.Misused, self.case, answers=b"", **words)
        with self.assertRaises(self.module.Refused) as told:
            self.case(answers=b"of\n").judge("www.bind.test")
        self.assertEqual((told.exception.number, told.exception.line), (805, 1))

    def test_no_library_is_taken_for_an_empty_name(self):
        words = [sys.executable, "-c", "import dnssec_check"]
        place = {**os.environ, "PYTHONPATH": str(LIBRARY / "python"), "DNSSEC_CHECK_LIBRARY": ""}
        done = subprocess.run(words, env=place, capture_output=True, text=True, check=False)
        self.assertIn("Unavailable: DNSSEC_CHECK_LIBRARY is empty", done.stderr)

    def test_no_library_is_one_that_lacks_a_call(self):
        calls = importlib.import_module("dnssec_check.calls")
        with mock.patch.dict(calls.TAKEN, {"never": []}), self.assertRaises(self.module.Unavailable) as told:
            calls.library()
        self.assertIn("dnssec_check_never", str(told.exception))

    def test_the_module_may_lie_anywhere(self):
        calls = importlib.import_module("dnssec_check.calls")
        with mock.patch.object(calls, "__file__", "/dnssec_check/calls.py"):
            self.assertEqual(calls.library().dnssec_check_version().decode(), self.module.version())

    def test_many_questions_are_answered_in_their_order(self):
        case = self.case(statements=octets(CASE / "statements"))
        asked = [("www.bind.test", "A"), ("www.bind.test", "AAAA"), ("#.bind.test", 1), ("a.", 1), ("www.bind.test", 46)]
        self.assertEqual([each.refused for each in case.judge_all(asked)][-1], 701)
        for name, kind in asked[:-1]:
            self.assertIn(case.judge(name, kind), case.judge_all(asked))

    def test_a_name_that_is_none_refuses_all_questions_by_its_line(self):
        for name in ("a..b", "a b", ""):
            with self.assertRaises(self.module.Refused) as told:
                self.case().judge_all([("www.bind.test", "A"), (name, "A")])
            self.assertEqual((told.exception.number, told.exception.line), (803, 2))

    def test_no_name_asks_another_question(self):
        for asked in ([("www.bind.test. 1\n#", "AAAA")], [("www.bind.test", 1), ("a\n", 1)]):
            self.assertRaises(self.module.Misused, self.case().judge_all, asked)
        with self.assertRaises(self.module.Refused) as told:
            self.case().judge("www.bind.test. 1\n#", "AAAA")
        self.assertEqual(told.exception.number, 101)

    def test_the_messages_are_shown(self):
        self.assertEqual(self.case().messages().encode(), octets(CASE / "show.stdout"))

    def test_what_is_refused_is_raised_by_number_and_place(self):
        for words, number, line in (({"statements": "good\n"}, 501, 1), ({"keys": b"a. !\n"}, 301, 1), ({"keys": b""}, 310, None)):
            with self.assertRaises(self.module.Refused) as told:
                self.case(**words).judge("www.bind.test")
            self.assertEqual((told.exception.number, told.exception.line), (number, line))
        for name, number in (("a..b", 102), ("a" * 64, 103), ("", 105)):
            with self.assertRaises(self.module.Refused) as told:
                self.case().judge(name)
            self.assertEqual(told.exception.number, number)

    def test_what_names_nothing_is_no_value(self):
        for at in (-1, 1 << 48, 1 << 64):
            self.assertRaises(self.module.Misused, self.case, at=at)
        for at in (time.time(), "1795348800", None):
            self.assertRaises(TypeError, self.case, at=at)
        for kind in (-1, 1 << 16, "TYPE65536", "NONE"):
            self.assertRaises(self.module.Misused, self.case().judge, "a", kind)
            self.assertRaises(self.module.Misused, self.case().judge_all, [("a", kind)])
        self.assertRaises(ValueError, self.case().judge, "a\0b")

    def test_eight_threads_say_the_same(self):
        case = self.case(statements=octets(CASE / "statements"))
        wanted = case.explain("www.bind.test")
        with ThreadPoolExecutor(THREADS) as pool:
            for found in pool.map(case.explain, ["www.bind.test"] * 200):
                self.assertEqual(found, wanted)

    def test_eight_threads_share_a_verifier_that_is_slow(self):
        asked, statements = [], octets(CASE / "statements")

        def says(*entry):
            asked.append(entry)
            time.sleep(0.02)
            return self.module.verify(*entry)

        wanted = self.case(statements=statements).judge("www.bind.test")
        case = self.case(verifier=says)
        with ThreadPoolExecutor(THREADS) as pool:
            for found in pool.map(case.judge, ["www.bind.test"] * THREADS):
                self.assertEqual(found, wanted)
        self.assertEqual(len(asked), len(set(asked)))
        self.assertEqual(len(asked), len(self.case().todo()))

    def test_a_case_is_pickled_with_what_its_verifier_said(self):
        case = self.case(verifier=self.module.verify)
        for each in (case, pickle.loads(pickle.dumps(case))):
            self.assertEqual(each.judge("www.bind.test").verdict, "SecureAnswer")
        with mock.patch.object(case, "verifier", None):
            self.assertEqual(pickle.loads(pickle.dumps(case)).judge("www.bind.test").verdict, "SecureAnswer")

    def test_the_docstrings_say_what_is_so(self):
        for found in pkgutil.iter_modules(self.module.__path__, "dnssec_check."):
            told = doctest.testmod(importlib.import_module(found.name))
            self.assertEqual(told.failed, 0, found.name)
        self.assertEqual(doctest.testmod(self.module).failed, 0)


if __name__ == "__main__":
    unittest.main()
