"""What the library says to each command line of the examples is what has to come of the program: octet for octet from Python's
calls and from C, and as objects from a case."""
import json
import pathlib
import shutil
import subprocess
import tempfile
import unittest

from cases import examples
from . import LIBRARY, MADE, SHARED

FORMS = {"--all": 2, "--compact": 1, "--kinds": 1}
FILES = ("capture", "anchors", "statements", "answers", "keys", "macs", "questions")
FIELDS = ("name", "type", "moment", "verdict", "status", "rrset", "signature", "cut", "refused")


def asked():
    """The examples whose command line is one, and whose files open."""
    for example in examples():
        if example.status != 2 and all(path.is_file() for path in example.files.values()):
            yield example


def pairs_of(example):
    return dict(zip(example.words, example.words[1:]))


def form_of(example):
    """What a list or a timeline has."""
    return next((FORMS[word] for word in example.words if word in FORMS), 0)


def given_of(calls, example):
    """What an example gives."""
    octets = {option: path.read_bytes() for option, path in example.files.items()}
    questions, pairs = octets.pop("questions", None), pairs_of(example)
    if "keys" not in octets:
        octets.pop("macs", None)
    return calls.Given(moment=int(pairs.get("--moment", 0)), **octets), questions, pairs


def answer_of(calls, example, given, questions, pairs):
    command, form, written = example.words[0], form_of(example), int(example.is_json)
    if command == "show":
        return calls.show(given.capture)
    span = calls.Interval(int(pairs["--from"]), int(pairs["--to"])) if "--from" in pairs else None
    if command == "list":
        return calls.listed_range(given, span, form, written) if span else calls.listed(given, form, written)
    if questions is not None:
        return calls.judged_each(given, questions, written, command == "explain")
    asked = pairs["--name"].encode(errors="surrogateescape"), int(pairs["--type"])
    if command == "timeline":
        return calls.timeline(given, span, *asked, form, written)
    return calls.judged(given, *asked, written, command == "explain")


@unittest.skipUnless(SHARED.exists(), "needs the library that `make library` builds")
class Examples(unittest.TestCase):
    def test_each_command_line_is_answered_as_by_the_program(self):
        from dnssec_check import Fault, calls

        count = 0
        for example in asked():
            count += 1
            with self.subTest(example.name):
                for room in (1, 1 << 16):
                    calls.ROOM_FIRST = room
                    try:
                        told = (*answer_of(calls, example, *given_of(calls, example)), b"")
                    except Fault as fault:
                        told = (7 if fault.word == "refused" else 1, b"", f"{fault}\n".encode())
                    self.assertEqual(told, (example.status, example.output, example.errors))
        self.assertGreater(count, 800)

    def test_each_question_is_answered_by_a_case(self):
        from dnssec_check import Case, Fault

        count = 0
        for example, asked_for in judged():
            count += 1
            octets = {option: path.read_bytes() for option, path in example.files.items() if option != "questions"}
            with self.subTest(example.name):
                try:
                    case = Case(octets.pop("capture"), octets.pop("anchors"), at=int(pairs_of(example)["--moment"]), **octets)
                    told = self.verdicts(case, example, asked_for)
                    self.assertEqual(example.errors, b"")
                except Fault as fault:
                    self.assertEqual((f"{fault}\n".encode(), b""), (example.errors, example.output))
                    continue
                lines = example.output.splitlines()
                self.assertEqual(len(told), len(lines))
                for found, said in zip(told, map(json.loads, lines)):
                    self.assertEqual((found.is_secure, found.why is None), (said["status"] == 0, "why" not in said))
                    self.assertEqual(object_of(found), {name: value for name, value in said.items() if name != "command" and value != []})
        self.assertGreater(count, 200)

    def verdicts(self, case, example, asked_for):
        """All verdicts; one question is asked alone, and as many."""
        why = example.words[0] == "explain"
        if example.asks_many:
            return case.judge_all(asked_for, explain=why)
        found = (case.explain if why else case.judge)(*asked_for[0])
        self.assertEqual(case.judge_all(asked_for, explain=why), [found])
        return [found]

    @unittest.skipUnless(shutil.which("cc"), "needs cc")
    def test_each_command_line_is_answered_in_c(self):
        count = 0
        with tempfile.TemporaryDirectory() as room:
            program, source = pathlib.Path(room) / "asked", pathlib.Path(__file__).with_name("asked.c")
            words = ["cc", "-Wall", "-Wextra", "-Werror", f"-I{LIBRARY}", source, MADE / "libdnssec_check.a", "-o", program]
            subprocess.run(words, check=True)
            for example in asked():
                count += 1
                with self.subTest(example.name):
                    done = subprocess.run([program, *words_of(example)], capture_output=True, check=False)
                    told = (done.returncode, done.stdout, done.stderr)
                    self.assertEqual(told, (example.status, example.output, example.errors))
        self.assertGreater(count, 800)


def judged():
    """The examples that judge names which end with their dot, in JSON, and what they ask for."""
    for example in asked():
        if example.words[0] in ("check", "explain") and example.is_json:
            pairs = pairs_of(example)
            if not example.asks_many:
                if pairs["--name"].endswith("."):
                    yield example, [(pairs["--name"], int(pairs["--type"]))]
            elif example.output:
                lines = example.files["questions"].read_text().splitlines()
                yield example, [(line.split(" ")[0], int(line.split(" ")[1])) for line in lines if line and not line.startswith("#")]


def object_of(found):
    """The object of JSON that says a verdict, without what is empty."""
    told = {name: getattr(found, name) for name in FIELDS}
    told.update({name: [each._asdict() for each in getattr(found, name)] for name in ("aliases", "records")})
    told["todo"] = [{name: each.hex() if isinstance(each, bytes) else each for name, each in entry._asdict().items()} for entry in found.todo]
    told["why"] = list(found.why or ())
    return {name: value for name, value in told.items() if value is not None and value != []}


def words_of(example):
    pairs = pairs_of(example)
    moments = [pairs.get(each, "-") for each in ("--moment", "--from", "--to")]
    asks = [*moments, pairs.get("--name", ""), pairs.get("--type", "0")]
    return [example.words[0], str(form_of(example)), str(int(example.is_json)), *asks, *(example.files.get(each, "-") for each in FILES)]


if __name__ == "__main__":
    unittest.main()
