"""Tests of `--json`: what the program writes on the examples says the same as its lines, by the schema."""
import functools
import json
import unittest

from tool import PROGRAM, TOOLS, load, run, run_program
from cases import EXAMPLES, examples

try:
    import jsonschema
except ImportError:
    jsonschema = None

SCHEMA = TOOLS.parent / "docs" / "schema.json"


@functools.lru_cache(None)
def validator():
    return jsonschema.Draft7Validator(json.loads(SCHEMA.read_text()))


def in_lines():
    """The examples of `list`, `check`, `explain` and `timeline` that print a text in lines."""
    return [each for each in examples()
            if each.output and each.words[0] in ("list", "check", "explain", "timeline") and not each.is_json]


def without_by(text):
    """An object of a timeline without what derives its intervals, which no line says."""
    value = json.loads(text)
    for interval in value["intervals"]:
        interval.pop("by", None)
    return json.dumps(value, separators=(",", ":")) + "\n"


def comparable(example, text):
    return without_by(text) if example.words[0] == "timeline" else text


class Json(unittest.TestCase):
    def setUp(self):
        self.as_json = load("as-json").as_json

    def assert_valid(self, line):
        """It is one line of ASCII without spaces, which the schema takes."""
        self.assertRegex(line, r"\A[!-~]+\n\Z")
        if jsonschema is not None:
            validator().validate(json.loads(line))

    def assert_all_valid(self, example, text):
        """So is each line of what is told of many questions, and all of what is told of one."""
        for line in text.splitlines(keepends=True) if example.asks_many else [text]:
            self.assert_valid(line)

    def test_examples_in_json_say_what_those_in_lines_say(self):
        there = {example.name: example for example in examples()}
        in_json = [example for example in there.values() if example.is_json]
        self.assertGreaterEqual(len(in_json), 48)
        for example in in_json:
            with self.subTest(example.name):
                lines, text = there[example.name.removesuffix(".json")], example.output.decode()
                self.assertEqual((example.status, example.words), (lines.status, (*lines.words, "--json")))
                self.assertEqual(comparable(example, text), self.as_json(lines.words, lines.output.decode()))
                self.assert_all_valid(example, text)

    def test_what_ends_and_begins_derives_the_intervals_beside_it(self):
        timelines = [example for example in examples() if example.name.endswith("/timeline.json")]
        self.assertGreater(len(timelines), 40)
        for example in timelines:
            with self.subTest(example.name):
                value = json.loads(example.output)
                by = {each[side]: [(one["rrset"], one["signature"]) for one in each["by"]]
                      for each in value["intervals"] for side in ("from", "to")}
                self.assertTrue(all(sorted(set(each)) == each for each in by.values()))
                for edge in value["edges"]:
                    self.assertIn((edge["rrset"], edge["signature"]), by[edge["moment"]])

    def test_the_tool_says_one_example(self):
        wanted, = [example.output for example in examples() if example.name == "bind-www-a/explain.json"]
        self.assertEqual(run("as-json", "bind-www-a/explain"), (0, wanted, ""))

    def test_the_tool_says_none_that_has_no_json(self):
        for name in ("bind-www-a", "bind-www-a/show", "bind-www-a/explain.json", "bind-loop-a/check"):
            status, output, errors = run("as-json", name)
            self.assertEqual((status, output), (2, b""), name)
            self.assertIn(f"{name} is no example that prints lines", errors)
        for name in ("nobody", "bind-www-a/"):
            status, output, errors = run("as-json", name)
            self.assertEqual((status, output), (2, b""), name)
            self.assertIn(f"there is no case {name}, ", errors)

    def test_octets_and_names(self):
        words = ["list", "--moment", "7"]
        self.assertEqual(self.as_json(words, ""), '{"command":"list","moment":7,"todo":[]}\n')
        self.assertEqual(self.as_json(words, "todo 8 - 00 -\n"), '{"command":"list","moment":7,"todo":['
                         '{"algorithm":8,"key":"","data":"00","signature":""}]}\n')
        self.assertEqual(self.as_json(words + ["--all"], "data 1 2 -\ndata 2 1 0a\n"), '{"command":"list","moment":7,'
                         '"data":[{"rrset":1,"signature":2,"data":null},{"rrset":2,"signature":1,"data":"0a"}]}\n')
        self.assertEqual(self.as_json(["check", "--moment", "7"], 'Bogus a\\."b\\\\\\032. 1\n'),
                         '{"command":"check","name":"a\\\\.\\"b\\\\\\\\\\\\032.","type":1,"moment":7,'
                         '"verdict":"Bogus","status":5,"aliases":[]}\n')

    def test_an_explanation_has_an_object_for_each_line(self):
        words = ["explain", "--moment", "7"]
        self.assertEqual(self.as_json(words, "SecureAnswer a. 1\nrrset 2 signature 1\n"
                                      "trusted a. rrset 1 signature 3 key 5 8 ds 4 2 digest 2 todo 6\n"
                                      "rrset 1 message 2 section 3 a. 48\n"),
                         '{"command":"explain","name":"a.","type":1,"moment":7,"verdict":"SecureAnswer","status":0,'
                         '"aliases":[],"rrset":2,"signature":1,"why":[{"line":"trusted","zone":"a.","rrset":1,'
                         '"signature":3,"tag":5,"algorithm":8,"ds_rrset":4,"ds_record":2,"digest_type":2,"todo":6},'
                         '{"line":"rrset","rrset":1,"message":2,"section":3,"owner":"a.","type":48}]}\n')

    def test_what_fails(self):
        """Lines of a signature, a DS record, a trust anchor, a denial and a key."""
        lines = """Bogus www.b. 1
reason 7 expired b. 48 rrset 5 signature 1 key 53641 15 zone b. from 1788220800 to 1790812800 by 4536000
reason 9 key-missing b. rrset 2 record 1 wants 43646 13 digest 2
reason 9 key-missing b. anchor 1 wants 43646 13
reason 10 not-self-signed b. rrset 3 key 42592 13
reason 12 cover-missing nsec3 b. iterations 5 salt - role next-closer name www.b.
reason 9 not-vouched b. rrset 3
reason 12 denial-unproved www.b. 1 zone b.
reason 12 ds-unproved www.b. zone b.
follows untrusted www.b. 1 rrset 4 signature 1 key 45316 13 zone b.
key b. rrset 3 record 2 tag 29000 algorithm 13 flags 257 signature 1 ds 2 1
""".splitlines()
        signature = '"signature":1,"tag":%d,"algorithm":%d,"signer":"b."'
        wanted = [
            '{"line":"reason","word":"expired","ede":7,"owner":"b.","type":48,"rrset":5,' + signature % (53641, 15)
            + ',"inception":1788220800,"expiration":1790812800,"by":4536000}',
            '{"line":"reason","word":"key-missing","ede":9,"zone":"b.","rrset":2,"record":1,"tag":43646,"algorithm":13,'
            '"digest_type":2}',
            '{"line":"reason","word":"key-missing","ede":9,"zone":"b.","anchor":1,"tag":43646,"algorithm":13}',
            '{"line":"reason","word":"not-self-signed","ede":10,"zone":"b.","rrset":3,"tag":42592,"algorithm":13}',
            '{"line":"reason","word":"cover-missing","ede":12,"kind":"nsec3","zone":"b.","iterations":5,"salt":"-",'
            '"role":"next-closer","name":"www.b."}',
            '{"line":"reason","word":"not-vouched","ede":9,"zone":"b.","rrset":3}',
            '{"line":"reason","word":"denial-unproved","ede":12,"name":"www.b.","type":1,"zone":"b."}',
            '{"line":"reason","word":"ds-unproved","ede":12,"name":"www.b.","zone":"b."}',
            '{"line":"follows","word":"untrusted","owner":"www.b.","type":1,"rrset":4,' + signature % (45316, 13) + '}',
            '{"line":"key","zone":"b.","rrset":3,"record":2,"tag":29000,"algorithm":13,"flags":257,"signature":1,'
            '"ds_rrset":2,"ds_record":1}']
        text = self.as_json(["explain", "--moment", "7"], "\n".join(lines) + "\n")
        self.assertEqual(text, '{"command":"explain","name":"www.b.","type":1,"moment":7,"verdict":"Bogus","status":5,'
                               f'"aliases":[],"why":[{",".join(wanted)}]}}\n')
        self.assert_valid(text)

    @unittest.skipIf(jsonschema is None, "needs python3-jsonschema")
    def test_the_schema_is_closed(self):
        line = '{"command":"list","moment":7,"todo":[%s]}\n'
        entry = '{"algorithm":8,"key":"","data":"00","signature":""%s}'
        self.assert_valid(line % entry % "")
        for bad in (line % entry % ',"more":1', line % '{"algorithm":8,"key":"","data":"00"}',
                    '{"command":"list","moment":7,"todo":null}\n'):
            with self.subTest(bad), self.assertRaises(jsonschema.ValidationError):
                self.assert_valid(bad)

    @unittest.skipUnless(PROGRAM.exists(), "needs the built program")
    def test_program_says_in_json_what_it_says_in_lines(self):
        told = in_lines()
        self.assertGreater(len(told), 100)
        for example in told:
            with self.subTest(example.name):
                status, output, errors = run_program(PROGRAM, *example.words, "--json", folder=example.folder)
                self.assertEqual((status, errors), (example.status, ""))
                wanted = self.as_json(example.words, example.output.decode())
                self.assertEqual(comparable(example, output.decode()), wanted)
                self.assert_all_valid(example, output.decode())

    @unittest.skipUnless(PROGRAM.exists(), "needs the built program")
    def test_show_has_no_json(self):
        status, output, _ = run_program(PROGRAM, "show", "--capture", EXAMPLES / "www-a" / "capture", "--json")
        self.assertEqual((status, output), (2, b""))


if __name__ == "__main__":
    unittest.main()
