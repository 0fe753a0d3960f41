"""Timelines from Python: intervals and edges as objects, a verifier that is asked once for all moments, and what is refused."""
import json
import unittest

from cases import examples
from tool import TOOLS
from . import SHARED

EXAMPLES = TOOLS.parent / "examples"
CASE = EXAMPLES / "bind-www-a"
FROM, TO = 1790000000, 1806000000
BEGIN, END = 1793491200, 1803859200
QUESTION = ("www.bind.test", "A")


def octets(path):
    return path.read_bytes()


def timelines():
    """The examples that ask for one and are answered, in JSON."""
    return [example for example in examples() if example.words[0] == "timeline" and example.is_json and not example.status]


def fields_of(interval):
    """What an object of JSON has of an interval."""
    told = {"from": interval.first, "to": interval.last, "status": interval.status}
    names = ("verdict", "refused", "rrset", "signature", "cut")
    told.update({name: getattr(interval, name) for name in names if getattr(interval, name) is not None})
    return told


def lists_of(interval):
    return [[each._asdict() for each in part] for part in (interval.aliases, interval.records, interval.by)]


@unittest.skipUnless(SHARED.exists(), "needs the library that `make library` builds")
class Timelines(unittest.TestCase):
    def setUp(self):
        import dnssec_check

        self.module = dnssec_check

    def case(self, **words):
        return self.module.Case(octets(CASE / "capture"), octets(EXAMPLES / "anchors"), **{"at": BEGIN, **words})

    def timeline(self, first=FROM, last=TO, kinds=False, **words):
        return self.case(**words).timeline(*QUESTION, first=first, last=last, kinds=kinds)

    def of_example(self, example):
        pairs = dict(zip(example.words, example.words[1:]))
        known = {name: octets(path) for name, path in example.files.items() if name in ("statements", "answers")}
        given = [octets(example.files[name]) for name in ("capture", "anchors")]
        asked = {"first": int(pairs["--from"]), "last": int(pairs["--to"]), "kinds": "--kinds" in example.words, **known}
        return self.module.timeline(*given, pairs["--name"], int(pairs["--type"]), **asked)

    def test_objects_say_what_the_examples_do(self):
        count = 0
        for example in timelines():
            with self.subTest(example.name):
                said, found = json.loads(example.output), self.of_example(example)
                whole = (found.name, found.type, found.first, found.last)
                self.assertEqual(whole, (said["name"], said["type"], said["from"], said["to"]))
                self.assertEqual([each._asdict() for each in found.edges], said["edges"])
                for interval, each in zip(found, said["intervals"]):
                    lists = [each.pop(name, []) for name in ("aliases", "records", "by")]
                    self.assertEqual((fields_of(interval), lists_of(interval)), (each, lists))
                self.assertEqual(len(found.intervals), len(said["intervals"]))
                count += 1
        self.assertGreater(count, 70)

    def test_what_a_later_version_says_besides_is_passed_over(self):
        from dnssec_check.timelines import timeline_of
        from dnssec_check.verdict import verdict_of

        def more(value):
            if isinstance(value, dict):
                return {**{name: more(each) for name, each in value.items()}, "later": 1}
            return [more(each) for each in value] if isinstance(value, list) else value

        kinds = set()
        for example in examples():
            if example.is_json and example.words[0] in ("check", "explain", "timeline") and not example.errors:
                read = timeline_of if example.words[0] == "timeline" else verdict_of
                for line in example.output.splitlines():
                    said = json.loads(line)
                    later = more({name: value for name, value in said.items() if name != "why"})
                    self.assertEqual(read(json.dumps({**said, **later}).encode()), read(line))
                    kinds.add(example.words[0])
        self.assertEqual(len(kinds), 3)

    def test_each_moment_has_the_verdict_that_it_has_alone(self):
        statements = octets(CASE / "statements")
        found = self.timeline(statements=statements)
        for moment in (FROM, BEGIN - 1, BEGIN, END, END + 1, TO):
            alone = self.case(at=moment, statements=statements).judge(*QUESTION)
            told = found.at(moment)
            self.assertEqual((told.verdict, told.status, told.rrset), (alone.verdict, alone.status, alone.rrset))
        for moment in (FROM - 1, TO + 1):
            self.assertRaises(LookupError, found.at, moment)

    def test_edges_stand_before_the_interval_that_they_begin(self):
        first, secure, last = found = self.timeline(statements=octets(CASE / "statements"))
        told = [[(edge.edge, edge.moment, edge.owner, edge.type) for edge in found.before(each)] for each in found]
        signed = [("bind.test.", 48), ("www.bind.test.", 1)]
        self.assertEqual(told, [[], [("begins", BEGIN, *each) for each in signed], [("ends", END, *each) for each in signed]])
        self.assertEqual((first.is_secure, secure.is_secure, secure.seconds, last.by), (False, True, END - BEGIN + 1, ()))

    def test_a_verifier_is_asked_once_for_all_moments(self):
        asked = []

        def says(*entry):
            asked.append(entry)
            return self.module.verify(*entry)

        case = self.case(verifier=says)
        self.assertEqual(case.judge(*QUESTION).verdict, "SecureAnswer")
        for kinds in (False, True):
            found = case.timeline(*QUESTION, first=FROM, last=TO, kinds=kinds)
            self.assertEqual([each.verdict for each in found], ["Bogus", "SecureAnswer", "Bogus"])
        self.assertEqual(len(asked), len(set(asked)))
        self.assertEqual(case.todo(first=FROM, last=TO), [])

    def test_what_is_to_be_verified_is_that_of_all_moments(self):
        case = self.case(at=FROM)
        lines = octets(EXAMPLES / "timeline-bind-www-a" / "list.stdout").decode().splitlines()
        entries = case.todo(first=FROM, last=TO)
        told = [f"todo {each.algorithm} {each.key.hex()} {each.data.hex()} {each.signature.hex()}" for each in entries]
        self.assertEqual(told, lines)
        self.assertLess(len(case.todo()), len(lines))
        for words in ({"first": FROM}, {"last": TO}):
            self.assertRaises(self.module.Misused, case.todo, **words)

    def test_statements_without_a_last_newline_go_with_a_verifier(self):
        found = self.timeline(statements="# none", verifier=self.module.verify)
        self.assertEqual([each.verdict for each in found], ["Bogus", "SecureAnswer", "Bogus"])

    def test_what_is_refused_is_raised_by_number(self):
        for first, last in ((TO, FROM), (0, 1 << 32), (0, (1 << 48) - 1)):
            for ask in (lambda: self.timeline(first, last), lambda: self.case().todo(first=first, last=last)):
                with self.assertRaises(self.module.Refused) as told:
                    ask()
                self.assertEqual((told.exception.number, told.exception.line), (821, None))
        with self.assertRaises(self.module.Refused) as told:
            self.timeline(answers=octets(EXAMPLES / "answers-bind-www-a" / "answers"))
        self.assertEqual(told.exception.number, 806)

    def test_what_names_nothing_is_no_value(self):
        for first, last in ((-1, TO), (FROM, 1 << 48), (1 << 64, TO)):
            self.assertRaises(ValueError, self.timeline, first, last)
            self.assertRaises(ValueError, self.case().todo, first=first, last=last)
        self.assertRaises(TypeError, self.timeline, float(FROM), TO)
        for keys in (b"", b"a. hmac-sha256 AAAA\n"):
            self.assertRaises(ValueError, self.timeline, keys=keys)
        self.assertRaises(ValueError, self.case().timeline, "a\0b", first=FROM, last=TO)


if __name__ == "__main__":
    unittest.main()
