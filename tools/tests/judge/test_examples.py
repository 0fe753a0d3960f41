"""Tests of tools/judge against the examples: each question gets the verdict that the example has."""
import json

from .helper import Judging, examples, needs_dns

NUMBERS = {"NSEC": "47", "NSEC3": "50"}


def lines_of(row):
    """The program's lines below a verdict, or what it says on the standard error."""
    aliases = [f"alias {each['name']} rrset {each['rrset']} signature {each['signature']}"
               for each in row["evidence"].get("aliases", [])]
    return aliases + lines_behind(row)


def lines_behind(row):
    """Those behind the aliases."""
    evidence = row["evidence"]
    if row["verdict"] in ("refused", "fault"):
        places = [f" {name} {evidence[name]}" for name in ("message", "record", "line") if name in evidence]
        return [f"{row['verdict']} {evidence['number']}" + "".join(places)]
    if "rrset" in evidence:
        return [f"rrset {evidence['rrset']} signature {evidence['signature']}"]
    if "cut" in evidence:
        return [f"cut {evidence['cut']}"]
    return [f"record {owner} {NUMBERS[kind]}" for owner, kind in evidence.get("records", [])]


@needs_dns
class Examples(Judging):
    def test_each_has_its_verdict(self):
        asked = [each for each in examples("check") if "statements" in each.options]
        self.assertGreater(len(asked), 40)
        for example in asked:
            with self.subTest(example.name):
                options = {name: value for name, value in example.options.items() if name in ("anchors", "keys", "macs")}
                words = [word for name, value in options.items() for word in (f"--{name}", value)]
                question = f"{example.options['name']}/{example.options['type']}"
                status, lines, errors = self.judge("--jsonl", "--at", example.options["moment"], *words,
                                                   example.options["capture"], "--", question)
                row, = map(json.loads, lines)
                wanted = (example.output or example.errors).splitlines()
                if example.output:
                    self.assertEqual(row["verdict"], wanted.pop(0).split(" ")[0])
                self.assertEqual((status, row["status"], lines_of(row)), (example.status, example.status, wanted))
                self.assertEqual(errors, "")

    def test_what_is_pending_without_statements_is_verified(self):
        example, = (each for each in examples("check") if each.name == "loopback-pending/check")
        if self.program.name != "dnssec_check" or self.room in self.program.parents:
            self.skipTest("needs the built program")
        status, lines, _ = self.judge("--anchors", example.options["anchors"], "--at", example.options["moment"],
                                      example.options["capture"], example.options["name"] + "/TXT")
        self.assertEqual(status, 0)
        self.assertRegex(lines[0], r"^x\.w\.sub\.example\.test\. TXT: SecureAnswer, until \S+ \(\d+ \w+\)$")
