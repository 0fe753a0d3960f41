"""How the tests of timelines run tools/judge: by the program, or by one that stands in for it and knows the examples."""
import functools
import json

import cases
from judge.helper import JUDGE, Judging
from tool import PROGRAM, run_program

# Answers `timeline --json` as the example with this question and range does, lists nothing, and explains a moment by the
# verdict that such an example has at it, without any line.
DOUBLE = """#!/usr/bin/env python3
import hashlib, json, sys
told = json.load(open(INDEX))
command, words = sys.argv[1], dict(word[2:].partition("=")[::2] for word in sys.argv[2:])
capture = hashlib.sha256(open(words["capture"], "rb").read()).hexdigest()
if command == "timeline":
    asked = [capture, words["name"].lower(), int(words["type"]), int(words["from"]), int(words["to"])]
    status, output, errors = told.get(json.dumps(asked), [1, "", "fault 90\\n"])
    sys.stdout.write(output)
    sys.stderr.write(errors)
    sys.exit(status)
def verdict(name, kind, moment):
    for asked, (_, output, _) in told.items():
        if json.loads(asked)[:3] == [capture, name, kind] and output:
            for each in json.loads(output)["intervals"]:
                if each["from"] <= moment <= each["to"]:
                    return {key: each[key] for key in each if key not in ("from", "to", "by")}
if command == "explain":
    for line in open(words["questions"]):
        name, kind = line.split()
        asked = {"command": command, "name": name, "type": int(kind), "moment": int(words["moment"])}
        found = verdict(name, int(kind), int(words["moment"]))
        more = {"todo": [1]} if found["verdict"] == "Pending" else {}
        print(json.dumps({**asked, **found, **more, "why": []}))
"""


@functools.lru_cache(None)
def timelines():
    """The examples of timelines in JSON, but for kinds, and those that are refused."""
    return [each for each in cases.examples() if each.words[0] == "timeline" and "--kinds" not in each.words
            and (each.is_json or each.errors) and each.folder.name.startswith("timeline-")]


def option(example, name):
    return example.words[example.words.index(name) + 1]


def asked_of(example):
    """What the stand-in knows an example by."""
    import hashlib
    capture = hashlib.sha256(example.files["capture"].read_bytes()).hexdigest()
    return [capture, option(example, "--name"), *(int(option(example, each)) for each in ("--type", "--from", "--to"))]


class Timelines(Judging):
    """A room, the program, and runs of the tool for the range of an example."""

    def double(self):
        path, index = self.room / "dnssec_check", self.room / "index"
        answers = {json.dumps(asked_of(each)): [each.status, each.output.decode(), each.errors.decode()] for each in timelines()}
        index.write_text(json.dumps(answers))
        path.write_text(DOUBLE.replace("INDEX", repr(str(index))))
        path.chmod(0o755)
        return path

    def example(self, name, *words):
        """What is told of the example of this name: the status, the lines and the errors."""
        found, = (each for each in timelines() if each.folder.name == f"timeline-{name}")
        return self.told(found, *words)

    def told(self, found, *words):
        span = "--from", option(found, "--from"), "--to", option(found, "--to")
        question = f"{option(found, '--name')}/TYPE{option(found, '--type')}"
        return self.judge("--anchors", found.files["anchors"], *span, *words, found.files["capture"], question)


__all__ = ["JUDGE", "PROGRAM", "Timelines", "option", "run_program", "timelines"]
