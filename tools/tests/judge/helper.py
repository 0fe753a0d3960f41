"""How the tests run tools/judge: by the Python that runs them, and by the program or one that stands in for it."""
import functools
import importlib.util
import json
import pathlib
import shlex
import sys
import tempfile
import unittest

import cases
from tool import PROGRAM, TOOLS, load, run_program

EXAMPLES = TOOLS.parent / "examples"
JUDGE = (sys.executable, TOOLS / "judge")
NOON = "1795348800"
ANCHORS = EXAMPLES / "anchors"

SIZE_OF_CAPTURE = """for word; do
case $word in --capture=*) size=$(stat -L -c %s "${word#--capture=}");; esac
done"""

# Answers as the examples do, and has nothing to verify. Whatever no example asks is Bogus, and bind.test. says nothing of
# it.
BOGUS = {"command": "explain", "name": ".", "type": 0, "moment": 0, "verdict": "Bogus", "status": 5, "aliases": [], "why": []}
MISSING = {"line": "reason", "word": "answer-missing", "ede": 12}
DOUBLE = """#!/usr/bin/env python3
import hashlib, json, sys
told = json.load(open(INDEX))
def value(word):
    name, _, text = word.partition("=")
    if name in ("--capture", "--anchors", "--keys", "--macs"):
        text = hashlib.sha256(open(text, "rb").read()).hexdigest()
    return [name, text]
def answer(given):
    words = sorted(value(word) for word in given if word != "--compact" and not word.startswith("--answers"))
    bogus = dict(BOGUS, **{name[2:]: text for name, text in words if name == "--name"},
                 **{name[2:]: int(text) for name, text in words if name in ("--type", "--moment")})
    bogus["why"] = [dict(MISSING, name=bogus["name"], type=bogus["type"], zone="bind.test.")]
    unknown = [0, "", ""] if sys.argv[1] == "list" else [5, json.dumps(bogus) + "\\n", ""]
    status, output, errors = told.get(json.dumps([sys.argv[1], words]), unknown)
    output = output if "--compact" not in given else ""
    if asked and errors.startswith("refused 70"):
        output, errors = json.dumps(dict(bogus, refused=int(errors[8:11]), status=7)) + "\\n", ""
    return status, output, errors
def questions(path):
    for line in open(path):
        name, kind = line.split()
        yield ["--name=" + name, "--type=" + kind]
given = [word for word in sys.argv[2:] if not word.startswith("--questions=")]
asked = [word.partition("=")[2] for word in sys.argv[2:] if word not in given]
answers = [answer([*given, *each]) for each in (questions(asked[0]) if asked else [[]])]
for _, output, errors in answers:
    sys.stdout.write(output)
    sys.stderr.write(errors)
sys.exit(max(status for status, _, _ in answers))
"""


def needs(name, package):
    return unittest.skipUnless(importlib.util.find_spec(name), f"needs the Python package {package}")


needs_dns = needs("dns", "dnspython")


class Example:
    """An example: its command line with the paths of its files, and what has to come."""

    def __init__(self, example):
        self.name, self.is_json = example.name, example.is_json
        words = [word for word in example.words if word != "--json"]
        self.kind, self.options = words[0], dict(zip((word[2:] for word in words[1::2]), words[2::2])) | example.files
        self.is_plain = len(words) % 2 == 1  # each option has a value
        self.status, self.output, self.errors = example.status, example.output.decode(), example.errors.decode()


@functools.lru_cache(None)
def examples(end):
    """Those with names of this end, but for the cases that are there for a refusal or a failure."""
    return [Example(each) for each in cases.examples()
            if each.name.endswith(f"/{end}") and not each.folder.name.startswith(("refuses-", "fails-"))
            and not each.asks_many]


def digest_of(value):
    import hashlib
    return hashlib.sha256(value.read_bytes()).hexdigest() if isinstance(value, pathlib.Path) else value


def explained(example):
    """What `explain --json` says where `check` says what the example has: of what fails, not why."""
    if not example.output:
        return example.output
    words = ["explain", "--moment", example.options["moment"]]
    return load("as-json").as_json(words, example.output)


def index():
    """What the double answers, by subcommand and options."""
    told = {}
    for example in [*examples("check"), *examples("list"), *examples("explain.json")]:
        words = sorted([f"--{name}", digest_of(value)] for name, value in example.options.items()
                       if name not in ("statements", "answers"))
        kind, output = example.kind, example.output
        if kind == "check":
            kind, output = "explain", explained(example)
        if kind == "explain":
            words = sorted([*words, ["--json", ""]])
        if example.is_plain:
            told[json.dumps([kind, words])] = [example.status, output, example.errors]
    return told


class Judging(unittest.TestCase):
    """A room, the program, and runs of the tool."""

    def setUp(self):
        room = tempfile.TemporaryDirectory()
        self.addCleanup(room.cleanup)
        self.room = pathlib.Path(room.name)
        self.program = self.whole = PROGRAM if PROGRAM.exists() else self.double()

    def double(self):
        path = self.room / "bin" / "dnssec_check"
        path.parent.mkdir()
        (self.room / "bin" / "index").write_text(json.dumps(index()))
        values = {"INDEX": str(self.room / "bin" / "index"), "BOGUS": BOGUS, "MISSING": MISSING}
        path.write_text(functools.reduce(lambda text, name: text.replace(name, repr(values[name])), values, DOUBLE))
        path.chmod(0o755)
        return path

    def stand_in(self, script):
        """A program that runs the lines of a shell, to which `size` is how many octets the capture has, and then is the
        program."""
        path = self.room / "stand-in"
        path.write_text(f'#!/bin/sh\n{SIZE_OF_CAPTURE}\n{script}\nexec {shlex.quote(str(self.whole))} "$@"\n')
        path.chmod(0o755)
        return path

    def judge(self, *words, given=b""):
        """The status, the lines and the errors."""
        status, output, errors = run_program(*JUDGE, "--program", self.program, *words, given=given)
        return status, output.decode().splitlines(), errors

    def noon(self, *words, **given):
        return self.judge("--at", NOON, "--anchors", ANCHORS, *words, **given)


def capture_of(name):
    return EXAMPLES / name / "capture"


def verdicts(lines):
    """The lines but for those that say why."""
    return [line for line in lines if not line.startswith("  ")]
