"""Tests of the words of explanations: the code, the schema, the manual page and the sentences of the tools have the
same."""
import json
import unittest

from dnssec_check_tools.explaining import holding, missing, reasons, sentences
from tool import TOOLS
from . import manual, sources

SCHEMA = json.loads((TOOLS.parent / "docs" / "schema.json").read_text())
FORMS = [form["properties"] for form in SCHEMA["definitions"]["line"]["oneOf"]]


def values(form, key):
    """The words that a member of a form can be."""
    member = form.get(key, {})
    return {word for word in [*member.get("enum", ()), member.get("const")] if isinstance(word, str)}


def schema(key, line=None):
    """The words that a member can be in the lines of this word, or in all."""
    forms = (form for form in FORMS if line in (None, form["line"]["const"]))
    return {word for form in forms for word in values(form, key)}


def errors():
    """The extended DNS error of each reason, with its word."""
    return {(form["word"]["const"], form["ede"]["const"]) for form in FORMS if "ede" in form}


def keys_of_lines():
    """The members of each line but its word, by it."""
    told = {}
    for form in FORMS:
        told.setdefault(form["line"]["const"], set()).update(set(form) - {"line"})
    return told


def all_of_the_schema():
    """The words of the lines, their members, and what these can be."""
    return {word for form in FORMS for key in form for word in (key, *values(form, key))}


def all_of_the_manual():
    """The words of the lines and of their objects, with those of verdicts that a line can hope for."""
    texts = [manual.section("EXPLANATIONS"), manual.section("REASONS"), manual.of_lines()]
    return {word for text in texts for word in manual.shown(text)} | hopes()


def hopes():
    return {word for word in manual.verdicts() if word.startswith("Secure")} | {"Insecure", "SecureAlias"}


class Code(unittest.TestCase):
    def test_the_manual_page_shows_the_words_of_the_code(self):
        self.assertEqual(all_of_the_manual(), sources.words_of_lines())

    def test_the_schema_has_no_word_that_the_code_lacks(self):
        self.assertEqual(all_of_the_schema() - sources.words_of_lines(), set())

    def test_the_schema_has_the_errors_of_the_code(self):
        self.assertEqual(errors(), sources.errors_of_reasons())


class Manual(unittest.TestCase):
    maxDiff = None

    def test_it_has_the_lines_of_the_schema(self):
        self.assertEqual({text.split()[0] for text, _ in manual.entries("EXPLANATIONS")}, schema("line"))

    def test_it_has_the_members_of_each_line(self):
        self.assertEqual(manual.keys(), keys_of_lines())

    def test_it_has_the_reasons_of_the_schema_with_their_errors(self):
        told = {tuple(text.split()[:2]) for text, _ in manual.entries("REASONS")}
        self.assertEqual(told, {(str(form["ede"]["const"]), form["word"]["const"]) for form in FORMS if "ede" in form})

    def test_it_has_what_follows(self):
        told = {text.split()[1] for text, _ in manual.entries("EXPLANATIONS") if text.startswith("follows ")}
        self.assertEqual(told, schema("word", "follows"))

    def test_it_has_the_choices_of_each_line(self):
        for line, *keys in (("proof", "form", "kind"), ("part", "role", "relation"), ("unusable", "why")):
            with self.subTest(line):
                words = {word for key in keys for word in schema(key, line)}
                self.assertEqual(manual.choices("EXPLANATIONS", line), words - {"nsec"})

    def test_it_has_the_verdicts_that_can_be_hoped_for(self):
        self.assertEqual(hopes(), schema("kind", "hope"))
        told = (form["properties"].get("verdict") for form in SCHEMA["oneOf"])
        self.assertEqual(manual.verdicts(), {verdict["const"] for verdict in told if verdict})


class Sentences(unittest.TestCase):
    def test_there_is_one_for_each_word_of_the_schema(self):
        told = {("line", None): sentences.LINES, ("word", "follows"): reasons.FOLLOWS,
                ("word", "reason"): reasons.OF_SIGNATURES | reasons.OF_VOUCHERS | reasons.OF_OTHERS,
                ("form", "proof"): holding.FORMS, ("role", None): missing.ROLES,
                ("relation", "part"): {**holding.RELATIONS, "apex": ""}, ("why", "unusable"): holding.UNUSABLE}
        for (key, line), table in told.items():
            with self.subTest(key=key, line=line):
                self.assertEqual(set(table), schema(key, line))


if __name__ == "__main__":
    unittest.main()
