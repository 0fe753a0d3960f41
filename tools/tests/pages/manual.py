"""What the manual page of the program says of the numbers of faults, and of the words of explanations."""
import re
from collections import namedtuple

from tool import TOOLS

PAGE = (TOOLS.parent / "docs" / "dnssec_check.1").read_text()
Number = namedtuple("Number", "status text")
# An entry of a list that shows a text, and what is said of it up to the next one.
ENTRY = re.compile(r"^\.It Ql (.*)\n((?:(?!\.(?:It|Sh) ).*\n)*)", re.MULTILINE)
PLACEHOLDER = re.compile(r"\b[A-Z][A-Z0-9]*\b")
WORD = re.compile(r"[A-Za-z][\w-]*")


def section(title):
    """What stands below a heading, with lines that go on joined."""
    return PAGE.split(f"\n.Sh {title}\n")[1].split("\n.Sh ")[0].replace("\\\n", "") + "\n"


def numbers():
    """What is said of each number, with the exit status that is told before."""
    told, status = {}, None
    for found in re.finditer(r"(?ms)with status (\d)|^\.It (\d+)\n(.*?)(?=^\.(?:It|El))", section("DIAGNOSTICS")):
        status = int(found[1] or status)
        if found[2]:
            told[int(found[2])] = Number(status, plain(found[3]))
    return told


def plain(text):
    """The text without macros and line ends."""
    text = re.sub(r"(?m)^\.(?:Ql|Nm|Fl|Cm|Ar) ?-?", "", text).replace("\\&", "")
    return " ".join(text.split())


def entries(title):
    """The texts that a section shows, each with what is said of it."""
    return ENTRY.findall(section(title))


def shown(text):
    """The words of texts that are shown, without what stands for others."""
    found = " ".join(re.findall(r"^\.(?:It )?Ql (.*)$", text, re.MULTILINE))
    return set(WORD.findall(PLACEHOLDER.sub("", found)))


def choices(title, word):
    """The words that an entry of the section names for what stands in its line."""
    return {choice for text, said in entries(title) if text.split()[0] == word for choice in shown(said)}


def of_lines():
    """What is said of the object of each line of an explanation."""
    return section("JSON").split(".It Cm explain\n")[1].split(".El\n")[0] + ".El\n"


def keys():
    """The members of the object of each line, by the line's word."""
    return {word: shown(said) for word, said in re.findall(r"(?ms)^\.It Cm (\w+)\n(.*?)(?=^\.(?:It|El))", of_lines())}


def verdicts():
    """The words of verdicts."""
    return set(re.findall(r"^\.It Cm (\w+)$", section("OUTPUT"), re.MULTILINE))
