"""What the code says of the numbers of faults, and of the words of explanations.

Numbers are read from the definitions, which each `code` is proved to be. Words are read where the lines are written."""
import re
from collections import namedtuple

from .guarantees import CRATES

Fault = namedtuple("Fault", "status where")
EQUATION = re.compile(r"^(\w+) (\S.*) = ([\w ]+)$", re.MULTILINE)
# What each refusal is of, as the tools say it; a question is refused for its type or for what aliases lead to.
WHERE = {"Name": {"name"}, "Question": {"type", "-"}, "KeyLine": {"keys"}, "MacSyntax": {"macs"}, "MacCount": {"macs"},
         "ZeroLength": {"capture"}, "TornFrame": {"capture"}, "Message": {"capture"}, "Tsig": {"capture"},
         "Evidence": {"capture"}, "AnchorLine": {"anchors"}, "StatementLine": {"statements"},
         "AnswerLine": {"answers"}, "QuestionLine": {"questions"}, "BadRange": {"-"}}
# Where the words of an explanation's lines are written, and the keys of their objects.
LINES = ("dnsv_lines/src/**/*.rt",)


def equations():
    """The equations of the definitions, by the name that they define: a pattern, and what it is."""
    found = {}
    for file in sorted(CRATES.glob("*/specs/**/*.antt")):
        for name, pattern, value in EQUATION.findall(file.read_text()):
            found.setdefault(name, []).append((pattern, value))
    return found


def numbers_by(found, value):
    """The numbers that a value of an equation can be. Want of memory is a fault of its own, and no refusal's."""
    if value.isdigit():
        return {int(value)}
    cases = [case for case in found[value.split()[0]] if "OutOfMemory" not in case[0]]
    return {number for _, below in cases for number in numbers_by(found, below)}


def numbers():
    """The exit status of each number of the program, and what it can be of."""
    found = equations()
    statuses = {pattern: int(status) for pattern, status in found["fault_code"]}
    told = {}
    for pattern, value in found["fault_number"]:
        status = statuses.get(pattern, statuses["_"])
        if value.isdigit():
            told[int(value)] = Fault(status, {"file"} if "file" in pattern else {"-"})
    refused = statuses["(fault.Refused why place)"]
    for pattern, value in found["refusal_number"]:
        where = WHERE[re.search(r"refusal\.(\w+)", pattern)[1]]
        told |= {number: Fault(refused, where) for number in numbers_by(found, value)}
    return told


def code_of_lines():
    """The code that writes the lines, without its comments, and without characters that are quotation marks."""
    files = [file for pattern in LINES for file in sorted(CRATES.glob(pattern))]
    return "\n".join(re.sub(r"//.*|'\\?\"'", "", file.read_text()) for file in files)


def texts_of_lines():
    """The strings of the code that writes the lines of explanations, and their objects in JSON."""
    return re.findall(r'"((?:\\.|[^"\\])*)"', code_of_lines())


def words_of_lines():
    """The words that stand in these strings."""
    texts = (re.sub(r"\{[^{}]*\}", " ", text) for text in texts_of_lines())
    return {word for text in texts for word in re.findall(r"[A-Za-z][\w-]*", text)}


def errors_of_reasons():
    """The extended DNS error of each reason, with its word."""
    return {(word, int(number)) for word, number in re.findall(r'ReasonWord::of\(\s*"([\w-]+)",\s*(\d+)', code_of_lines())}
