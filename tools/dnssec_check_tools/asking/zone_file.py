"""The DS and DNSKEY records of a zone file (RFC 1035 5.1), by the tokenizer of dnspython."""
import re
import struct
from typing import Any, Iterator, List, NamedTuple, Optional

from .faults import lacking

TTL = re.compile(r"[0-9]+|([0-9]+[smhdw])+", re.ASCII | re.IGNORECASE)
BASE64 = re.compile(r"[A-Za-z0-9+/]*={0,2}")
CLASS = re.compile(r"IN|CLASS1", re.IGNORECASE)
DS, DNSKEY = 43, 48
# What the library raises besides its own of what it can't read; struct.error of an octet `\\DDD` above 255.
FAULTS = (ValueError, IndexError, NotImplementedError, struct.error)
KINDS = {"DS": DS, "TYPE43": DS, "DNSKEY": DNSKEY, "TYPE48": DNSKEY}


class Entry(NamedTuple):
    """A record with its owner's name and the number of the line on which it begins."""

    line: int
    owner: Any
    kind: int
    record: Any


class WrongEntry(Exception):
    """What begins on this line is neither such a record nor a directive that is read."""

    def __init__(self, line: int, text: str) -> None:
        super().__init__(text)
        self.line = line


def library() -> Any:
    try:
        import dns.exception
        import dns.name
        import dns.rdata
        import dns.tokenizer
    except ImportError as fault:
        raise lacking("dnspython", "a zone file of anchors", fault) from fault
    return dns


class ZoneFile:
    """A zone file of which each entry is taken in turn."""

    def __init__(self, text: str) -> None:
        self.dns = library()
        self.tokens = self.dns.tokenizer.Tokenizer(text)
        self.origin = self.owner = self.dns.name.root

    def entries(self) -> Iterator[Entry]:
        """The records."""
        while True:
            line = self.tokens.where()[1]
            try:
                first = self.tokens.get(want_leading=True)
                if first.is_eof():
                    return
                found = None if first.is_eol() else self.entry(line, first)
            except (self.dns.exception.DNSException, *FAULTS) as fault:
                raise WrongEntry(line, str(fault)) from fault
            if found:
                yield found

    def entry(self, line: int, first: Any) -> Optional[Entry]:
        """What begins with the token; None where it's no record."""
        if not first.is_whitespace():
            if first.value.startswith("$"):
                self.directive(first.value)
                return None
            self.owner = self.tokens.as_name(first, self.origin)
        elif self.is_over():
            return None
        kind, words = self.kind(), self.words()
        if not "".join(words).isascii():
            raise ValueError("a field with a character that isn't ASCII")  # of which the library takes digits
        if kind == DNSKEY and words[:1] != ["\\#"] and not BASE64.fullmatch("".join(words[3:])):
            raise ValueError("a key that isn't base64")  # of which the library passes over foreign characters
        record = self.dns.rdata.from_text("IN", kind, " ".join(words), self.origin, False)
        if kind == DNSKEY and not record.key:
            raise ValueError("a key without octets")
        return Entry(line, self.owner, kind, record)

    def words(self) -> List[str]:
        """What is left of the entry."""
        words = []
        while not (token := self.tokens.get()).is_eol_or_eof():
            if not token.is_identifier():
                raise ValueError(f"{token.value!r} in quotes")
            words.append(token.value)
        return words

    def is_over(self) -> bool:
        """Whether nothing is behind the blanks of a line."""
        token = self.tokens.get()
        self.tokens.unget(token)
        return token.is_eol_or_eof()

    def directive(self, word: str) -> None:
        if word.upper() == "$ORIGIN":
            self.origin = self.tokens.get_name(self.origin)
        elif word.upper() == "$TTL":
            self.tokens.get_ttl()
        else:
            raise ValueError(f"{word} isn't read, only $ORIGIN and $TTL are")
        self.tokens.get_eol()

    def kind(self) -> int:
        """The type, behind a TTL and a class, which come in either order or lack (RFC 1035 5.1)."""
        fronts, word = [TTL, CLASS], self.tokens.get_identifier()
        while fit := next((each for each in fronts if each.fullmatch(word)), None):
            fronts.remove(fit)
            word = self.tokens.get_identifier()
        if word.upper() not in KINDS:
            raise ValueError(f"{word} is none of DS and DNSKEY, which anchors of class IN are")
        return KINDS[word.upper()]
