"""What is wrong with a signature."""
from .explanation import Explanation, Line
from .said import Words
from .values import ago, ahead, algorithm_name, all_of, key_name, owned


def about(line: Line) -> str:
    return owned(line["owner"], line["type"])


def by(line: Line) -> str:
    """The signature by its key; the signer's name where it isn't the owner's."""
    of = "" if line["signer"] == line["owner"] else f" of {line['signer']}"
    return f"the signature by key {line['tag']}{of}"


def labels(_told: Explanation, line: Line) -> Words:
    return about(line), f"{by(line)} counts more labels than the name has"


def signer(_told: Explanation, line: Line) -> Words:
    return about(line), f"{by(line)} is by a zone that can't sign it"


def expanded(_told: Explanation, line: Line) -> Words:
    return about(line), f"{by(line)} is a wildcard's, and no such record comes from a wildcard"


def algorithm(_told: Explanation, line: Line) -> Words:
    return about(line), f"{by(line)} is of {algorithm_name(line['algorithm'])}, which isn't supported"


def not_yet(told: Explanation, line: Line) -> Words:
    return about(line), f"{by(line)} begins at {ahead(line['by'], told.now)}"


def expired(told: Explanation, line: Line) -> Words:
    return about(line), f"{by(line)} expired on {ago(line['by'], told.now)}"


def key_missing(told: Explanation, line: Line) -> Words:
    return about(line), f"{by(line)} needs {key_name(line['tag'], line['algorithm'])}; {beside(told, line)}"


def beside(told: Explanation, line: Line) -> str:
    """The keys that the signer has; one with the tag is of another algorithm."""
    others, tags = told.keys.algorithms(line["signer"], line["tag"]), told.keys.tags(line["signer"])
    if others:
        return f"the zone's is of {all_of(map(algorithm_name, others))}"
    return f"the zone has {all_of(map(str, tags))}" if tags else "the zone has no such key"


def not_zone_key(told: Explanation, line: Line) -> Words:
    lack = told.keys.lack(line["signer"], line)
    return about(line), f"{by(line)} is by a key that is no zone key" + (f": {lack}" if lack else "")


def bad(_told: Explanation, line: Line) -> Words:
    return about(line), f"{by(line)} is bad"


def unanswered(_told: Explanation, line: Line) -> Words:
    return about(line), f"{by(line)} could not be verified"


def key_untrusted(_told: Explanation, line: Line) -> Words:
    return about(line), f"{by(line)} is good, but no trusted DNSKEY RRset of {line['signer']} has the key"


def no_closer(_told: Explanation, line: Line) -> Words:
    return about(line), f"{by(line)} is a wildcard's, and nothing proves that there is no {line['name']}"
