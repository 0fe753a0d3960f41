"""Names as the program reads them in a line (RFC 1035 5.1), told from those that it refuses."""
import re
from typing import Optional

from ..capturing.messages import Labels

LABEL_MOST, NAME_MOST = 63, 255  # octets (RFC 1035 2.3.4)
TEXT_MOST = 4 * NAME_MOST  # each octet as a backslash and three digits
LABEL = re.compile(r"((?:[!-\-/-\[\]-~]|\\[!-/:-~]|\\(?:[01][0-9]{2}|2[0-4][0-9]|25[0-5]))+)\.")
ESCAPE = re.compile(r"\\([0-9]{3}|.)")


def labels_of(name: str) -> Optional[Labels]:
    """The labels in lower case, None where the program refuses the name."""
    if name == ".":
        return ()
    texts = LABEL.findall(name[:TEXT_MOST])
    if not texts or "".join(f"{text}." for text in texts) != name:
        return None
    labels = tuple(map(octets_of, texts))
    is_fit = max(map(len, labels)) <= LABEL_MOST and sum(len(label) + 1 for label in labels) < NAME_MOST
    return labels if is_fit else None


def octets_of(label: str) -> bytes:
    """Of a label without its escapes, letters in lower case."""
    return ESCAPE.sub(lambda found: octet_of(found[1]), label).encode("latin-1").lower()


def octet_of(escaped: str) -> str:
    return chr(int(escaped)) if len(escaped) == 3 else escaped
