"""A sentence: its mark, what it is about, what it says, and the extended DNS error (RFC 8914), 0 where none fits."""
from typing import NamedTuple, Tuple

FAIL, HAS, THEN, HOLDS, WHY, ODD = "FAIL", "HAS", "THEN", "HOLDS", "WHY", "ODD"


Words = Tuple[str, str]  # what a sentence is about, and what it says


class Said(NamedTuple):
    mark: str
    about: str
    text: str
    ede: int = 0

    def __str__(self) -> str:
        error = f" [EDE {self.ede}]" if self.ede else ""
        return f"{self.mark} {self.about}: {self.text}{error}"
