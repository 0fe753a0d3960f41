"""What a JSON object of `explain` says besides its lines, and what was asked for."""
import functools
from typing import Any, Dict, List, Optional, Sequence, Tuple

from .copies import Copies
from .keys import Keys
from .replies import Replies, Reply
from .values import DS
from .zone_keys import ZoneKeys

Line = Dict[str, Any]
Asked = Tuple[str, int]  # a name and a type


class Explanation:
    """An object of `explain --json`, with the replies of the capture, None where these aren't known, and its keys."""

    def __init__(self, value: Line, replies: Optional[Sequence[Reply]] = None, keys: Optional[Keys] = None) -> None:
        self.value, self.now, self.lines = value, value["moment"], value["why"]
        self.replies = None if replies is None else Replies(replies)
        self.known_keys = keys or {}

    def of(self, line: str) -> List[Line]:
        """The lines that begin with this word."""
        return [each for each in self.lines if each["line"] == line]

    @functools.cached_property
    def keys(self) -> ZoneKeys:
        return ZoneKeys(self.lines, self.known_keys)

    @functools.cached_property
    def copies(self) -> Copies:
        return Copies(self.lines)

    def named(self, line: Line, about: str) -> str:
        """What a sentence of the line is about; of copies that don't stand alike, with their messages."""
        return about + self.copies.of(line, about)

    def reply(self, name: str, kind: int) -> Optional[Reply]:
        """How a message answers what was asked; None where nobody asked, or nothing is known of it."""
        return self.replies.to(name, kind) if self.replies else None

    def is_unasked(self, name: str, kind: int) -> bool:
        """Whether it's known that no message answers this."""
        return self.replies is not None and self.replies.to(name, kind) is None

    @functools.cached_property
    def denied(self) -> Optional[Asked]:
        """What a denial is needed of where something fails: a delegation's DS, or what is asked for."""
        for line in self.of("reason"):
            if line["word"] == "ds-unproved":
                return line["name"], DS
            if line["word"] in ("answer-missing", "denial-unproved"):
                return line["name"], line["type"]
        return None
