"""A zone's audit: the files that have its transfer are read, and it's cut into captures."""
from typing import Iterator, List, Set

from ..asking.faults import Refusal, escaped
from ..capturing.entries import Message, Omission
from ..capturing.entries import Refusal as Unreadable
from ..capturing.messages import name_text
from ..capturing.sources import entries_of
from ..command import tell
from ..judging.spread import Task

from .chain import Chain, chain_of
from .contents import Contents
from .cutting import Cutter, Part
from .questions import Item, Questions
from .transfer import Transfer, transfer_of


def port(text: str) -> int:
    """A number of the command line that is a port's."""
    if text.isascii() and text.isdigit() and 0 < int(text) < 65536:
        return int(text)
    raise ValueError


class Audit:
    """What is asked of a zone, capture by capture."""

    def __init__(self, transfer: Transfer) -> None:
        self.transfer = transfer
        self.contents = Contents(transfer)
        self.chain: Chain = chain_of(self.contents)
        self.items: List[Item] = Questions(self.contents, self.chain).items()
        self.parts: List[Part] = list(Cutter(transfer).parts(self.items))
        self.zone = name_text(transfer.apex)

    def tasks(self) -> Iterator[Task]:
        for number, part in enumerate(self.parts):
            questions = [item.question for item in part.items]
            yield Task(number, self.labels[number], part.octets, None, questions)

    @property
    def labels(self) -> List[str]:
        """What each capture is called."""
        return [f"{self.zone} part {number}" for number in range(1, len(self.parts) + 1)]

    def lacking(self) -> List[str]:
        """What the transfer lacks by itself, which no question has to be asked for."""
        said = [] if self.transfer.is_whole else ["the transfer doesn't end with the zone's SOA record"]
        if not self.chain.owners:
            said.append(f"{self.chain.lacking}: nothing that it denies is asked")
        return said + self.chain.faults()


def audit_of(paths: List[str], ports: Set[int]) -> Audit:
    """The audit of the one transfer that is in the files, of any kind that dnssec_check-capture reads."""
    messages: List[bytes] = []
    for path in paths:
        try:
            found = entries_of(None, path, ports)
        except Unreadable as fault:
            raise Refusal(str(fault)) from fault
        for each in found:
            if isinstance(each, Message):
                messages.append(each.octets)
            elif isinstance(each, Omission):
                tell(f"dropped {escaped(str(each.place))}: {each.why}")
    return Audit(transfer_of(messages))
