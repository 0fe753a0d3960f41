"""Captures by question: the answers to each and to what its aliases lead to, with what leads to their names."""
import heapq
import os
from collections import defaultdict
from urllib.parse import quote
from typing import Any, DefaultDict, Dict, FrozenSet, Iterable, Iterator, List, NamedTuple, Sequence, Set, Tuple

from ..command import shown, tell, write

from .entries import Refusal
from .frames import framed
from .messages import (
    AA,
    ADDITIONAL,
    ANSWER,
    AUTHORITY,
    TYPE_CNAME,
    TYPE_DNSKEY,
    TYPE_DS,
    TYPE_NS,
    TYPE_NSEC,
    TYPE_NSEC3,
    Labels,
    Question,
    flags_of,
    lower,
    name_at,
    name_text,
    names_above,
    question_of,
    records_of,
)
from .octets import Incomplete

MESSAGES_MOST, RECORDS_MOST = 64, 4096  # more the program refuses (403)
NAME_SIZE_MOST = 150
CLASS_IN = 1
OF_CHAIN, OF_DENIAL = (TYPE_DNSKEY, TYPE_DS), (TYPE_NSEC, TYPE_NSEC3)
NO_QUESTION = Question((), 0, 0)

Topic = Any  # a question, or the zones that it leads down to
Group = Tuple[Any, Topic]


class Part(NamedTuple):
    octets: bytes
    question: Question
    names: Set[Labels]
    targets: List[Labels]
    leads_to: FrozenSet[Labels]
    topic: Topic
    records: int


def uppermost(names: Set[Labels]) -> FrozenSet[Labels]:
    """Those of the names that are below no other."""
    return frozenset(name for name in names if names.isdisjoint(name[place:] for place in range(1, len(name) + 1)))


def part_of(octets: bytes) -> Part:
    """A message with the names that it is about, those that its aliases lead to, and the uppermost that it leads down
    to; what it leads to, or else its question, is its topic; and how many records it has."""
    question, records = question_of(octets) or NO_QUESTION, 0
    targets: List[Labels] = []
    owners: DefaultDict[Tuple[int, int], Set[Labels]] = defaultdict(set)
    try:
        for records, record in enumerate(records_of(octets), 1):
            owners[record.section, record.kind].add(lower(name_at(octets, record.name)))
            if record.kind == TYPE_CNAME:
                targets.append(lower(name_at(octets, record.front)))
    except Incomplete:
        pass
    names = {question.name}.union(*(found for (section, _), found in owners.items() if section != ADDITIONAL))
    zones: Set[Labels] = set().union(*(found for (_, kind), found in owners.items() if kind in OF_CHAIN))
    has_answer = any(section == ANSWER for section, _ in owners)
    is_referral = not flags_of(octets) & AA and (AUTHORITY, TYPE_NS) in owners and not has_answer
    if is_referral and any((AUTHORITY, kind) in owners for kind in OF_DENIAL):
        zones |= owners[AUTHORITY, TYPE_NS]
    leads_to = uppermost({question.name} | zones if question.kind in OF_CHAIN or zones or is_referral else set())
    is_asked_for = question.kind in OF_CHAIN or not zones
    return Part(octets, question, names, targets, leads_to, question if is_asked_for else frozenset(zones), records)


class Parts:
    """The answers by their questions, and in groups: those of one topic that lead down to the same names, or else are
    for the same question. What has one of a group has all, so that a capture needs no look at each."""

    def __init__(self, messages: Sequence[bytes]) -> None:
        self.parts = [part_of(octets) for octets in messages]
        self.least = min((part.records for part in self.parts), default=0)
        self.by_question: DefaultDict[Question, List[int]] = defaultdict(list)
        self.groups: Dict[Group, List[int]] = {}
        self.by_name: DefaultDict[Labels, List[Group]] = defaultdict(list)
        self.names: DefaultDict[Question, Set[Labels]] = defaultdict(set)
        self.targets: DefaultDict[Question, Set[Labels]] = defaultdict(set)
        for number, part in enumerate(self.parts):
            self.by_question[part.question].append(number)
            self.names[part.question] |= part.names
            self.targets[part.question].update(part.targets)
            group = part.leads_to or part.question, part.topic
            if group not in self.groups:
                self.groups[group] = []
                for name in part.leads_to:
                    self.by_name[name].append(group)
            self.groups[group].append(number)

    def followed(self, question: Question) -> Set[Question]:
        """The question, and those of its type at the names that aliases lead to from it."""
        questions: Set[Question] = set()
        waiting = [question]
        while waiting:
            asked = waiting.pop()
            if asked not in questions:
                questions.add(asked)
                waiting += [asked._replace(name=target) for target in self.targets.get(asked, ())]
        return questions

    def needed(self, question: Question) -> Set[Group]:
        """The groups of the answers to the question and to those that it leads to, and what leads to their names."""
        followed = self.followed(question)
        names = {asked.name for asked in followed}.union(*(self.names.get(asked, ()) for asked in followed))
        groups = {group for name in names_above(names) for group in self.by_name.get(name, ())}
        return groups.union(own for own in ((asked, asked) for asked in followed) if own in self.groups)

    def ranked(self, question: Question, groups: Set[Group]) -> Iterator[int]:
        """The answers in the groups: one for each topic before the others, those of this question first."""
        by_topic: DefaultDict[Topic, List[List[int]]] = defaultdict(list)
        for group in groups:
            by_topic[group[1]].append(self.groups[group])
        waiting = [iter(heapq.merge(*numbers)) for numbers in by_topic.values()]
        while waiting:
            level = [(next(numbers, None), numbers) for numbers in waiting]
            waiting = [numbers for number, numbers in level if number is not None]
            found = [number for number, _ in level if number is not None]
            yield from sorted(found, key=lambda number: (self.parts[number].question != question, number))

    def fitting(self, numbers: Iterable[int]) -> List[int]:
        """Those that a capture takes in this order, until it has no room for any; the first it takes in any case."""
        taken: List[int] = []
        records = 0
        for number in numbers:
            more = self.parts[number].records
            if not taken or records + more <= RECORDS_MOST:
                taken.append(number)
                records += more
            if len(taken) == MESSAGES_MOST or records + self.least > RECORDS_MOST:
                break
        return sorted(taken)

    def captures(self) -> Iterator[Tuple[Question, List[bytes], int]]:
        """A question and its answers for each capture; what leads down has none of its own where it is in another."""
        used: Set[int] = set()
        for question in sorted(self.by_question, key=lambda question: question.kind in OF_CHAIN):
            if question.kind in OF_CHAIN and used.issuperset(self.by_question[question]):
                continue
            groups = self.needed(question)
            chosen = self.fitting(self.ranked(question, groups))
            used.update(chosen)
            count = sum(len(self.groups[group]) for group in groups)
            yield question, [self.parts[number].octets for number in chosen], count - len(chosen)


def file_name(number: int, question: Question) -> str:
    """The question as part of a file's name: what may not stand there, as octets in hex."""
    labels = [quote(label, safe="").replace(".", "%2E") + "." for label in question.name]
    name = "".join(labels) or "."
    return f"{number:04}-{name if len(name) <= NAME_SIZE_MOST else name[:NAME_SIZE_MOST] + '..'}-{question.kind}"


def new_folder(path: str) -> None:
    os.makedirs(path, exist_ok=True)
    if os.listdir(path):
        raise Refusal(f"{shown(path)}: the folder isn't empty")


def write_captures(folder: str, messages: Sequence[bytes]) -> int:
    """Writes them, and the list of their questions; answers how many they are."""
    new_folder(folder)
    lines, number = [], 0
    for number, (question, answers, left_out) in enumerate(Parts(messages).captures(), 1):
        name = file_name(number, question)
        write(os.path.join(folder, name + ".cap"), framed(answers))
        if question.group == CLASS_IN:
            lines.append(f"{name} {name_text(question.name)} {question.kind}\n")
        if left_out:
            tell(f"{name}.cap has {len(answers)} answers, and there are {left_out} more")
    write(os.path.join(folder, "questions"), "".join(lines).encode())
    return number
