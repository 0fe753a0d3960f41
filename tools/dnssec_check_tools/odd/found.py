"""All that is odd of a verdict."""
from typing import Any, Callable, Dict, FrozenSet, Iterable, List, NamedTuple, Optional, Tuple

from ..explaining.explanation import Explanation
from ..judging.evidence import Evidence
from . import algorithms, answers, denials, handovers, keys, times
from .kinds import Odd, rank_of
from .records import Records
from .scene import Link, Scene, Zone

DAYS, DAY = 7, 86400
OF_CHAINS = ("SecureAnswer", "SecureNoName", "SecureNoData", "Insecure")  # the verdicts that a chain carries

# What finds each kind: of a link of the chain, of a zone of it, and of the question. A transfer shows one more.
OF_LINKS: Tuple[Callable[[Scene, Link], Iterable[Odd]], ...] = (
    times.ends_soon,
    times.ends_before_ttl,
    times.begins_soon,
    algorithms.sha1_ds,
    algorithms.gost_ds,
    algorithms.old_ds,
    denials.opt_out_over_signed,
    keys.algorithm_unsigned,
    answers.ttl_differs,
    answers.ttl_above_original,
)
OF_ZONES: Tuple[Callable[[Scene, Zone], Iterable[Odd]], ...] = (
    times.ends_at_once,
    algorithms.sha1_key,
    algorithms.gost_key,
    algorithms.old_key,
    algorithms.rsa_short,
    algorithms.rsa_exponent,
    denials.nsec3_iterations,
    denials.nsec3_many_iterations,
    denials.nsec3_salt,
    keys.ds_without_key,
    keys.standby_key,
    keys.revoked_key,
    keys.sep_flag,
    keys.same_tag,
    answers.large_keys,
    handovers.cds_and_keys,
    handovers.cds_and_ds,
)
OF_QUESTIONS: Tuple[Callable[[Scene], Iterable[Odd]], ...] = (answers.alias_chain, answers.alias_into_unsigned)


class Wish(NamedTuple):
    """How many seconds are soon, and the kinds that fail a verdict that is secure."""

    soon: int = DAYS * DAY
    failing: FrozenSet[str] = frozenset()


class Oddities:
    """What is odd of the verdicts on a capture. Its records are read where one is asked for, and what is found of a
    link or a zone is kept, since most questions have the same."""

    def __init__(self, wish: Wish) -> None:
        self.wish = wish
        self.records: Optional[Records] = None
        self.kept: Dict[Any, List[Odd]] = {}

    def of(self, read: Callable[[], Evidence], told: Explanation) -> Tuple[Odd, ...]:
        """By kind, each once; of what isn't proved nothing is said."""
        if told.value["verdict"] not in OF_CHAINS:
            return ()
        if self.records is None:
            self.records = Records(read())
        return tuple(each_once(self.found_in(Scene(self.records, told, self.wish.soon))))

    def found_in(self, scene: Scene) -> Iterable[Odd]:
        for link in scene.links:
            yield from self.kept_of((scene.now, link.rrset.number, link.signature), OF_LINKS, scene, link)
        for zone in scene.zones:
            yield from self.kept_of((scene.now, zone.keys.number, zone.entry), OF_ZONES, scene, zone)
        for look in OF_QUESTIONS:
            yield from look(scene)

    def kept_of(self, key: Any, looks: Iterable[Callable[..., Iterable[Odd]]], scene: Scene, about: Any) -> List[Odd]:
        if key not in self.kept:
            self.kept[key] = [odd for look in looks for odd in look(scene, about)]
        return self.kept[key]

    def is_failing(self, found: Iterable[Odd]) -> bool:
        return any(odd.word in self.wish.failing for odd in found)


def each_once(found: Iterable[Odd]) -> List[Odd]:
    """By kind."""
    return sorted(dict.fromkeys(found), key=rank_of)


def words_of(found: Iterable[Odd]) -> Tuple[str, ...]:
    """The words of the kinds, each once."""
    return tuple(dict.fromkeys(odd.word for odd in found))
