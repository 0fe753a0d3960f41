"""The kinds, each with how a zone is made that shows it, and one that just doesn't."""

from __future__ import annotations

from typing import Callable, NamedTuple

from breaking.zones import PARENT, Room

from . import answers, keys
from .signing import Made

Make = Callable[[Room, str, bool], Made]
BESIDE = "not-"  # before the name of what just isn't odd


class Case(NamedTuple):
    """What it shows, by the kind's word, how it's made, and whether it is a transfer."""

    name: str
    make: Make
    is_transfer: bool = False

    def made(self, room: Room, is_odd: bool) -> Made:
        return self.make(room, f"{'' if is_odd else BESIDE}{self.name}.{PARENT}", is_odd)


CASES = (
    Case("ends-soon", answers.ends_soon),
    Case("ends-before-ttl", answers.ends_before_ttl),
    Case("begins-soon", answers.begins_soon),
    Case("ends-at-once", answers.ends_at_once),
    Case("sha1-key", keys.sha1_key),
    Case("sha1-ds", keys.sha1_ds),
    Case("gost-key", keys.gost_key),
    Case("gost-ds", keys.gost_ds),
    Case("old-key", keys.old_key),
    Case("old-ds", keys.old_key),
    Case("rsa-short", keys.rsa_short),
    Case("rsa-exponent", keys.rsa_exponent),
    Case("rsa-exponent-large", keys.rsa_exponent_large),
    Case("nsec3-iterations", answers.nsec3_iterations),
    Case("nsec3-many-iterations", answers.nsec3_many_iterations),
    Case("nsec3-salt", answers.nsec3_salt),
    Case("opt-out-over-signed", answers.opt_out_over_signed),
    Case("ds-without-key", keys.ds_without_key),
    Case("standby-key", keys.standby_key),
    Case("revoked-key", keys.revoked_key),
    Case("sep-flag", keys.sep_flag),
    Case("same-tag", keys.same_tag),
    Case("algorithm-unsigned", keys.algorithm_unsigned),
    Case("large-keys", keys.large_keys),
    Case("ttl-differs", answers.ttl_differs),
    Case("ttl-above-original", answers.ttl_above_original),
    Case("chain-gap", answers.chain_gap, True),
    Case("alias-chain", answers.alias_chain),
    Case("alias-into-unsigned", answers.alias_into_unsigned),
    Case("cds-and-keys", keys.cds_and_keys),
    Case("cds-and-ds", keys.cds_and_ds),
)
