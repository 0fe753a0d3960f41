"""What fails, a sentence for each word of a `reason`, and what follows from it."""
from typing import Callable, Dict
from .explanation import Explanation, Line
from . import missing, signatures, vouchers
from .said import FAIL, THEN, Said, Words
from .values import owned
from .vouchers import is_voucher

Reason = Callable[[Explanation, Line], Words]

# What a word is said by; a word that is said of a signature and of what vouches for keys has one for each.
OF_SIGNATURES: Dict[str, Reason] = {
    "labels": signatures.labels,
    "signer": signatures.signer,
    "expanded": signatures.expanded,
    "algorithm": signatures.algorithm,
    "not-yet": signatures.not_yet,
    "expired": signatures.expired,
    "key-missing": signatures.key_missing,
    "not-zone-key": signatures.not_zone_key,
    "bad": signatures.bad,
    "unanswered": signatures.unanswered,
    "key-untrusted": signatures.key_untrusted,
    "no-closer": signatures.no_closer,
}
OF_VOUCHERS: Dict[str, Reason] = {
    "algorithm": vouchers.algorithm,
    "digest-type": vouchers.digest_type,
    "digest-ignored": vouchers.digest_ignored,
    "key-missing": vouchers.key_missing,
    "key-algorithm": vouchers.key_algorithm,
    "digest-differs": vouchers.digest_differs,
}
OF_OTHERS: Dict[str, Reason] = {
    "no-anchor": missing.no_anchor,
    "dnskey-missing": missing.dnskey_missing,
    "ds-missing": missing.ds_missing,
    "not-self-signed": missing.not_self_signed,
    "not-vouched": missing.not_vouched,
    "unsigned": missing.unsigned,
    "dname": missing.dname,
    "nsec3-iterations": missing.nsec3_iterations,
    "nsec3-unusable": missing.nsec3_unusable,
    "delegation": missing.delegation,
    "type-held": missing.type_held,
    "match-missing": missing.match_missing,
    "encloser-missing": missing.encloser_missing,
    "cover-missing": missing.cover_missing,
    "answer-missing": missing.answer_missing,
    "denial-unproved": missing.denial_unproved,
    "ds-unproved": missing.ds_unproved,
}


def reason(told: Explanation, line: Line) -> Said:
    """The sentence of a fact of its own."""
    about, text = words_of(line)[line["word"]](told, line)
    return Said(FAIL, told.named(line, about), text, line["ede"])


def words_of(line: Line) -> Dict[str, Reason]:
    if "signer" in line:
        return OF_SIGNATURES
    return OF_VOUCHERS if is_voucher(line) else OF_OTHERS


def follows(told: Explanation, line: Line) -> Said:
    """The sentence of a consequence."""
    about = told.named(line, owned(line["owner"], line["type"]))
    return Said(THEN, about, FOLLOWS[line["word"]].format(**line))


FOLLOWS = {"untrusted": "signed by key {tag} of {signer}, which isn't trusted"}
