"""Requests that strangers may bring about, each made to cost much for what it weighs. Each is made at a size, as large
as one likes, and the bench measures it at the size named here and at four times as much."""
from . import denials, derivations, files, keys, signatures, timelines

SHAPES = {
    "long-data": (signatures.long_data, 24),
    "pairs": (signatures.pairs, 240),
    "exponents": (signatures.exponents, 1),
    "digests": (keys.digests, 16),
    "alike": (keys.alike, 16),
    "key-sets": (derivations.key_sets, 16),
    "key-sets-apart": (derivations.key_sets_apart, 16),
    "key-sets-aliases": (derivations.key_sets_aliases, 16),
    "key-anchors": (derivations.key_anchors, 16),
    "keys-to-check": (derivations.keys_to_check, 4),
    "expanded-nsec": (denials.expanded_nsec, 4),
    "expanded-nsec3": (denials.expanded_nsec3, 4),
    "hashes": (denials.hashes, 31),
    "question-hashes": (denials.question_hashes, 4),
    "aliases": (denials.aliases, 8),
    "alias-hashes": (denials.alias_hashes, 3),
    "timeline-transfer": (timelines.transfer, 15),
    "timeline-bystanders": (timelines.bystanders, 250),
    "timeline-hashes": (timelines.hashes, 25),
    "timeline-ends": (timelines.ends, 756),
    "key-file": (files.key_file, 4_000),
    "statements": (files.statements, 250_000),
    "scattered": (files.scattered, 62_500),
    "long-statements": (files.long_statements, 5_000),
    "long-scattered": (files.long_scattered, 5_000),
    "questions": (files.questions, 25_000),
    "frames": (files.frames, 5_000_000),
    "zeros": (files.zeros, 2**24),
}
