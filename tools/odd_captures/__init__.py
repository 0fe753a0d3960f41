"""Zones of real signers that have something odd, and ones that just haven't; what a server answers of them; and what
other programs say."""
