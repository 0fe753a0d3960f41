"""The zones that tools/incidents breaks on loopback, what serves them, and what programs say of them."""
