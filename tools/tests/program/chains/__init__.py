"""Sound chains from an anchor to an answer or a denial, what can be wrong with them, and what may stand beside them."""
