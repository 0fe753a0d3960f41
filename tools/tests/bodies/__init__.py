"""Tests of tools/wrong-bodies, and of how it judges."""
import tool  # noqa: F401
