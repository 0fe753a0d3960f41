"""Tests of tools/incidents."""
import tool  # noqa: F401
