"""Tests of tools/judge."""
import tool  # noqa: F401
